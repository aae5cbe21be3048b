//! Gross and net, in hundredths of a ton ("Gross and net"; "Vessels with screws", T-06 of document 02).
use super::measure::{nearest, Kind};
use super::rules::{Space, Standing};
use super::Refusal;

#[derive(Clone, Copy, PartialEq, Eq)]
pub struct Report {
    pub gross: u64,
    pub net: u64,
}

/// Gross, and all that is deducted from it.
pub struct Reckoning {
    gross: u64,
    deductions: u64,
}

impl Reckoning {
    /// Gross and net, or refusal 21.
    pub fn report(self) -> Result<Report, Refusal> {
        let net = self.gross.checked_sub(self.deductions).ok_or(Refusal::DeductionsPass)?;
        Ok(Report { gross: self.gross, net })
    }
}

/// The sums over the standing spaces.
#[derive(Default)]
struct Sums {
    under_deck_lengths: u64,
    hull: u64,
    hatchways: u64,
    exempt: u64,
    ballast: u64,
    deducted: u64,
    machinery: u64,
}

impl Sums {
    /// One way along the row. Each sum takes an amount or 0 of every space, so that no branch depends on what stands where.
    fn over(spaces: &[Space]) -> Sums {
        let only = |counts: bool, amount: u32| if counts { u64::from(amount) } else { 0 };
        let mut sums = Sums::default();
        for Space { kind, standing, tonnage, length, .. } in spaces.iter().copied() {
            let is_hull = matches!(kind, Kind::UnderDeck | Kind::BetweenDeck | Kind::Superstructure);
            sums.under_deck_lengths += only(kind == Kind::UnderDeck, length);
            sums.hull += only(is_hull, tonnage);
            sums.hatchways += only(kind == Kind::Hatchway, tonnage);
            sums.exempt += only(standing == Standing::Exempt, tonnage);
            sums.ballast += only(standing == Standing::Ballast, tonnage);
            sums.deducted += only(standing == Standing::Deducted, tonnage);
            sums.machinery += only(standing == Standing::Machinery, tonnage);
        }
        sums
    }

    /// G and the excess of the hatchways over half a percent of it.
    fn gross_over(&self, g: u64) -> u64 {
        g + self.hatchways.saturating_sub(nearest(g, 200))
    }

    /// Whether water ballast is more than 30% of the gross with only standing 1 taken off.
    fn ballast_over(&self) -> bool {
        10 * self.ballast > 3 * self.gross_over(self.hull - self.exempt)
    }
}

/// Gross and deductions of the spaces of a sheet with a tonnage length, or refusal 13 or 14.
pub fn reckon(spaces: &[Space], tonnage_length: u32, justified: bool) -> Result<Reckoning, Refusal> {
    let sums = Sums::over(spaces);
    if sums.under_deck_lengths != u64::from(tonnage_length) {
        return Err(Refusal::LengthsDiffer);
    }
    if !justified && sums.ballast_over() {
        return Err(Refusal::NotJustified);
    }
    let gross = sums.gross_over(sums.hull - sums.exempt - sums.ballast);
    Ok(Reckoning { gross, deductions: sums.deducted + engine_room_deduction(sums.machinery, gross) })
}

/// What is deducted for machinery, by the three classes of 69.121(e)(2); in the third, where the owner may elect, the greater.
fn engine_room_deduction(machinery: u64, gross: u64) -> u64 {
    let share_of_gross = nearest(32 * gross, 100);
    if 100 * machinery <= 13 * gross {
        nearest(32 * machinery, 13)
    } else if 100 * machinery < 20 * gross {
        share_of_gross
    } else {
        share_of_gross.max(nearest(7 * machinery, 4))
    }
}
