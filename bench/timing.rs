//! The clock: many batches of calls, the sides taking turns, and the median batch of each.
use std::hint::black_box;
use std::time::{Duration, Instant};

/// Nanoseconds a call: of the proved one, and of the plain one by value and in place.
pub struct Times {
    pub proved: f64,
    pub by_value: f64,
    pub in_place: f64,
}

impl Times {
    /// How many times as long the proved call takes as the same call in plain Rust.
    pub fn ratio(&self) -> f64 {
        self.proved / self.by_value
    }
}

/// What makes a number of calls on one side, and takes their time.
pub type Side<'a> = Box<dyn FnMut(u32) -> Duration + 'a>;

/// Many short batches: few of them meet another program's turn at the processor, and the median is of one that doesn't.
const BATCHES: usize = 301;
/// A batch has as many calls as the proved side makes in this time.
const BATCH: Duration = Duration::from_micros(100);

/// The times of calls with their three sides, proved, by value and in place. All of them take turns, batch by batch.
pub fn times(calls: Vec<[Side; 3]>) -> Vec<Times> {
    let mut timed: Vec<[Timed; 3]> = calls.into_iter().map(Timed::alike).collect();
    for _ in 0..BATCHES {
        timed.iter_mut().flatten().for_each(Timed::run_batch);
    }
    let times_of = |sides: [Timed; 3]| {
        let [proved, by_value, in_place] = sides.map(Timed::median);
        Times { proved, by_value, in_place }
    };
    timed.into_iter().map(times_of).collect()
}

/// A side with its batches so far, in nanoseconds a call.
struct Timed<'a> {
    side: Side<'a>,
    calls_a_batch: u32,
    batches: Vec<f64>,
}

impl<'a> Timed<'a> {
    /// The sides of a call make as many calls a batch as the first of them, the proved one, needs.
    fn alike(mut sides: [Side<'a>; 3]) -> [Timed<'a>; 3] {
        let mut calls_a_batch = 1;
        while sides[0](calls_a_batch) < BATCH {
            calls_a_batch *= 2;
        }
        sides.map(|side| Timed { side, calls_a_batch, batches: Vec::with_capacity(BATCHES) })
    }

    fn run_batch(&mut self) {
        let taken = (self.side)(self.calls_a_batch);
        self.batches.push(taken.as_secs_f64() * 1e9 / f64::from(self.calls_a_batch));
    }

    fn median(mut self) -> f64 {
        self.batches.sort_by(f64::total_cmp);
        self.batches[BATCHES / 2]
    }
}

/// Times calls that each take a copy of a sheet by value. The one copy that handing it over takes is in the time.
pub fn by_value<'a, S, A>(sheet: &'a S, mut call: impl FnMut(&S) -> A + 'a) -> Side<'a> {
    Box::new(move |calls| {
        let start = Instant::now();
        for _ in 0..calls {
            black_box(&call(black_box(sheet)));
        }
        start.elapsed()
    })
}

/// So many sheets lie in the processor's nearest memory.
const COPIES: usize = 8;

/// Times calls that each change a sheet in place. Each has its own copy of the sheet, made before the clock is read; what reading it
/// takes is left out.
pub fn in_place<'a, S: Copy, A>(sheet: &'a S, mut call: impl FnMut(&mut S) -> A + 'a) -> Side<'a> {
    let clock = (0..1_000).map(|_| Instant::now().elapsed()).min().unwrap_or_default();
    Box::new(move |calls| {
        let mut taken = Duration::ZERO;
        let mut left = calls as usize;
        while left > 0 {
            let mut copies = [*sheet; COPIES];
            let used = &mut copies[..left.min(COPIES)];
            left -= used.len();
            black_box(&mut *used);
            let start = Instant::now();
            for copy in used {
                black_box(&call(black_box(copy)));
            }
            taken += start.elapsed().saturating_sub(clock);
        }
        taken
    })
}
