"""A second, independent reading of the paper's rules for measuring the tonnage of vessels, to compare results with."""
