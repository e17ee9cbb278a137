//! The rule sets of the benchmark.

use crate::goals::{write_rule, Rule};
use crate::random::{rule, Random, Taste};
use crate::spelling::{letters, spell};

/// The readable text of the realistic set.
pub const ENTITLEMENTS: &str = include_str!("../../examples/entitlements.txt");

/// A table of 210 rows from bodies of which every second has two branches.
const WIDE: &str = "2*a <- T; b <- a; c <- b & a; d <- c; e <- d & c; f <- e; g <- f & e; h <- g; \
    i <- h & g; j <- i; k <- j & i; l <- k; m <- l & k; n <- m; o <- n & m; p <- o; q <- p & o; \
    r <- q; s <- r & q; t <- s";

/// Three countdowns, each begun only when the one before has ended: 768 growing rounds.
const COUNTDOWN: &str = "a + 15*b <- T; 16*c <- b; a <- a + c; \
    d + 15*e <- a; 16*f <- e; d <- d + f; d + a <- T; d + b <- T; d + c <- T; 2*d <- T; \
    g + 15*h <- d; 16*i <- h; g <- g + i; \
    g + a <- T; g + b <- T; g + c <- T; g + d <- T; g + e <- T; g + f <- T; 2*g <- T";

/// A table of 256 rows, which fills the capacity.
const BRIM: &str = "5*a <- T; b <- a; c <- b; d <- c; e <- d; f <- e; \
    g + h <- T; g + i <- T; g + j <- T; h + i <- T";

/// The seed of the random set.
const SEED: u64 = 2832;

/// Makes 64 random rules.
pub fn random_set(seed: u64) -> Vec<u8> {
    let mut random = Random::new(seed);
    let taste = Taste { kinds: 12, connectives: 3, both: 45, done: 1 };
    let rules: Vec<Rule> = (0..64).map(|_| rule(&mut random, &taste, 3, 30, 4)).collect();
    rules.iter().flat_map(|rule| write_rule(rule).expect("a rule that fits")).collect()
}

/// Gives the benchmark's rule sets with their names.
pub fn bench_sets() -> Vec<(&'static str, Vec<u8>)> {
    vec![
        ("entitlements", spell(ENTITLEMENTS).expect("a good text")),
        ("wide", letters(WIDE)),
        ("countdown", letters(COUNTDOWN)),
        ("random", random_set(SEED)),
        ("brim", letters(BRIM)),
    ]
}

#[cfg(test)]
mod tests {
    use super::*;
    use crate::listing::listing;

    /// Each set closes with the rows and rounds that the benchmark tells.
    #[test]
    fn outcomes_of_the_sets() {
        let first = |rules: &[u8]| listing(rules).lines().next().map(String::from);
        let told: Vec<_> = bench_sets().iter().map(|(_, rules)| first(rules).unwrap()).collect();
        let shown = ["closed 70 6", "closed 210 39", "closed 3 768", "closed 79 9", "closed 256 26"];
        assert_eq!(told, shown);
    }

    /// The committed files hold exactly these sets.
    #[test]
    fn the_files_are_these_sets() {
        let files: [&[u8]; 5] = [
            include_bytes!("../../bench/sets/entitlements.rules"),
            include_bytes!("../../bench/sets/wide.rules"),
            include_bytes!("../../bench/sets/countdown.rules"),
            include_bytes!("../../bench/sets/random.rules"),
            include_bytes!("../../bench/sets/brim.rules"),
        ];
        for ((name, rules), file) in bench_sets().iter().zip(files) {
            assert_eq!(rules, file, "{name}");
        }
    }
}
