//! A seeded generator of random numbers (splitmix64) that never changes, and random goals and rules.

use crate::goals::{both, count, together, Goal, Rule};

/// The state of the generator.
#[derive(Clone, Debug)]
pub struct Random {
    state: u64,
}

impl Random {
    /// Starts from a seed.
    pub fn new(seed: u64) -> Random {
        Random { state: seed }
    }

    /// Gives the next number.
    pub fn number(&mut self) -> u64 {
        self.state = self.state.wrapping_add(0x9e37_79b9_7f4a_7c15);
        let mut mixed = self.state;
        mixed = (mixed ^ (mixed >> 30)).wrapping_mul(0xbf58_476d_1ce4_e5b9);
        mixed = (mixed ^ (mixed >> 27)).wrapping_mul(0x94d0_49bb_1331_11eb);
        mixed ^ (mixed >> 31)
    }

    /// Gives a number below `bound`.
    pub fn below(&mut self, bound: u64) -> u64 {
        ((u128::from(self.number()) * u128::from(bound)) >> 64) as u64
    }

    /// Gives a number from `low` to `high`, both included.
    pub fn between(&mut self, low: u64, high: u64) -> u64 {
        low + self.below(high - low + 1)
    }

    /// Gives an index below `length`.
    pub fn index(&mut self, length: usize) -> usize {
        self.below(length as u64) as usize
    }

    /// Says yes `part` times out of `whole`.
    pub fn chance(&mut self, part: u64, whole: u64) -> bool {
        self.below(whole) < part
    }

    /// Gives one of the listed things.
    pub fn pick<T: Clone>(&mut self, things: &[T]) -> T {
        things[self.index(things.len())].clone()
    }

    /// Gives a byte.
    pub fn byte(&mut self) -> u8 {
        self.below(256) as u8
    }
}

/// What random goals are made of.
#[derive(Clone, Copy, Debug)]
pub struct Taste {
    /// The number of kinds.
    pub kinds: usize,
    /// The most connectives of a goal.
    pub connectives: u64,
    /// How many connectives of 100 are &.
    pub both: u64,
    /// How many leaves of 100 are ⊤.
    pub done: u64,
}

/// Makes a goal with exactly this number of connectives.
pub fn goal_of(random: &mut Random, taste: &Taste, connectives: u64) -> Goal {
    if connectives == 0 {
        return if random.chance(taste.done, 100) {
            Goal::Done
        } else {
            Goal::Kind(random.index(taste.kinds))
        };
    }
    let make = if random.chance(taste.both, 100) { both } else { together };
    let left = random.below(connectives);
    let left_goal = goal_of(random, taste, left);
    let right_goal = goal_of(random, taste, connectives - 1 - left);
    make(left_goal, right_goal)
}

/// Makes a goal that opens into at most `most` branches.
pub fn goal_within(random: &mut Random, taste: &Taste, most: u64) -> Goal {
    let mut connectives = random.between(0, taste.connectives);
    loop {
        let goal = goal_of(random, taste, connectives);
        if count(&goal).is_some_and(|branches| branches <= most) {
            return goal;
        }
        connectives = connectives.saturating_sub(1);
    }
}

/// Makes a head of a random length up to `longest`.
pub fn head(random: &mut Random, kinds: usize, longest: u64) -> Vec<usize> {
    let length = random.between(1, longest);
    let mut head: Vec<usize> = (0..length).map(|_| random.index(kinds)).collect();
    head.sort_unstable();
    head
}

/// Makes a rule that is a fact (its body ⊤) `facts` times out of 100.
pub fn rule(random: &mut Random, taste: &Taste, longest: u64, facts: u64, most: u64) -> Rule {
    let head = head(random, taste.kinds, longest);
    let body = if random.chance(facts, 100) { Goal::Done } else { goal_within(random, taste, most) };
    Rule { head, body }
}

#[cfg(test)]
mod tests {
    use super::*;

    /// The generator gives the known numbers of splitmix64.
    #[test]
    fn the_generator_is_splitmix64() {
        let mut random = Random::new(1234567);
        assert_eq!(random.number(), 6457827717110365317);
        assert_eq!(random.number(), 3203168211198807973);
        assert_eq!(random.number(), 9817491932198370423);
    }
}
