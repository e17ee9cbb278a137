//! Random small rule sets on which the rounds, the operator and the prover are held against each other.

use crate::goals::{branches_order, count_order, write_goal, write_rule, Goal, Rule};
use crate::operator::{apply, satisfied, Facts};
use crate::prover::Prover;
use crate::random::{goal_within, rule, Random, Taste};
use crate::rounds::{ask, round, round_of, rounds_of, Answer, Effort, Settings};
use crate::sets::{bytes_of, covered, empty, minimal, place, rows_of, Set, ROW};

/// The most rounds that are compared for one rule set.
const DEEPEST: u64 = 5;

/// The most facts that an unpruned interpretation may hold to be put into S_P once more.
const FACTS: usize = 60;

/// What has been compared so far.
#[derive(Clone, Debug, Default, PartialEq, Eq)]
pub struct Tally {
    /// Rule sets.
    pub sets: u64,
    /// Tables after k rounds held against S_P to the k, unpruned.
    pub tables: u64,
    /// Token sets held against the prover after k rounds.
    pub facts: u64,
    /// Orders held against the prover and against satisfaction after k rounds.
    pub orders: u64,
    /// Orders that were answered yes.
    pub yes: u64,
    /// Single rounds on random rows held against S_P.
    pub rounds: u64,
    /// Closings held against the prover with one more step.
    pub closed: u64,
}

impl Tally {
    /// Says the tally in one line.
    pub fn say(&self) -> String {
        format!(
            "{} rule sets: {} tables against S_P, {} token sets and {} orders ({} yes) against the prover, \
             {} single rounds against S_P, {} closings",
            self.sets, self.tables, self.facts, self.orders, self.yes, self.rounds, self.closed
        )
    }
}

/// Makes a small rule set.
fn small_rules(random: &mut Random, kinds: usize) -> Vec<Rule> {
    let taste = Taste { kinds, connectives: 4, both: 35, done: 12 };
    let number = random.between(1, 6);
    (0..number).map(|_| rule(random, &taste, 3, 30, 4)).collect()
}

/// Makes a small order of at most 16 branches.
fn small_order(random: &mut Random, kinds: usize) -> Vec<Goal> {
    let taste = Taste { kinds, connectives: 3, both: 40, done: 10 };
    let mut goals = Vec::new();
    for _ in 0..random.below(4) {
        goals.push(goal_within(random, &taste, 4));
        if count_order(&goals).is_none() {
            goals.pop();
        }
    }
    goals
}

/// Gives the order's bytes.
fn order_bytes(goals: &[Goal]) -> Vec<u8> {
    goals.iter().flat_map(write_goal).collect()
}

/// Gives the goals of a token set.
fn goals_of(set: &Set) -> Vec<Goal> {
    let repeat = |(kind, &count): (usize, &u64)| vec![Goal::Kind(kind); count as usize];
    set.iter().enumerate().flat_map(repeat).collect()
}

/// Gives every token set of these kinds with counts up to `most`.
fn every_set(kinds: usize, most: u64) -> Vec<Set> {
    let mut sets = vec![empty()];
    for kind in 0..kinds {
        let with = |set: &Set| {
            let mut set = set.clone();
            (0..=most)
                .map(|count| {
                    set[kind] = count;
                    set.clone()
                })
                .collect::<Vec<_>>()
        };
        sets = sets.iter().flat_map(with).collect();
    }
    sets
}

/// Makes random rows of which none includes another, ascending.
pub fn random_rows(random: &mut Random, kinds: usize, tries: u64, most: u64) -> Vec<Set> {
    let mut rows = Vec::new();
    for _ in 0..tries {
        let mut row = empty();
        for count in row.iter_mut().take(kinds) {
            *count = if random.chance(1, 2) { random.between(0, most) } else { 0 };
        }
        if !covered(&rows, &row) {
            place(&mut rows, row);
        }
    }
    rows
}

/// Compares an order's answer with the prover and with satisfaction.
fn check_order(
    prover: &mut Prover,
    kinds: usize,
    rows: &[Set],
    order: Vec<Goal>,
    steps: u64,
    tally: &mut Tally,
) -> Result<(), String> {
    let bytes = order_bytes(&order);
    let answer = ask(kinds as u64, &bytes_of(rows), &bytes);
    let facts: Facts = rows.iter().cloned().collect();
    let without_more = satisfied(&facts, &order).contains(&empty());
    let told = branches_order(&order).len();
    let proved = prover.proves(order, steps);
    let expected = if proved { Answer::Yes } else { Answer::No };
    if answer != expected || without_more != proved {
        return Err(format!(
            "order {bytes:?} of {told} branches after {steps} rounds: asked {answer:?}, proved {proved}, satisfied {without_more}"
        ));
    }
    tally.orders += 1;
    tally.yes += u64::from(proved);
    Ok(())
}

/// Compares one round on random rows with the minimal sets of the rows together with S_P of them.
fn check_round(random: &mut Random, kinds: usize, rules: &[Rule], tally: &mut Tally) -> Result<(), String> {
    let tries = random.between(0, 6);
    let rows = random_rows(random, kinds, tries, 3);
    let facts: Facts = rows.iter().cloned().collect();
    let mut together = apply(rules, &facts);
    let grows = together.iter().any(|fact| !covered(&rows, fact));
    together.extend(facts);
    let settings = Settings { kinds: kinds as u64, capacity: 256, rounds: 0 };
    let bytes: Vec<u8> = rules.iter().flat_map(|r| write_rule(r).expect("a small rule")).collect();
    let (table, work) = (vec![1; 256 * ROW], vec![2; 3 * 256 * ROW]);
    let outcome = round(settings, &bytes, &bytes_of(&rows), &table, &work);
    let expected = minimal(&together);
    let number = expected.len();
    let answer = Answer::Round { rows: number as u64, grew: grows };
    if outcome.answer != answer || rows_of(&outcome.table[..number * ROW]) != expected {
        return Err(format!("one round on {rows:?}: {:?}, expected {answer:?}", outcome.answer));
    }
    if outcome.table[number * ROW..].iter().chain(&outcome.work).any(|&byte| byte != 0) {
        return Err("one round leaves something behind its rows".into());
    }
    tally.rounds += 1;
    Ok(())
}

/// Compares everything for one rule set.
fn check_set(random: &mut Random, tally: &mut Tally) -> Result<(), String> {
    let kinds = random.between(1, 4) as usize;
    let rules = small_rules(random, kinds);
    let told = |what: String| format!("{what}\nrules: {rules:?}");
    let mut prover = Prover::new(&rules);
    let box_sets = every_set(kinds, if kinds < 3 { 4 } else { 2 });
    let mut rows: Vec<Set> = Vec::new();
    let mut facts = Some(Facts::new());
    for steps in 0..=DEEPEST {
        if let Some(unpruned) = &facts {
            if minimal(unpruned) != rows {
                let what = format!("after {steps} rounds: rows {rows:?}, S_P {unpruned:?}");
                return Err(told(what));
            }
            tally.tables += 1;
        }
        for set in &box_sets {
            let proved = prover.proves(goals_of(set), steps);
            if covered(&rows, set) != proved {
                return Err(told(format!("{set:?} after {steps} rounds: proved {proved}")));
            }
            tally.facts += 1;
        }
        for _ in 0..4 {
            let order = small_order(random, kinds);
            check_order(&mut prover, kinds, &rows, order, steps, tally).map_err(told)?;
        }
        facts = facts.filter(|f| f.len() <= FACTS).map(|f| apply(&rules, &f));
        let effort = &mut Effort::of(20_000);
        match round_of(&rules, &rows, 256, false, effort) {
            Ok((next, _)) => rows = next,
            Err(_) => break,
        }
    }
    check_round(random, kinds, &rules, tally).map_err(told)?;
    if let Ok((rows, rounds)) = rounds_of(&rules, 256, DEEPEST, &mut Effort::of(50_000)) {
        for steps in [rounds, rounds + 1] {
            for _ in 0..4 {
                let order = small_order(random, kinds);
                check_order(&mut prover, kinds, &rows, order, steps, tally).map_err(told)?;
            }
        }
        tally.closed += 1;
    }
    tally.sets += 1;
    Ok(())
}

/// Compares everything for `count` rule sets, and gives the tally or the first difference.
pub fn selfcheck(seed: u64, count: u64) -> Result<Tally, String> {
    let mut random = Random::new(seed);
    let mut tally = Tally::default();
    for number in 0..count {
        check_set(&mut random, &mut tally)
            .map_err(|what| format!("seed {seed}, rule set {number}: {what}"))?;
    }
    Ok(tally)
}

#[cfg(test)]
mod tests {
    use super::*;

    /// Rounds, operator and prover agree on the rule sets of one seed.
    #[test]
    fn a_fixed_seed() {
        let tally = selfcheck(1, 60).unwrap();
        assert_eq!(tally.sets, 60);
        assert!(tally.yes > 100 && tally.yes < tally.orders);
        assert!(tally.closed > 20);
    }
}
