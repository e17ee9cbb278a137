//! Random cases, good and damaged; the fixed list stands in `fixed`.

use crate::frames::{Call, Case};
use crate::goals::{count_order, write_goal, write_rule, Goal, Rule, ORDER, RECORD};
use crate::random::{goal_of, goal_within, head, rule, Random, Taste};
use crate::rounds::{close_within, round_within, Answer, Effort, Settings, CAPACITY};
use crate::selfcheck::random_rows;
use crate::sets::{bytes_of, covered, place, Set, ROW};

/// The effort that a random case may cost, in sets tried and sets held against each.
const EFFORT: u64 = 8_000_000;

/// Gives the settings one of which is put in place of a good one.
fn odd_setting(random: &mut Random) -> u64 {
    let odd = [0, 33, 257, 10_001, 1 << 32, 1 << 59, 1 << 63, (1 << 63) + 5, u64::MAX];
    match random.below(3) {
        0 => random.number(),
        1 => random.below(12_000),
        _ => random.pick(&odd),
    }
}

/// Lends areas that just suffice, or longer ones, or now and then too short ones.
fn lend(random: &mut Random, case: &mut Case) {
    let needed = case.settings.capacity.min(CAPACITY) as usize * ROW;
    let mut length = |needed: usize| match random.below(60) {
        0 => needed - random.index(needed.min(40) + 1),
        1 => random.index(needed + 1),
        2..=12 => needed + random.index(200),
        _ => needed,
    };
    case.table = length(needed);
    case.work = length(3 * needed);
}

/// Makes a list of rules of one flavour.
fn random_rules(random: &mut Random, kinds: usize) -> Vec<Rule> {
    let number = match random.below(8) {
        0 => random.between(0, 2),
        1..=4 => random.between(2, 8),
        5 | 6 => random.between(8, 24),
        _ => random.between(24, 64),
    };
    let taste = Taste {
        kinds,
        connectives: random.pick(&[0, 1, 2, 3, 4, 6, 10, 23]),
        both: random.pick(&[0, 10, 30, 50, 80, 100]),
        done: random.pick(&[0, 2, 10, 30]),
    };
    let longest = random.pick(&[1, 2, 2, 3, 3, 4, 6, 16]);
    let facts = random.pick(&[5, 20, 40, 40, 70, 100]);
    let most = random.pick(&[1, 2, 4, 4, 8, 16]);
    (0..number).map(|_| rule(random, &taste, longest, facts, most)).collect()
}

/// Makes rules that turn tokens into others, so that large tables come out.
fn spreading_rules(random: &mut Random, kinds: usize) -> Vec<Rule> {
    let taste = Taste { kinds, connectives: 1, both: 30, done: 0 };
    let mut rules = Vec::new();
    for _ in 0..random.between(1, 4) {
        rules.push(rule(random, &taste, 8, 100, 1));
    }
    for _ in 0..random.between(2, 12) {
        rules.push(rule(random, &taste, 2, 0, 2));
    }
    rules
}

/// Makes rules that turn a token into many of another kind, so that counts come near 255.
fn climbing_rules(random: &mut Random) -> Vec<Rule> {
    let mut rules = vec![Rule { head: vec![0; random.between(1, 2) as usize], body: Goal::Done }];
    for kind in 1..3 {
        let head = vec![kind; random.between(11, 16) as usize];
        rules.push(Rule { head, body: Goal::Kind(kind - 1) });
    }
    let taste = Taste { kinds: 4, connectives: 2, both: 40, done: 5 };
    for _ in 0..random.below(3) {
        let at = random.index(rules.len() + 1);
        rules.insert(at, rule(random, &taste, 4, 10, 4));
    }
    rules
}

/// Makes rules that turn the tokens of one fact into those of later kinds, one by one.
fn layered_rules(random: &mut Random, kinds: usize) -> Vec<Rule> {
    let number = match kinds {
        0..=3 => random.between(6, 16),
        4 => random.between(4, 9),
        5 | 6 => random.between(3, 6),
        7..=10 => random.between(2, 4),
        _ => 2,
    };
    let mut rules = vec![Rule { head: vec![0; number as usize], body: Goal::Done }];
    for kind in 1..kinds {
        let from = if random.chance(3, 4) { kind - 1 } else { random.index(kind) };
        rules.push(Rule { head: vec![kind], body: Goal::Kind(from) });
    }
    let taste = Taste { kinds, connectives: 2, both: 50, done: 0 };
    for _ in 0..random.below(3) {
        let at = random.index(rules.len() + 1);
        rules.insert(at, rule(random, &taste, 3, 0, 3));
    }
    rules
}

/// Writes rules as records.
fn records(rules: &[Rule]) -> Vec<u8> {
    rules.iter().flat_map(|rule| write_rule(rule).expect("a rule that fits")).collect()
}

/// Makes a random order of at most 64 bytes that is not refused.
fn random_order(random: &mut Random, kinds: usize) -> Vec<u8> {
    let taste = Taste {
        kinds,
        connectives: random.pick(&[0, 0, 1, 3, 8, 31]),
        both: random.pick(&[0, 20, 50, 100]),
        done: random.pick(&[0, 5, 25]),
    };
    let mut goals = Vec::new();
    let mut bytes = Vec::new();
    for _ in 0..random.pick(&[0, 1, 1, 2, 3, 5, 8, 30, 64]) {
        let goal = goal_within(random, &taste, 16);
        let codes = write_goal(&goal);
        goals.push(goal);
        if bytes.len() + codes.len() > ORDER || count_order(&goals).is_none() {
            goals.pop();
        } else {
            bytes.extend(codes);
        }
    }
    bytes
}

/// Makes an order about a row: its tokens, now and then one too few or with others beside them.
fn order_near(random: &mut Random, kinds: usize, rows: &[Set]) -> Vec<u8> {
    let row = random.pick(rows);
    let tokens = |(kind, &count): (usize, &u64)| vec![kind as u8; count as usize];
    let mut order: Vec<u8> = row.iter().enumerate().flat_map(tokens).take(ORDER).collect();
    match random.below(4) {
        0 if !order.is_empty() => {
            order.remove(random.index(order.len()));
        }
        1 => order.insert(0, random.index(kinds) as u8),
        _ => {}
    }
    order.truncate(ORDER);
    order
}

/// Damages some bytes by one of several ways.
fn damage(random: &mut Random, bytes: &mut Vec<u8>, unit: usize, most: usize) {
    let codes = [0, 1, 5, 31, 32, 63, 64, 65, 66, 67, 128, 254, 255];
    let length = bytes.len();
    match random.below(8) {
        0..=3 if length > 0 => bytes[random.index(length)] = random.pick(&codes),
        4 if length > 0 => bytes[random.index(length)] = random.byte(),
        5 if length > 0 => bytes.truncate(random.index(length)),
        6 => {
            let more = random.between(1, 70) as usize;
            bytes.extend((0..more).map(|_| random.pick(&codes)));
        }
        _ if length >= 2 * unit => {
            let units = length / unit;
            let (a, b) = (random.index(units), random.index(units));
            let from = bytes[a * unit..][..unit].to_vec();
            if random.chance(1, 2) {
                let other = bytes[b * unit..][..unit].to_vec();
                bytes[a * unit..][..unit].copy_from_slice(&other);
            }
            bytes[b * unit..][..unit].copy_from_slice(&from);
        }
        _ => bytes.push(random.byte()),
    }
    bytes.truncate(most);
}

/// Spoils a setting of a case.
fn spoil_setting(random: &mut Random, case: &mut Case) {
    match random.below(4) {
        0 => case.settings.kinds = odd_setting(random),
        1 => case.settings.capacity = odd_setting(random),
        2 => case.settings.rounds = odd_setting(random),
        _ => case.settings.kinds = random.between(1, 32),
    }
}

/// Spoils some bytes of a case, mostly of those that its call reads.
fn spoil_bytes(random: &mut Random, case: &mut Case) {
    let reads = match case.call {
        Call::Close => [0, 0, 0, 0, 1, 2],
        Call::Round => [0, 0, 0, 1, 1, 2],
        Call::Ask => [0, 1, 1, 2, 2, 2],
    };
    match random.pick(&reads) {
        0 => damage(random, &mut case.rules, RECORD, 4_224),
        1 => damage(random, &mut case.rows, ROW, 16_512),
        _ => damage(random, &mut case.order, 1, 256),
    }
}

/// Puts a goal of any number of branches into the rules or the order of a case.
fn spoil_branches(random: &mut Random, case: &mut Case) {
    let kinds = case.settings.kinds.clamp(1, 32) as usize;
    let taste = Taste { kinds, connectives: 23, both: 60, done: 5 };
    let connectives = random.between(12, 23);
    let body = goal_of(random, &taste, connectives);
    let records = case.rules.len() / RECORD;
    if case.call == Call::Ask {
        case.order = write_goal(&body);
    } else if records > 0 {
        let head = head(random, kinds, 3);
        let record = write_rule(&Rule { head, body }).expect("a rule that fits");
        let at = random.index(records) * RECORD;
        case.rules[at..at + RECORD].copy_from_slice(&record);
    }
}

/// Spoils a setting, some bytes or a number of branches.
fn spoil(random: &mut Random, case: &mut Case) {
    match random.below(10) {
        0..=2 => spoil_setting(random, case),
        3 => spoil_branches(random, case),
        _ => spoil_bytes(random, case),
    }
}

/// Gives the answer of closing or of one round, if it comes within the allowed effort.
fn tried(case: &Case) -> Option<Answer> {
    let effort = &mut Effort::of(EFFORT);
    let (table, work) = (vec![0; case.table], vec![0; case.work]);
    let outcome = match case.call {
        Call::Close => close_within(case.settings, &case.rules, &table, &work, effort),
        Call::Round => round_within(case.settings, &case.rules, &case.rows, &table, &work, effort),
        Call::Ask => return Some(Answer::Yes),
    };
    outcome.map(|outcome| outcome.answer)
}

/// Makes a closing, now and then at a capacity or a number of rounds near what it needs.
fn random_closing(random: &mut Random) -> Case {
    let kinds = random.pick(&[1, 2, 3, 4, 6, 8, 12, 20, 32]);
    let flavour = random.below(12);
    let (kinds, rules) = match flavour {
        0 => (4, climbing_rules(random)),
        1 => (kinds.clamp(3, 20), layered_rules(random, kinds.clamp(3, 20))),
        2 | 3 => (kinds.clamp(3, 8), spreading_rules(random, kinds.clamp(3, 8))),
        _ => (kinds, random_rules(random, kinds)),
    };
    let mut case = blank(random, Call::Close, kinds as u64);
    case.rules = records(&rules);
    if flavour < 2 {
        case.settings.capacity = random.pick(&[256, 256, 256, 200, 100, 30]);
        case.settings.rounds = random.pick(&[10, 20, 40, 100, 10_000]);
    } else {
        case.settings.capacity = random.pick(&[1, 2, 4, 8, 16, 32, 64, 128, 255, 256, 256, 256]);
        case.settings.rounds = random.pick(&[1, 2, 3, 5, 10, 30, 100, 9_999, 10_000]);
    }
    lend(random, &mut case);
    if let Some(Answer::Closed { rows, rounds }) = tried(&case) {
        let near = |random: &mut Random, n: u64| (n + random.below(3)).saturating_sub(1).max(1);
        if random.chance(1, 3) {
            case.settings.capacity = near(random, rows).min(CAPACITY);
            lend(random, &mut case);
        }
        if random.chance(1, 3) {
            case.settings.rounds = near(random, rounds);
        }
    }
    case
}

/// Makes rows near those that a rule set gives, or random ones, up to 256.
fn rows_for(random: &mut Random, kinds: usize) -> Vec<Set> {
    let most = random.pick(&[1, 2, 3, 7, 63, 255]);
    let tries = random.pick(&[0, 1, 2, 5, 20, 100, 300]);
    let mut rows = random_rows(random, kinds, tries, most);
    if random.chance(1, 8) && kinds >= 2 {
        for low in 0..random.between(1, 256) {
            let mut row = vec![0; ROW];
            row[0] = low;
            row[kinds - 1] = 255 - low;
            if !covered(&rows, &row) {
                place(&mut rows, row);
            }
        }
    }
    rows.truncate(CAPACITY as usize);
    rows
}

/// Makes one round on random rows.
fn random_rounding(random: &mut Random) -> Case {
    let kinds = random.pick(&[1, 2, 3, 4, 6, 8, 12, 32]);
    let mut case = blank(random, Call::Round, kinds as u64);
    case.rules = records(&random_rules(random, kinds));
    let rows = rows_for(random, kinds);
    let held = rows.len() as u64;
    case.settings.capacity = match random.below(4) {
        0 => (held + random.below(4)).clamp(1, CAPACITY),
        1 => random.between(1, CAPACITY),
        _ => CAPACITY,
    };
    case.rows = bytes_of(&rows);
    lend(random, &mut case);
    case
}

/// Makes an order asked of random rows.
fn random_asking(random: &mut Random) -> Case {
    let kinds = random.pick(&[1, 2, 3, 4, 6, 12, 32]);
    let mut case = blank(random, Call::Ask, kinds as u64);
    let rows = rows_for(random, kinds);
    case.order = if rows.is_empty() || random.chance(1, 2) {
        random_order(random, kinds)
    } else {
        order_near(random, kinds, &rows)
    };
    case.rows = bytes_of(&rows);
    if random.chance(1, 10) {
        case.table = random.index(100);
        case.work = random.index(100);
    }
    case
}

/// Makes a case without rules, rows, order and areas.
fn blank(random: &mut Random, call: Call, kinds: u64) -> Case {
    Case {
        call,
        settings: Settings { kinds, capacity: CAPACITY, rounds: 100 },
        table: 0,
        work: 0,
        fill: random.byte(),
        rules: vec![],
        rows: vec![],
        order: vec![],
    }
}

/// Makes a random case, whatever it may cost.
fn any_case(random: &mut Random) -> Case {
    let mut case = match random.below(10) {
        0..=4 => random_closing(random),
        5..=7 => random_rounding(random),
        _ => random_asking(random),
    };
    if random.chance(1, 4) {
        for _ in 0..random.between(1, 2) {
            spoil(random, &mut case);
        }
    }
    case
}

/// Makes a random case that keeps the allowed effort, with fewer rounds and less room where it would not.
pub fn random_case(random: &mut Random) -> Case {
    let mut case = any_case(random);
    while tried(&case).is_none() {
        if case.call == Call::Close && random.chance(1, 2) {
            case.settings.rounds = (case.settings.rounds / 2).max(1);
        } else {
            case.settings.capacity = (case.settings.capacity * 3 / 4).max(1);
            lend(random, &mut case);
        }
    }
    case
}

#[cfg(test)]
mod tests {
    use super::*;
    use crate::frames::{answer_line, fits, write_frame};
    use std::collections::BTreeMap;

    /// Random cases keep the limits of a frame and reach every kind of answer.
    #[test]
    fn random_cases_fit_and_differ() {
        let mut random = Random::new(5);
        let mut starts: BTreeMap<String, u64> = BTreeMap::new();
        for _ in 0..1_500 {
            let case = random_case(&mut random);
            assert!(fits(&case));
            let line = answer_line(&case);
            let words: Vec<&str> = line.split(' ').collect();
            let kept = if words[0] == "refused" { 2 } else { 1 };
            *starts.entry(words[..kept].join(" ")).or_default() += 1;
        }
        let refusals = (1..=11).map(|number| format!("refused {number}"));
        let others = ["closed", "round", "yes", "no"].map(String::from);
        for start in refusals.chain(others) {
            assert!(starts.contains_key(&start), "no case is answered with {start}: {starts:?}");
        }
    }

    /// The same seed gives the same frames, another seed others.
    #[test]
    fn a_seed_gives_the_same_cases() {
        let made = |seed| {
            let mut random = Random::new(seed);
            (0..50).flat_map(|_| write_frame(&random_case(&mut random))).collect::<Vec<u8>>()
        };
        assert_eq!(made(9), made(9));
        assert_ne!(made(9), made(10));
    }
}
