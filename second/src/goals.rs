//! Goals, rule records and orders: their bytes, their trees, and the branches they open into.

use crate::sets::{empty, of_kinds, plus, Set, KINDS};

/// The number of bytes of a rule record.
pub const RECORD: usize = 64;

/// The number of bytes of a record's head.
pub const HEAD: usize = 16;

/// The byte that fills a head or a body to its end.
pub const PAD: u8 = 255;

/// The code of ⊤.
pub const DONE: u8 = 64;

/// The code of ⅋.
pub const TOGETHER: u8 = 65;

/// The code of &.
pub const BOTH: u8 = 66;

/// The most bytes of an order.
pub const ORDER: usize = 64;

/// The most branches that a goal, a part of one or a leading run of an order may open into.
pub const BRANCHES: u64 = 16;

/// A goal of propositional LO.
#[derive(Clone, Debug, PartialEq, Eq, PartialOrd, Ord, Hash)]
pub enum Goal {
    /// A token kind.
    Kind(usize),
    /// ⊤.
    Done,
    /// ⅋ of a left and a right goal.
    Together(Box<Goal>, Box<Goal>),
    /// & of a left and a right goal.
    Both(Box<Goal>, Box<Goal>),
}

/// A rule: the kinds of its head and the goal of its body.
#[derive(Clone, Debug, PartialEq, Eq)]
pub struct Rule {
    /// The head's kinds, never descending.
    pub head: Vec<usize>,
    /// The body.
    pub body: Goal,
}

/// Makes the goal left ⅋ right.
pub fn together(left: Goal, right: Goal) -> Goal {
    Goal::Together(Box::new(left), Box::new(right))
}

/// Makes the goal left & right.
pub fn both(left: Goal, right: Goal) -> Goal {
    Goal::Both(Box::new(left), Box::new(right))
}

/// Reads one goal written operator first and gives it with the codes that follow it.
pub fn read_goal(codes: &[u8], kinds: usize) -> Option<(Goal, &[u8])> {
    let (&code, rest) = codes.split_first()?;
    match code {
        DONE => Some((Goal::Done, rest)),
        TOGETHER | BOTH => {
            let (left, rest) = read_goal(rest, kinds)?;
            let (right, rest) = read_goal(rest, kinds)?;
            let make = if code == TOGETHER { together } else { both };
            Some((make(left, right), rest))
        }
        kind if usize::from(kind) < kinds.min(KINDS) => Some((Goal::Kind(kind.into()), rest)),
        _ => None,
    }
}

/// Writes a goal operator first.
pub fn write_goal(goal: &Goal) -> Vec<u8> {
    match goal {
        Goal::Kind(kind) => vec![u8::try_from(*kind).expect("a kind is below 32")],
        Goal::Done => vec![DONE],
        Goal::Together(left, right) => [vec![TOGETHER], write_goal(left), write_goal(right)].concat(),
        Goal::Both(left, right) => [vec![BOTH], write_goal(left), write_goal(right)].concat(),
    }
}

/// Gives a number of branches back unless it is over 16.
fn within(number: u64) -> Option<u64> {
    (number <= BRANCHES).then_some(number)
}

/// Counts the branches of a goal, or gives nothing if it or a part of it opens into over 16.
pub fn count(goal: &Goal) -> Option<u64> {
    match goal {
        Goal::Kind(_) => Some(1),
        Goal::Done => Some(0),
        Goal::Together(left, right) => {
            let (left, right) = (count(left), count(right));
            within(left? * right?)
        }
        Goal::Both(left, right) => {
            let (left, right) = (count(left), count(right));
            within(left? + right?)
        }
    }
}

/// Counts the branches of an order, or gives nothing if a goal or a leading run opens into over 16.
pub fn count_order(goals: &[Goal]) -> Option<u64> {
    let mut run = 1;
    for goal in goals {
        run = within(run * count(goal)?)?;
    }
    Some(run)
}

/// Sums each left with each right branch, left outermost.
fn sums(left: &[Set], right: &[Set]) -> Vec<Set> {
    let with_all = |a: &Set| right.iter().map(|b| plus(a, b)).collect::<Vec<_>>();
    left.iter().flat_map(with_all).collect()
}

/// Opens a goal into its list of branches.
pub fn branches(goal: &Goal) -> Vec<Set> {
    match goal {
        Goal::Kind(kind) => vec![of_kinds(&[*kind])],
        Goal::Done => vec![],
        Goal::Together(left, right) => sums(&branches(left), &branches(right)),
        Goal::Both(left, right) => [branches(left), branches(right)].concat(),
    }
}

/// Opens an order into its list of branches.
pub fn branches_order(goals: &[Goal]) -> Vec<Set> {
    let join = |run: Vec<Set>, goal: &Goal| sums(&run, &branches(goal));
    goals.iter().fold(vec![empty()], join)
}

/// Reads a head: 1 to 16 kinds below `kinds`, never descending, then 255 to the end.
fn read_head(bytes: &[u8], kinds: usize) -> Option<Vec<usize>> {
    let length = bytes.iter().position(|&b| b == PAD).unwrap_or(bytes.len());
    let (head, padding) = bytes.split_at(length);
    let good = length > 0
        && head.iter().all(|&kind| usize::from(kind) < kinds)
        && head.windows(2).all(|pair| pair[0] <= pair[1])
        && padding.iter().all(|&b| b == PAD);
    good.then(|| head.iter().map(|&kind| kind.into()).collect())
}

/// Reads a body: one goal, then 255 to the end.
fn read_body(bytes: &[u8], kinds: usize) -> Option<Goal> {
    let (goal, padding) = read_goal(bytes, kinds)?;
    padding.iter().all(|&b| b == PAD).then_some(goal)
}

/// Reads a record's head and body, or gives refusal number 4 or 5, whatever the number of branches.
pub fn read_form(record: &[u8], kinds: usize) -> Result<Rule, u64> {
    let head = read_head(&record[..HEAD], kinds).ok_or(4u64)?;
    let body = read_body(&record[HEAD..], kinds).ok_or(5u64)?;
    Ok(Rule { head, body })
}

/// Reads a rule record, or gives refusal number 4, 5 or 6.
pub fn read_rule(record: &[u8], kinds: usize) -> Result<Rule, u64> {
    let rule = read_form(record, kinds)?;
    count(&rule.body).ok_or(6u64)?;
    Ok(rule)
}

/// Writes a rule record, or gives nothing if the head or the body is too long for it.
pub fn write_rule(rule: &Rule) -> Option<Vec<u8>> {
    let mut record = vec![PAD; RECORD];
    let body = write_goal(&rule.body);
    if rule.head.len() > HEAD || body.len() > RECORD - HEAD {
        return None;
    }
    for (byte, kind) in record.iter_mut().zip(&rule.head) {
        *byte = u8::try_from(*kind).ok()?;
    }
    record[HEAD..HEAD + body.len()].copy_from_slice(&body);
    Some(record)
}

/// Reads an order, or gives refusal number 10 or 6.
pub fn read_order(bytes: &[u8], kinds: usize) -> Result<Vec<Goal>, u64> {
    if bytes.len() > ORDER {
        return Err(10);
    }
    let mut goals = Vec::new();
    let mut rest = bytes;
    while !rest.is_empty() {
        let (goal, after) = read_goal(rest, kinds).ok_or(10u64)?;
        goals.push(goal);
        rest = after;
    }
    count_order(&goals).ok_or(6u64)?;
    Ok(goals)
}

#[cfg(test)]
mod tests {
    use super::*;
    use crate::spelling::{letter_goals, letters};

    /// The branches of ⅋ stand with the left ones outermost.
    #[test]
    fn branch_lists_keep_their_order() {
        let goals = letter_goals("(a & b) + (c & d)");
        let lists = [[0, 2], [0, 3], [1, 2], [1, 3]];
        let expected: Vec<Set> = lists.iter().map(|kinds| of_kinds(kinds)).collect();
        let (goal, rest) = read_goal(&goals, 4).unwrap();
        assert!(rest.is_empty());
        assert_eq!(branches(&goal), expected);
    }

    /// Sixteen branches are admitted and twenty are not.
    #[test]
    fn sixteen_and_twenty_branches() {
        let four = "(a & b & c & d)";
        let five = "(a & b & c & d & e)";
        let sixteen = letters(&format!("a <- {four} + {four}"));
        let twenty = letters(&format!("a <- {five} + {four}"));
        assert_eq!(branches(&read_rule(&sixteen, 6).unwrap().body).len(), 16);
        assert_eq!(read_rule(&twenty, 6), Err(6));
    }

    /// A part of over 16 branches is refused although ⊤ stands beside it.
    #[test]
    fn over_sticks_beside_done() {
        let many = "((a & a & a & a & a) + (a & a & a & a))";
        assert_eq!(read_rule(&letters(&format!("a <- {many} + T")), 6), Err(6));
        assert_eq!(read_rule(&letters(&format!("a <- T + {many}")), 6), Err(6));
    }

    /// Leading runs of an order count, and so does each goal by itself.
    #[test]
    fn leading_runs() {
        let four = "(a & a & a & a)";
        let five = "(a & a & a & a & a)";
        let read = |text: &str| read_order(&letter_goals(text), 6).map(|goals| goals.len());
        assert_eq!(read(&format!("T; {four}; {five}")), Ok(3));
        assert_eq!(read(&format!("{four}; {five}; T")), Err(6));
        assert_eq!(read(&format!("T; {four} + {five}")), Err(6));
        assert_eq!(read_order(&[0; 64], 1).map(|goals| goals.len()), Ok(64));
        assert_eq!(read_order(&[0; 65], 1), Err(10));
    }

    /// Damaged heads are refused by 4 and damaged bodies by 5.
    #[test]
    fn damaged_records() {
        let record = letters("a + b <- c + d");
        let with = |at: usize, byte: u8| {
            let mut damaged = record.clone();
            damaged[at] = byte;
            read_rule(&damaged, 6).map(|_| ())
        };
        assert_eq!(with(0, 2), Err(4));
        assert_eq!(with(0, PAD), Err(4));
        assert_eq!(with(1, 6), Err(4));
        assert_eq!(with(15, 5), Err(4));
        assert_eq!(with(16, 67), Err(5));
        assert_eq!(with(17, PAD), Err(5));
        assert_eq!(with(18, 6), Err(5));
        assert_eq!(with(63, 0), Err(5));
        assert_eq!(with(16, BOTH), Ok(()));
    }
}
