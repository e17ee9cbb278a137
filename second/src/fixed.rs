//! The fixed list of hand-made cases, each with a name that says what it is about.

use crate::frames::{fits, Call, Case};
use crate::goals::{read_rule, Rule, HEAD, RECORD};
use crate::rounds::{round_of, rounds_of, Effort, Settings, CAPACITY, ROUNDS};
use crate::sets::{bytes_of, KINDS, ROW};
use crate::spelling::{letter_goals, letters};

/// A case and its name.
pub type Named = (String, Case);

/// Rule set P of the marked examples (001, Example 5.12).
pub const P: &str = "a <- b + c; b <- (d + e) & f; c + d <- T; c + e <- c + b; c + f <- T";

/// Rule set Q of the marked examples (001, Example 3.2).
pub const Q: &str = "a <- (b & c) + e; b <- T; c <- d + b";

/// The ladder of 18 rows.
pub const LADDER: &str = "a <- T; 16*b <- a; 15*c <- b";

/// The ladder whose next row would hold 256.
pub const HIGH_LADDER: &str = "a <- T; 16*b <- a; 16*c <- b";

/// Rules whose step 2 needs more room than their table.
pub const STEP_TWO: &str = "a + b <- T; c + d <- T; a + b <- a & c";

/// A goal of four branches.
const FOUR: &str = "(a & b & c & d)";

/// A goal of five branches.
const FIVE: &str = "(a & b & c & d & e)";

/// A goal of seventeen branches whose parts have at most sixteen.
const SEVENTEEN: &str = "(((a & b & c & d) + (a & b & c & d)) & a)";

/// The list being made.
struct List {
    cases: Vec<Named>,
}

/// A change to a case.
type Change = fn(&mut Case);

/// A named change to a case.
type Fault = (&'static str, Change);

/// Lends areas of exactly the needed lengths.
fn lend(case: &mut Case) {
    case.table = case.settings.capacity as usize * ROW;
    case.work = 3 * case.table;
}

/// Makes a case with 6 kinds, capacity 256 and 100 permitted rounds.
fn base(call: Call) -> Case {
    let mut case = Case {
        call,
        settings: Settings { kinds: 6, capacity: 256, rounds: 100 },
        table: 0,
        work: 0,
        fill: 0xa5,
        rules: vec![],
        rows: vec![],
        order: vec![],
    };
    lend(&mut case);
    case
}

/// Makes a case of closing.
fn closing(rules: &str) -> Case {
    Case { rules: letters(rules), ..base(Call::Close) }
}

/// Makes a case of closing at a capacity, with areas that just suffice.
fn closing_at(rules: &str, capacity: u64, rounds: u64) -> Case {
    let mut case = closing(rules);
    case.settings.capacity = capacity;
    case.settings.rounds = rounds;
    lend(&mut case);
    case
}

/// Makes a case of one round.
fn rounding(rules: &str, rows: Vec<u8>) -> Case {
    Case { rules: letters(rules), rows, ..base(Call::Round) }
}

/// Makes a case of one round at a capacity, with areas that just suffice.
fn rounding_at(rules: &str, rows: Vec<u8>, capacity: u64) -> Case {
    let mut case = rounding(rules, rows);
    case.settings.capacity = capacity;
    lend(&mut case);
    case
}

/// Makes a case of asking, with no areas lent.
fn asking(rows: Vec<u8>, order: Vec<u8>) -> Case {
    Case { rows, order, table: 0, work: 0, ..base(Call::Ask) }
}

/// Gives a case with its kinds changed.
fn with_kinds(mut case: Case, kinds: u64) -> Case {
    case.settings.kinds = kinds;
    case
}

/// Writes one row from pairs of kind and count.
fn row(pairs: &[(usize, u8)]) -> Vec<u8> {
    let mut row = vec![0; ROW];
    for &(kind, count) in pairs {
        row[kind] = count;
    }
    row
}

/// Writes rows from lists of pairs, in the order given.
fn rows(lists: &[&[(usize, u8)]]) -> Vec<u8> {
    lists.iter().flat_map(|pairs| row(pairs)).collect()
}

/// Reads good rules.
fn read_all(rules: &str) -> Vec<Rule> {
    let read = |record| read_rule(record, KINDS).expect("good rules");
    letters(rules).chunks(RECORD).map(read).collect()
}

/// Gives the saved rows of a rule set after so many rounds.
fn table_after(rules: &str, rounds: u64) -> Vec<u8> {
    let rules = read_all(rules);
    let mut rows = Vec::new();
    for _ in 0..rounds {
        let step = round_of(&rules, &rows, CAPACITY, false, &mut Effort::endless());
        rows = step.expect("a round within the capacity").0;
    }
    bytes_of(&rows)
}

/// Gives the saved rows of a closed rule set.
fn closed_table(rules: &str) -> Vec<u8> {
    let closed = rounds_of(&read_all(rules), CAPACITY, ROUNDS, &mut Effort::endless());
    bytes_of(&closed.expect("a closing rule set").0)
}

/// Writes `number` rows of two kinds that ascend while none includes another.
fn slope(number: usize) -> Vec<u8> {
    let step = |i: usize| row(&[(0, i as u8), (1, (255 - i) as u8)]);
    (0..number).flat_map(step).collect()
}

/// Writes 256 rows of 30 tokens each that ascend while none includes another.
fn grid() -> Vec<u8> {
    let cell = |i: u8| row(&[(0, i / 16), (1, 15 - i / 16), (2, i % 16), (3, 15 - i % 16)]);
    (0..=255).flat_map(cell).collect()
}

impl List {
    /// Adds a case.
    fn add(&mut self, name: impl Into<String>, case: Case) {
        self.cases.push((name.into(), case));
    }

    /// Adds a case once for each value put in by a change.
    fn each<T: Copy + std::fmt::Debug>(
        &mut self,
        name: &str,
        case: &Case,
        values: &[T],
        put: impl Fn(&mut Case, T),
    ) {
        for &value in values {
            let mut changed = case.clone();
            put(&mut changed, value);
            self.add(format!("{name} {value:?}"), changed);
        }
    }

    /// Adds a case with each fault, and with each two faults.
    fn pairs(&mut self, name: &str, case: &Case, faults: &[Fault]) {
        for (i, (first, spoil)) in faults.iter().enumerate() {
            let mut spoiled = case.clone();
            spoil(&mut spoiled);
            self.add(format!("{name}: {first}"), spoiled.clone());
            for (second, spoil_more) in &faults[i + 1..] {
                let mut worse = spoiled.clone();
                spoil_more(&mut worse);
                if fits(&worse) {
                    self.add(format!("{name}: {first}, {second}"), worse);
                }
            }
        }
    }
}

/// Adds the marked examples and the two papers' examples.
fn examples(list: &mut List) {
    list.add("no rules", closing(""));
    list.add("no rules at capacity 1, 1 round", closing_at("", 1, 1));
    list.add("Q", closing(Q));
    list.add("Q, 2 rounds", closing_at(Q, 256, 2));
    list.add("Q, 3 rounds", closing_at(Q, 256, 3));
    for capacity in [256, 6, 5, 4, 3, 2, 1] {
        list.add(format!("P at capacity {capacity}"), closing_at(P, capacity, 100));
    }
    for rounds in [1, 2, 3, 4, 10_000] {
        list.add(format!("P, {rounds} rounds"), closing_at(P, 256, rounds));
    }
    let orders = [
        "",
        "a",
        "b",
        "c",
        "d",
        "e",
        "f",
        "a; e",
        "d; e",
        "b; e",
        "c; e",
        "d; b; e",
        "(b & c) + e",
        "(b & c); e",
        "b & d",
        "d & b",
        "a & b & c",
        "T",
        "T; a",
        "a; T",
        "T + d",
        "T & d",
        "d & T",
        "T & T",
        "T + T",
        "c; d",
        "c; f",
        "c + e",
        "b + c",
        "(c & a) + (d & e)",
        "c + (d & e & f)",
        "c + (d & e & a)",
        "c + c",
        "d + d",
        "(d & e) + (e & f)",
        "d + e + f",
        "c & d",
    ];
    for set in [Q, P, ""] {
        for order in orders {
            let case = asking(closed_table(set), letter_goals(order));
            list.add(format!("order [{order}] on the table of [{set}]"), case);
        }
    }
    for order in ["", "a", "T", "a & b"] {
        let case = asking(row(&[]), letter_goals(order));
        list.add(format!("order [{order}] on a row of zeros"), case);
    }
    for set in [P, Q, LADDER, STEP_TWO] {
        for after in 0..5 {
            let case = rounding(set, table_after(set, after));
            list.add(format!("one round of [{set}] after {after}"), case);
        }
    }
    list.add("16 branches", closing(&format!("a <- {FOUR} + {FOUR}; a <- T; b <- T")));
    list.add("20 branches", closing(&format!("a <- {FIVE} + {FOUR}")));
    let order = letter_goals(&format!("{FOUR} + {FOUR}"));
    list.add("an order of 16 branches", asking(closed_table("a <- T; b <- T"), order));
    let order = letter_goals(&format!("{FIVE} + {FOUR}"));
    list.add("an order of 20 branches", asking(vec![], order));
    for rounds in [16, 17, 18, 19, 10_000] {
        list.add(format!("ladder of 18, {rounds} rounds"), closing_at(LADDER, 256, rounds));
        list.add(format!("high ladder, {rounds} rounds"), closing_at(HIGH_LADDER, 256, rounds));
    }
    for capacity in [19, 18, 17, 16] {
        list.add(format!("ladder at capacity {capacity}"), closing_at(LADDER, capacity, 100));
        list.add(format!("high ladder at capacity {capacity}"), closing_at(HIGH_LADDER, capacity, 100));
    }
    let last = table_after(HIGH_LADDER, 17);
    list.add("one round over 255", rounding(HIGH_LADDER, last.clone()));
    list.add("one round over 255 at capacity 17", rounding_at(HIGH_LADDER, last, 17));
}

/// Adds the points that the documents leave to be read.
fn points(list: &mut List) {
    list.add("⊤ beside ⊤", closing("a <- T + T"));
    list.add("⊤ & ⊤", closing("a <- T & T"));
    list.add("⊤ beside a kind", closing("a <- b + T; c <- T + b"));
    list.add("⊤ & a kind", closing("a <- b & T; c <- T & b; b <- T"));
    let cases = [
        format!("T; {FOUR}; {FIVE}"),
        format!("{FOUR}; T; {FIVE}"),
        format!("{FOUR}; {FIVE}; T"),
        format!("T; {SEVENTEEN}"),
        format!("{SEVENTEEN}; T"),
        format!("{SEVENTEEN} + T"),
        format!("T + {SEVENTEEN}"),
        format!("T; {FOUR} + {FIVE}"),
        format!("T; T + ({FOUR} + {FIVE})"),
        format!("{FOUR}; {FOUR}; a"),
        format!("{FOUR}; {FOUR}; a & b"),
        format!("{FOUR}; {FOUR}; T; a & b"),
        format!("{FOUR} & {FOUR}; a & b"),
        "a & b; a & b; a & b; a & b".into(),
        "a & b; a & b; a & b; a & b; a & b".into(),
        "a & b; a & b; a & b; a & b; T; a & b; a & b; a & b; a & b; a & b".into(),
    ];
    for order in &cases {
        let table = closed_table("a <- T; b <- T");
        list.add(format!("order {order}"), asking(table, letter_goals(order)));
    }
    let bodies = [
        format!("{SEVENTEEN} + T"),
        format!("T + {SEVENTEEN}"),
        format!("{SEVENTEEN} & T"),
        format!("T & {SEVENTEEN}"),
        SEVENTEEN.into(),
        format!("{FOUR} + ({FOUR} & T)"),
        format!("T + ({FOUR} + {FOUR})"),
        format!("(T + {FOUR}) + {FIVE}"),
        format!("T + ({FOUR} + {FIVE})"),
        "a & b & c & d & e & f & a & b & c & d & e & f & a & b & c & d".into(),
        "a & b & c & d & e & f & a & b & c & d & e & f & a & b & c & d & e".into(),
    ];
    for body in &bodies {
        let text = format!("a <- T; b <- {body}");
        list.add(format!("body {body}"), closing_at(&text, 64, 5));
        let mut stray = closing_at(&text, 64, 5);
        let end = stray.rules.len();
        stray.rules[end - 1] = 0;
        list.add(format!("body {body} and a stray byte"), stray);
    }
    let mut case = closing(&format!("a <- {SEVENTEEN}; a <- T"));
    case.rules[RECORD] = 255;
    list.add("record 0 with 6, record 1 with 4", case);
    for capacity in [1, 2, 3, 4] {
        list.add(format!("step 2 at capacity {capacity}"), closing_at(STEP_TWO, capacity, 100));
    }
    let frozen = table_after(STEP_TWO, 1);
    for capacity in [2, 3] {
        let case = rounding_at(STEP_TWO, frozen.clone(), capacity);
        list.add(format!("step 2 of one round at capacity {capacity}"), case);
    }
    list.add("8 in step 2 before 9", closing_at(STEP_TWO, 2, 1));
    list.add("a last round that adds nothing", closing_at(STEP_TWO, 3, 1));
    let three = "a <- T; b <- T; c + d <- T; e + f <- T; e + f <- c + a";
    for capacity in [3, 4, 5] {
        list.add(format!("four heads at capacity {capacity}"), closing_at(three, capacity, 9));
    }
}

/// Adds rounds in which the order of the steps shows.
fn orders_of_work(list: &mut List) {
    let sets = [
        ("rows of this round are not yet read", "b <- T; c <- b; d <- c; e <- d; f <- e"),
        ("& is both ways", "a <- b & c; b <- T"),
        ("& joins, it does not add", "a <- b & c; b + d <- T; c + d <- T"),
        ("& joins the larger count", "a <- b & c; b + 2*d <- T; c + 3*d <- T"),
        ("two of a kind are two", "2*a <- T; b <- a; c <- 2*a; d <- 3*a"),
        ("a row replaced by a smaller one", "16*a <- T; a <- 2*a"),
        ("rows replaced by a smaller one", "a + b <- T; a + c <- T; a + d <- T; a <- a"),
        ("a head equal to a row", "a <- T; a <- T; a <- a"),
        ("a head that includes a row", "a <- T; a + b <- T"),
        ("a head included in a row", "a + b <- T; a <- T"),
        ("a rule about itself", "a <- a"),
        ("a body with no way", "a <- b; c <- T"),
        ("five lists", "a <- b & c & d & e; b + f <- T; c + f <- T; d + f <- T; e + f <- T"),
    ];
    for (name, text) in sets {
        for capacity in [256, 5, 4, 3, 2, 1] {
            let case = closing_at(text, capacity, 100);
            list.add(format!("{name}, capacity {capacity}"), case);
        }
        for rounds in [1, 2, 3, 4, 5, 15] {
            list.add(format!("{name}, {rounds} rounds"), closing_at(text, 256, rounds));
        }
    }
    let full = slope(256);
    list.add("a full table stands still", rounding("a + 15*b <- a + 15*b", full.clone()));
    list.add("room of a removed row is used", rounding("a <- a + b", full.clone()));
    list.add("a full table and one more row", rounding("c <- a", full.clone()));
    list.add("a full table emptied by a head", rounding("a <- T; b <- T", full.clone()));
    list.add("a full table, a head that stays out", rounding("c <- T", full.clone()));
    list.add("a full table, a covered candidate over 255", rounding("16*b <- c", full.clone()));
    let seven = [row(&[(4, 1), (5, 250)]), slope(255)].concat();
    list.add("a full table, 7 before 8", rounding("16*f <- e", seven.clone()));
    list.add("a full table, 8 before 7", rounding("d <- T; 16*f <- e", seven.clone()));
    list.add("a full table, 7 before a later 8", rounding("16*f <- e; d <- T", seven));
    list.add("a full table, 8 by a rule", rounding("c + d <- a", full));
    let high = rows(&[&[(1, 250)], &[(0, 255)]]);
    list.add("a count of exactly 255", rounding("5*b <- a", high.clone()));
    list.add("a covered candidate of 256 before one that grows", rounding("6*b <- a", high.clone()));
    let wide = rows(&[&[(0, 1), (1, 240)]]);
    list.add("a candidate of exactly 255", rounding("15*b <- a", wide.clone()));
    list.add("a candidate of 256", rounding("16*b <- a", wide.clone()));
    list.add("a candidate of 256 at capacity 1", rounding_at("16*b <- a", wide.clone(), 1));
    list.add("a candidate of 256 after a row is added", rounding("c <- T; 16*b <- a", wide.clone()));
    list.add("a candidate of 256 after 8", rounding_at("c <- T; 16*b <- a", wide.clone(), 1));
    list.add("a candidate of 256 before 8", rounding_at("16*b <- a; c <- T", wide, 1));
    list.add("counts over 127", rounding("a <- b", rows(&[&[(1, 200)], &[(0, 128)]])));
    list.add("a subtraction from 255", rounding("c <- 10*a", row(&[(0, 255)])));
    list.add("one round on a row of zeros", rounding(P, row(&[])));
    list.add("one round of no rules on a row of zeros", rounding("", row(&[])));
    list.add("one round of no rules on no rows", rounding("", vec![]));
    list.add("one round of no rules", rounding("", slope(7)));
    list.add("one round on no rows", rounding(P, vec![]));
    list.add("one round takes no rounds setting", {
        let mut case = rounding(P, vec![]);
        case.settings.rounds = 0;
        case
    });
}

/// Adds rule sets in which the order of sets, rows, branches and removals shows through refusal 8.
fn room(list: &mut List) {
    let sets = [
        ("a set that makes room in step 2", "2*a <- T; c + d <- (d & c) + a"),
        ("a set that would make room too late", "b + c <- T; a <- T; a <- b & c"),
        ("rows inside held sets", "c + d <- T; b <- c & (d + a); a <- (c + d) + d"),
        ("held sets ascending", "a + 2*b <- T; a <- c + b; c <- a"),
        ("branches in order", "2*a <- T; 2*c <- T; a <- (b & c) & a"),
        ("left outermost", "a + b + d <- T; 2*a + e <- T; b <- (a & b) + (b & e)"),
        ("a row that makes room in step 3", "2*b <- T; b <- b + b"),
        ("a row that would make room too late", "2*a + d <- T; c <- d; 2*c <- a + b + c"),
        ("a rule that would make room too late", "a + b <- T; a + c <- T; a <- T"),
        ("a rule that makes room", "a + b <- T; a <- T; c <- T"),
    ];
    for (name, text) in sets {
        for capacity in 1..=5 {
            let case = closing_at(text, capacity, 20);
            list.add(format!("{name}, capacity {capacity}"), case);
            for after in 1..=2 {
                let rows = table_after(text, after);
                if rows.len() / ROW <= capacity as usize {
                    let case = rounding_at(text, rows, capacity);
                    list.add(format!("{name}, one round after {after}, capacity {capacity}"), case);
                }
            }
        }
    }
}

/// Adds settings at and around their bounds.
fn settings(list: &mut List) {
    let two_32 = 1u64 << 32;
    let common = [0, 1, 2, two_32, two_32 + 1, 1 << 63, (1 << 63) + 1, u64::MAX];
    let kinds = [&common[..], &[31, 32, 33, 64, 255, 256, 257]].concat();
    let capacities = [&common[..], &[255, 256, 257, 1 << 58, 1 << 59, (1 << 59) + 1, two_32 + 256]].concat();
    let rounds = [&common[..], &[9_999, 10_000, 10_001, 65_536 + 1]].concat();
    for call in [Call::Close, Call::Round, Call::Ask] {
        let mut case = base(call);
        case.rules = letters("a <- T; 2*a <- a");
        case.order = letter_goals("a & T");
        list.each(&format!("{call:?}: kinds"), &case, &kinds, |c, v| c.settings.kinds = v);
        list.each(&format!("{call:?}: capacity"), &case, &capacities, |c, v| c.settings.capacity = v);
        list.each(&format!("{call:?}: rounds"), &case, &rounds, |c, v| c.settings.rounds = v);
    }
    let all = Case { rules: letters("z <- T; y <- z; z + y <- x"), ..base(Call::Close) };
    list.each("kinds above those used", &all, &[23, 24, 25, 26, 27, 32], |c, v| c.settings.kinds = v);
    let mut last = all.clone();
    last.rules[0] = 31;
    list.each("kind 31 in a head", &last, &[31, 32], |c, v| c.settings.kinds = v);
    last.rules[HEAD] = 31;
    list.each("kind 31 in a body", &last, &[31, 32], |c, v| c.settings.kinds = v);
}

/// Adds areas that are too short, just suffice and are longer than needed.
fn areas(list: &mut List) {
    let sets = [("closed", P), ("refused by 7", HIGH_LADDER), ("refused by 4", P), ("no rules", "")];
    for capacity in [1usize, 5, 18, 256] {
        let (table, work) = (capacity * ROW, 3 * capacity * ROW);
        let lengths = [
            (table - 1, work),
            (table, work - 1),
            (table - 1, work - 1),
            (0, work),
            (table, 0),
            (0, 0),
            (table, work),
            (table + 1, work),
            (table, work + 1),
            (table + 1, work + 33),
            (work.min(16_512), table),
            (2 * table + 5, work + 4 * table),
        ];
        for (name, text) in sets {
            for (table, work) in lengths {
                let mut case = closing_at(text, capacity as u64, 100);
                case.table = table;
                case.work = work;
                case.fill = if table % 2 == 0 { 0x5a } else { 0xff };
                if name == "refused by 4" {
                    case.rules[0] = 200;
                }
                list.add(format!("{name}, capacity {capacity}, areas {table} {work}"), case);
            }
        }
        for (table, work) in lengths {
            let mut case = rounding_at(P, vec![], capacity as u64);
            case.table = table;
            case.work = work;
            list.add(format!("one round, capacity {capacity}, areas {table} {work}"), case.clone());
            case.rows = row(&[]);
            list.add(format!("still, capacity {capacity}, areas {table} {work}"), case.clone());
            case.rows = row(&[(1, 255)]);
            case.rules = letters("b <- c");
            list.add(format!("one round at 255, capacity {capacity}, areas {table} {work}"), case.clone());
            case.rows = row(&[(0, 1), (1, 250)]);
            case.rules = letters("16*b <- a");
            list.add(format!("one round past 255, capacity {capacity}, areas {table} {work}"), case);
        }
    }
    for fill in [0, 1, 127, 128, 255] {
        let case = Case { fill, table: 9_000, work: 25_000, ..closing(P) };
        list.add(format!("fill {fill}"), case);
    }
    let spent = Case { table: 300, work: 700, ..closing_at(P, 6, 2) };
    list.add("refused by 9 with longer areas", spent);
    let small = Case { table: 300, work: 700, ..closing_at(P, 4, 9) };
    list.add("refused by 8 with longer areas", small);
    for (table, work) in [(0, 0), (1, 0), (0, 1), (16_512, 98_432)] {
        let case = Case { table, work, ..asking(vec![], vec![]) };
        list.add(format!("asking with areas {table} {work}"), case);
        let case = Case { table, work, ..closing_at(P, 256, 100) };
        list.add(format!("closing with areas {table} {work}"), case);
    }
}

/// Adds lengths of rules and of rows.
fn lengths(list: &mut List) {
    let many: Vec<u8> = letters("a <- b; c <- T").repeat(33);
    let rule_lengths = [0, 1, 32, 63, 64, 65, 127, 128, 129, 4_032, 4_095, 4_096, 4_097, 4_159, 4_160, 4_224];
    for length in rule_lengths {
        let rules = many[..length].to_vec();
        let case = Case { rules: rules.clone(), ..base(Call::Close) };
        list.add(format!("closing with {length} bytes of rules"), case.clone());
        let case = Case { call: Call::Round, ..case };
        list.add(format!("one round with {length} bytes of rules"), case.clone());
        let case = Case { call: Call::Ask, order: letter_goals("T"), ..case };
        list.add(format!("asking beside {length} bytes of rules"), case);
    }
    let full = [slope(256), vec![7; 16_512 - 8_192]].concat();
    let row_lengths = [0, 1, 31, 32, 33, 63, 64, 96, 8_160, 8_191, 8_192, 8_193, 8_223, 8_224, 8_256, 16_512];
    for length in row_lengths {
        let rows = full[..length].to_vec();
        let case = rounding("c <- a", rows.clone());
        list.add(format!("one round with {length} bytes of rows"), case.clone());
        let case = Case { call: Call::Ask, order: letter_goals("a & b"), ..case };
        list.add(format!("asking with {length} bytes of rows"), case.clone());
        if length < 100 {
            let case = Case { call: Call::Close, ..case };
            list.add(format!("closing beside {length} bytes of rows"), case);
        }
    }
}

/// Adds heads and bodies damaged at each byte.
fn records(list: &mut List) {
    let codes = [0, 1, 4, 5, 6, 31, 32, 63, 64, 65, 66, 67, 128, 254, 255];
    let put = |case: &Case, at: usize, byte: u8| {
        let mut case = case.clone();
        case.rules[at] = byte;
        case
    };
    let heads = ["a", "16*c", "a + b + c + d + e + f + 2*f", "a + 14*b + f"];
    for head in heads {
        let case = closing_at(&format!("e <- T; {head} <- b + e"), 16, 3);
        for at in 0..HEAD {
            let bytes: &[u8] = if head == "a" { &codes } else { &[0, 2, 3, 6, 64, 255] };
            for &byte in bytes {
                let name = format!("head {head}, byte {at} as {byte}");
                list.add(name, put(&case, RECORD + at, byte));
            }
        }
    }
    for at in 0..HEAD {
        let mut case = closing_at("a <- T", 4, 3);
        case.rules[at..HEAD].fill(255);
        list.add(format!("a head of {at} kinds"), case.clone());
        case.rules[..=at].fill(3);
        list.add(format!("a head of {} kinds", at + 1), case);
    }
    let long = format!("{}(a & b) + (c & d) + b", "b + ".repeat(19));
    let bodies = ["T", "(d + e) & f", "((a & b) + (c & d)) & (e + T)", &long];
    for body in bodies {
        let case = closing_at(&format!("a + b <- T; 2*e <- {body}; f <- b"), 16, 3);
        for at in HEAD..RECORD {
            let bytes: &[u8] = if body == "(d + e) & f" { &codes } else { &[5, 6, 64, 66, 255] };
            for &byte in bytes {
                let name = format!("body {body}, byte {at} as {byte}");
                list.add(name, put(&case, RECORD + at, byte));
            }
        }
    }
    for connectives in 0..24usize {
        let ends: [(&str, u8); 3] = [("⅋", 65), ("&", 66), ("mixed", 0)];
        for (name, code) in ends {
            for leaves in [connectives, connectives + 1] {
                let mut case = closing_at("a <- T", 8, 2);
                let sign = |i: usize| {
                    if code == 0 {
                        65 + (i % 3 / 2) as u8
                    } else {
                        code
                    }
                };
                let body: Vec<u8> = (0..connectives).map(sign).chain(vec![0; leaves]).collect();
                case.rules[HEAD..].fill(255);
                case.rules[HEAD..HEAD + body.len()].copy_from_slice(&body);
                list.add(format!("{connectives} {name} before {leaves} leaves"), case);
            }
        }
    }
    for (name, bytes) in [("48 kinds", [0; 48]), ("48 ⅋", [65; 48]), ("48 ⊤", [64; 48])] {
        let mut case = closing_at("a <- T", 8, 2);
        case.rules[HEAD..].copy_from_slice(&bytes);
        list.add(format!("a body of {name}"), case);
    }
    let mut case = closing_at("a <- T", 8, 2);
    let full: Vec<u8> = [vec![65; 23], vec![0; 25]].concat();
    case.rules[HEAD..].copy_from_slice(&full);
    list.add("a body of 47 codes and a kind after them", case);
    for kinds in [1, 2, 3, 6] {
        let case = with_kinds(closing_at(Q, 16, 9), kinds);
        list.add(format!("Q with {kinds} kinds"), case);
        let case = with_kinds(closing_at("a <- c; c <- T", 16, 9), kinds);
        list.add(format!("a body's kind 2 with {kinds} kinds"), case);
    }
    let good: Vec<u8> = letters("a <- T; b <- a; c <- b").repeat(22)[..4_096].to_vec();
    for record in [0usize, 1, 2, 31, 62, 63] {
        for (name, at, byte) in [("head", 0, 99), ("body", HEAD, 99), ("padding", 63, 0)] {
            let mut case = Case { rules: good.clone(), ..base(Call::Close) };
            case.rules[record * RECORD + at] = byte;
            list.add(format!("record {record} of 64 with a bad {name}"), case.clone());
            let case = Case { call: Call::Round, ..case };
            list.add(format!("one round, record {record} of 64 with a bad {name}"), case);
        }
        let mut case = Case { rules: good.clone(), ..base(Call::Close) };
        let many = letters(&format!("a <- {SEVENTEEN}"));
        case.rules[record * RECORD..][..RECORD].copy_from_slice(&many);
        list.add(format!("record {record} of 64 with 17 branches"), case.clone());
        let case = Case { call: Call::Round, ..case };
        list.add(format!("one round, record {record} of 64 with 17 branches"), case);
    }
}

/// Adds orders of every length and damaged at each byte.
fn orders(list: &mut List) {
    let table = rows(&[&[(1, 1), (2, 1)], &[(0, 3)]]);
    for length in 0..=66usize {
        let together = [vec![65; length / 2], vec![0; length - length / 2]].concat();
        let both: Vec<u8> = (0..length).map(|i| [66, 0, 65, 1, 2][i % 5]).collect();
        let shapes = [
            ("kinds", vec![0; length]),
            ("⊤", vec![64; length]),
            ("⅋ before kinds", together),
            ("⅋ alone", vec![65; length]),
            ("a ⊤ and kinds", [vec![64], vec![1; length]].concat()[..length].to_vec()),
            ("goals of two branches", both),
        ];
        for (name, order) in shapes {
            list.add(format!("{length} bytes: {name}"), asking(table.clone(), order));
        }
    }
    list.add("256 bytes", asking(table.clone(), vec![0; 256]));
    list.add("64 ⊤ and a bad byte after", asking(table.clone(), [vec![64; 64], vec![99]].concat()));
    let order = letter_goals("a; (b & c) + a; T & d; 2*a");
    for at in 0..order.len() {
        for byte in [0, 2, 5, 6, 31, 32, 63, 64, 65, 66, 67, 128, 254, 255] {
            let mut damaged = order.clone();
            damaged[at] = byte;
            list.add(format!("order byte {at} as {byte}"), asking(table.clone(), damaged));
        }
        list.add(format!("order cut at {at}"), asking(table.clone(), order[..at].to_vec()));
    }
    for kinds in [1, 2, 3, 31, 32] {
        for kind in [0, 1, 2, 3, 30, 31, 32] {
            let case = with_kinds(asking(row(&[(0, 1)]), vec![64, kind]), kinds);
            list.add(format!("order of kind {kind} with {kinds} kinds"), case);
        }
    }
    let many = letter_goals(SEVENTEEN);
    let cases = [
        ("17 branches", many.clone()),
        ("17 branches before an unfinished goal", [many.clone(), vec![65, 0]].concat()),
        ("17 branches before a bad code", [many.clone(), vec![99]].concat()),
        ("17 branches in 65 bytes", [many.clone(), vec![0; 65 - many.len()]].concat()),
        ("17 branches in 64 bytes", [many.clone(), vec![0; 64 - many.len()]].concat()),
    ];
    for (name, order) in cases {
        list.add(name, asking(table.clone(), order));
    }
    let nine = rows(&[&[(0, 10)]]);
    for count in [8, 9, 10, 11, 63, 64] {
        list.add(format!("{count} against ten"), asking(nine.clone(), vec![0; count]));
    }
    let high = row(&[(0, 64)]);
    list.add("64 against 64", asking(high, vec![0; 64]));
    list.add("64 against 65", asking(row(&[(0, 65)]), vec![0; 64]));
    list.add("64 against 255", asking(row(&[(0, 255)]), vec![0; 64]));
    for at in [0usize, 1, 100, 128, 254, 255] {
        let tokens = |(kind, &count): (usize, &u8)| vec![kind as u8; usize::from(count)];
        let wanted = grid()[at * ROW..][..ROW].to_vec();
        let order: Vec<u8> = wanted.iter().enumerate().flat_map(tokens).collect();
        list.add(format!("exactly the row {at} of 256"), asking(grid(), order.clone()));
        list.add(format!("one token short of the row {at} of 256"), asking(grid(), order[1..].to_vec()));
        let more = [order, vec![1; 34]].concat();
        list.add(format!("more than the row {at} of 256"), asking(grid(), more));
    }
}

/// Adds saved rows of every form, each put to one round and to asking.
fn forms(list: &mut List) {
    let mut cases: Vec<(String, Vec<u8>)> = vec![
        ("no rows".into(), vec![]),
        ("a row of zeros".into(), row(&[])),
        ("a row of zeros and another".into(), rows(&[&[], &[(0, 1)]])),
        ("a row before zeros".into(), rows(&[&[(0, 1)], &[]])),
        ("two rows of zeros".into(), rows(&[&[], &[]])),
        ("equal rows".into(), rows(&[&[(1, 2)], &[(1, 2)]])),
        ("descending".into(), rows(&[&[(0, 1)], &[(1, 1)]])),
        ("ascending".into(), rows(&[&[(1, 1)], &[(0, 1)]])),
        ("the second includes the first".into(), rows(&[&[(1, 1)], &[(0, 1), (1, 1)]])),
        ("the first includes the second".into(), rows(&[&[(1, 2)], &[(1, 1)]])),
        ("the third includes the first".into(), rows(&[&[(2, 1)], &[(1, 1)], &[(0, 1), (2, 1)]])),
        ("the third includes the second".into(), rows(&[&[(2, 2)], &[(1, 1)], &[(0, 1), (1, 3)]])),
        ("more of the same kind".into(), rows(&[&[(0, 1)], &[(0, 2)]])),
        ("counts as numbers".into(), rows(&[&[(0, 127), (1, 1)], &[(0, 128)]])),
        ("counts as signed numbers".into(), rows(&[&[(0, 128)], &[(0, 127), (1, 1)]])),
        ("1 before 255".into(), rows(&[&[(0, 1), (1, 1)], &[(0, 255)]])),
        ("255 before 1".into(), rows(&[&[(0, 255)], &[(0, 1), (1, 1)]])),
        ("ascending from the last kind".into(), rows(&[&[(5, 1)], &[(4, 1)], &[(3, 1)]])),
        ("descending in the last kind".into(), rows(&[&[(0, 1), (4, 1)], &[(0, 1), (5, 1)]])),
        ("the last two unsorted".into(), rows(&[&[(5, 1)], &[(3, 1)], &[(4, 1)]])),
        ("the first two unsorted".into(), rows(&[&[(4, 1)], &[(5, 1)], &[(3, 1)]])),
    ];
    for kind in 0..32 {
        cases.push((format!("a count of kind {kind}"), row(&[(kind, 1)])));
        let two = rows(&[&[(1, 1)], &[(0, 1), (kind, 255)]]);
        cases.push((format!("a second row with kind {kind}"), two));
    }
    for (name, rows) in &cases {
        for kinds in [6, 32, 1] {
            if kinds == 1 && !name.contains("kind ") && name != "a row of zeros" {
                continue;
            }
            let case = with_kinds(asking(rows.clone(), letter_goals("a")), kinds);
            list.add(format!("asking, {kinds} kinds: {name}"), case);
            let case = with_kinds(rounding_at("a <- a; a <- T", rows.clone(), 8), kinds);
            list.add(format!("one round, {kinds} kinds: {name}"), case);
        }
    }
    for (number, capacity) in [(1, 1), (2, 1), (3, 2), (3, 3), (256, 255), (256, 256), (255, 255)] {
        let case = rounding_at("c <- b", slope(number), capacity);
        list.add(format!("{number} rows at capacity {capacity}"), case.clone());
        let mut case = Case { call: Call::Ask, ..case };
        case.order = vec![64];
        list.add(format!("asking {number} rows beside capacity {capacity}"), case);
    }
    for at in [0usize, 1, 128, 254, 255] {
        let mut rows = slope(256);
        rows[at * ROW + 6] = 1;
        list.add(format!("256 rows, row {at} with kind 6"), asking(rows, vec![0]));
        let mut rows = slope(256);
        let other = if at == 255 { 0 } else { at + 1 };
        let copy = rows[other * ROW..][..ROW].to_vec();
        rows[at * ROW..][..ROW].copy_from_slice(&copy);
        list.add(format!("256 rows, row {at} a copy"), asking(rows, vec![0]));
        let mut rows = slope(256);
        rows[at * ROW + 1] = 255;
        list.add(format!("256 rows, row {at} raised"), asking(rows.clone(), vec![0]));
        list.add(format!("one round, 256 rows, row {at} raised"), rounding("a <- T", rows));
    }
}

/// Damages a record's head.
fn bad_head(case: &mut Case, record: usize) {
    case.rules[record * RECORD] = 250;
}

/// Damages a record's body, keeping its goal.
fn bad_body(case: &mut Case, record: usize) {
    case.rules[record * RECORD + 63] = 9;
}

/// Gives a record a body of 17 branches, keeping the byte that `bad_body` damages.
fn many_branches(case: &mut Case, record: usize) {
    let body = letter_goals(SEVENTEEN);
    case.rules[record * RECORD + HEAD..][..body.len()].copy_from_slice(&body);
}

/// The faults of rule records.
const RECORD_FAULTS: [Fault; 6] = [
    ("head of record 0", |c| bad_head(c, 0)),
    ("body of record 0", |c| bad_body(c, 0)),
    ("branches of record 0", |c| many_branches(c, 0)),
    ("head of record 1", |c| bad_head(c, 1)),
    ("body of record 1", |c| bad_body(c, 1)),
    ("branches of record 1", |c| many_branches(c, 1)),
];

/// The faults of the lent areas and of the rules' length.
const LENT_FAULTS: [Fault; 4] = [
    ("table short", |c| c.table -= 1),
    ("work short", |c| c.work -= 1),
    ("rules long", |c| c.rules.resize(4_160, 255)),
    ("rules uneven", |c| c.rules.push(255)),
];

/// Adds cases with two faults, which tell the order of the checks.
fn two_faults(list: &mut List) {
    let settings: [Fault; 4] = [
        ("kinds 0", |c| c.settings.kinds = 0),
        ("capacity 0", |c| c.settings.capacity = 0),
        ("rounds 0", |c| c.settings.rounds = 0),
        ("rounds 10001", |c| c.settings.rounds = 10_001),
    ];
    let unread: [Fault; 1] = [("rows uneven, not looked at", |c| c.rows = vec![9; 33])];
    let late: [Fault; 3] = [
        ("then 7", |c| c.rules.extend(letters(HIGH_LADDER))),
        ("then 8", |c| c.rules.extend(letters("a + b <- T; b + c <- T; c + d <- T; d + e <- T; e + f <- T"))),
        ("then 9", |c| c.rules.extend(letters("2*c <- T; 2*d <- c; 2*e <- d; 2*f <- e; f <- f + f"))),
    ];
    let mut case = closing_at("a <- b; b <- a", 20, 4);
    let faults = [&settings[..], &LENT_FAULTS, &unread, &RECORD_FAULTS, &late].concat();
    list.pairs("closing", &case, &faults);
    case.settings.capacity = 4;
    lend(&mut case);
    list.pairs("closing at 4", &case, &late);
    let settings: [Fault; 3] = [
        ("kinds 33", |c| c.settings.kinds = 33),
        ("capacity 257", |c| c.settings.capacity = 257),
        ("rounds 0, not looked at", |c| c.settings.rounds = 0),
    ];
    let given: [Fault; 5] = [
        ("rows long", |c| c.rows.resize(8_224, 0)),
        ("rows uneven", |c| c.rows.push(0)),
        ("rows over capacity", |c| c.rows = slope(21)),
        ("rows unsorted", |c| c.rows.extend(row(&[(5, 7)]))),
        ("order bad, not looked at", |c| c.order = vec![99; 65]),
    ];
    let late: [Fault; 2] = [
        ("then 7", |c| c.rules.extend(letters("16*f <- e"))),
        ("then 8", |c| c.rules.extend(letters("2*c <- T; 2*d <- T; 2*e <- T; b + c <- T"))),
    ];
    let mut case = rounding_at("a <- b; b <- a", rows(&[&[(4, 1), (5, 250)], &[(2, 1), (3, 1)]]), 20);
    let faults = [&settings[..], &LENT_FAULTS, &given, &RECORD_FAULTS, &late].concat();
    list.pairs("one round", &case, &faults);
    case.settings.capacity = 3;
    lend(&mut case);
    list.pairs("one round at 3", &case, &late);
    let ask: [Fault; 14] = [
        ("kinds 0", |c| c.settings.kinds = 0),
        ("kinds 33", |c| c.settings.kinds = 33),
        ("capacity 0, not looked at", |c| c.settings.capacity = 0),
        ("rounds 0, not looked at", |c| c.settings.rounds = 0),
        ("rows long", |c| c.rows.resize(8_224, 0)),
        ("rows uneven", |c| c.rows.push(0)),
        ("rows unsorted", |c| c.rows.extend(row(&[(5, 7)]))),
        ("rows with kind 6", |c| c.rows[6] = 1),
        ("order unknown", |c| c.order.push(99)),
        ("order unfinished", |c| c.order.push(65)),
        ("order with kind 6", |c| c.order.push(6)),
        ("order of 17 branches", |c| c.order.splice(0..0, letter_goals(SEVENTEEN)).for_each(drop)),
        ("order of 65 bytes", |c| c.order.resize(65, 0)),
        ("rules uneven, not looked at", |c| c.rules = vec![9; 33]),
    ];
    let case = asking(rows(&[&[(1, 1)], &[(0, 1)]]), letter_goals("a"));
    list.pairs("asking", &case, &ask);
}

/// Adds rule sets with long closings and with tables up to the capacity.
fn large(list: &mut List) {
    let countdown = "a + 15*b <- T; 16*c <- b; a <- a + c";
    for rounds in [100, 255, 256, 257, 10_000] {
        list.add(format!("countdown, {rounds} rounds"), closing_at(countdown, 256, rounds));
    }
    for capacity in [2, 15, 16, 17] {
        list.add(format!("countdown at capacity {capacity}"), closing_at(countdown, capacity, 10_000));
    }
    let second = "d + 9*e <- a; 16*f <- e; d <- d + f; d + a <- T; d + b <- T; d + c <- T; 2*d <- T";
    let both = format!("{countdown}; {second}");
    for rounds in [256, 257, 409, 410, 10_000] {
        list.add(format!("two countdowns, {rounds} rounds"), closing_at(&both, 256, rounds));
    }
    let deep = "8*a <- T; b <- a; c <- b; d <- c";
    for capacity in [164, 165, 166, 256] {
        list.add(format!("165 rows at capacity {capacity}"), closing_at(deep, capacity, 100));
    }
    let facts: Vec<String> = (0..64u8)
        .map(|i| {
            let (x, y) = (char::from(b'a' + i / 8), char::from(b'i' + i % 8));
            format!("{x} + {y} <- T")
        })
        .collect();
    let sixty_four = with_kinds(closing_at(&facts.join(";"), 256, 100), 16);
    list.add("64 facts", sixty_four.clone());
    for capacity in [63, 64] {
        let mut case = sixty_four.clone();
        case.settings.capacity = capacity;
        lend(&mut case);
        list.add(format!("64 facts at capacity {capacity}"), case);
    }
    for text in
        ["a <- b", "b <- a; d <- c", "a <- b; b <- a", "a <- a & b", "2*e <- b", "a <- 2*b", "e <- T; a <- e"]
    {
        list.add(format!("one round of [{text}] on 256 rows"), rounding(text, grid()));
    }
    list.add("one round to 256 rows", rounding("f <- T", slope(255)));
    list.add("one round past 255 rows", rounding_at("f <- T", slope(255), 255));
    list.add("one round of two heads past 256", rounding("2*e <- T; 2*f <- T", slope(255)));
    list.add("one round of two heads, one removed", rounding("2*f <- T; f <- T", slope(255)));
    list.add("step 2 at exactly the capacity", rounding("c <- d & e", slope(256)));
    list.add("step 3 past the capacity after &", rounding("c <- a & a", slope(200)));
}

/// Gives the fixed list of cases.
pub fn fixed() -> Vec<Named> {
    let mut list = List { cases: vec![] };
    let parts: [fn(&mut List); 12] = [
        examples,
        points,
        orders_of_work,
        room,
        settings,
        areas,
        lengths,
        records,
        orders,
        forms,
        two_faults,
        large,
    ];
    for part in parts {
        part(&mut list);
    }
    list.cases
}

#[cfg(test)]
mod tests {
    use super::*;
    use crate::frames::answer_line;
    use crate::listing::listing;

    /// Gives the answer of a case without the checksums.
    fn told(case: &Case) -> String {
        let line = answer_line(case);
        let words: Vec<&str> = line.split(' ').collect();
        let kept = if case.call == Call::Ask { words.len() } else { words.len() - 2 };
        words[..kept].join(" ")
    }

    /// All marked examples, starred or not, come out as they are told.
    #[test]
    fn marked_examples() {
        assert_eq!(told(&closing("")), "closed 0 0");
        assert_eq!(told(&closing(Q)), "closed 3 3");
        let rows_of_q = rows(&[&[(2, 1)], &[(1, 1)], &[(0, 1)]]);
        assert_eq!(closed_table(Q), rows_of_q);
        let ask_q = |order: &str| told(&asking(closed_table(Q), letter_goals(order)));
        assert_eq!(ask_q("a; e"), "yes");
        assert_eq!(ask_q("d; e"), "no");
        assert_eq!(told(&closing_at(P, 5, 100)), "closed 5 3");
        assert_eq!(told(&closing_at(P, 4, 100)), "refused 8 1");
        assert_eq!(told(&closing_at(P, 1, 100)), "refused 8 0");
        assert_eq!(told(&closing_at(P, 256, 2)), "refused 9 2");
        assert_eq!(told(&closing_at(P, 256, 3)), "closed 5 3");
        for set in ["", P, Q, LADDER] {
            assert_eq!(told(&asking(closed_table(set), vec![])), "no");
        }
        assert_eq!(told(&asking(vec![], letter_goals("T; a"))), "yes");
        let sixteen = format!("a <- {FOUR} + {FOUR}");
        assert_eq!(told(&closing(&sixteen)), "closed 0 0");
        assert_eq!(told(&closing(&format!("a <- {FIVE} + {FOUR}"))), "refused 6 0");
        assert_eq!(told(&closing(LADDER)), "closed 18 18");
        assert_eq!(told(&closing(HIGH_LADDER)), "refused 7 17");
    }

    /// The points that the documents leave to be read come out as decided.
    #[test]
    fn read_points() {
        let table = || closed_table("a <- T; b <- T");
        let asked = |order: String| told(&asking(table(), letter_goals(&order)));
        assert_eq!(asked(format!("T; {FOUR}; {FIVE}")), "yes");
        assert_eq!(asked(format!("{FOUR}; {FIVE}; T")), "refused 6 0");
        assert_eq!(asked(format!("T; {SEVENTEEN}")), "refused 6 0");
        assert_eq!(told(&closing(&format!("a <- {SEVENTEEN} + T"))), "refused 6 0");
        let mut stray = closing(&format!("a <- {SEVENTEEN}"));
        stray.rules[63] = 0;
        assert_eq!(told(&stray), "refused 5 0");
        let mut two = closing(&format!("a <- {SEVENTEEN}; a <- T"));
        two.rules[RECORD] = 255;
        assert_eq!(told(&two), "refused 6 0");
        assert_eq!(told(&closing("a <- T + T")), "closed 1 1");
        assert_eq!(told(&closing_at(STEP_TWO, 2, 100)), "refused 8 1");
        assert_eq!(told(&closing_at(STEP_TWO, 3, 100)), "closed 2 1");
        assert_eq!(told(&closing_at(HIGH_LADDER, 256, 17)), "refused 9 17");
    }

    /// The areas hold rows, zeros and their former content where they should.
    #[test]
    fn what_the_areas_hold() {
        let case = Case { table: 200, work: 500, ..closing_at(P, 5, 100) };
        let table = [closed_table(P), vec![0xa5; 40]].concat();
        let work = [vec![0; 480], vec![0xa5; 20]].concat();
        let sums = |table: &[u8], work: &[u8]| {
            let sum = crate::frames::adler32;
            format!(" {} {}", sum(table), sum(work))
        };
        assert_eq!(answer_line(&case), "closed 5 3".to_string() + &sums(&table, &work));
        let case = Case { table: 130, work: 386, ..closing_at(P, 4, 100) };
        let table = [vec![0; 128], vec![0xa5; 2]].concat();
        let work = [vec![0; 384], vec![0xa5; 2]].concat();
        assert_eq!(answer_line(&case), "refused 8 1".to_string() + &sums(&table, &work));
        let case = Case { table: 127, work: 386, ..closing_at(P, 4, 100) };
        let untouched = sums(&[0xa5; 127], &[0xa5; 386]);
        assert_eq!(answer_line(&case), "refused 2 0".to_string() + &untouched);
    }

    /// The listing program prints P in full, and refusals in one line.
    #[test]
    fn listing_of_p() {
        let shown = "closed 5 3\n2:1 5:1\n2:1 4:1\n2:1 3:1\n1:1 2:1\n0:1\n";
        assert_eq!(listing(&letters(P)), shown);
        assert_eq!(listing(&[]), "closed 0 0\n");
        assert_eq!(listing(&[0; 4_097]), "refused 3 0\n");
        assert_eq!(listing(&[0; 63]), "refused 3 0\n");
        assert_eq!(listing(&letters(HIGH_LADDER)), "refused 7 17\n");
    }

    /// Every fixed case keeps the limits of a frame.
    #[test]
    fn every_case_fits_a_frame() {
        let cases = fixed();
        assert!(cases.iter().all(|(_, case)| fits(case)));
    }

    /// The fixed cases meet every refusal of every call.
    #[test]
    fn every_refusal_occurs_in_every_call_that_has_it() {
        let mut seen = std::collections::BTreeSet::new();
        for (_, case) in fixed() {
            let line = told(&case);
            let start = line.split(' ').take(2).collect::<Vec<_>>().join(" ");
            if start.starts_with("refused") {
                seen.insert((case.call as u8, start[8..].parse::<u64>().unwrap()));
            }
        }
        let of = |call| seen.iter().filter(|s| s.0 == call).map(|s| s.1).collect::<Vec<_>>();
        assert_eq!(of(0), [1, 2, 3, 4, 5, 6, 7, 8, 9]);
        assert_eq!(of(1), [1, 2, 3, 4, 5, 6, 7, 8, 11]);
        assert_eq!(of(2), [1, 3, 6, 10, 11]);
    }
}
