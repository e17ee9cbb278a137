//! What the listing program prints for rule records.

use crate::frames::say;
use crate::rounds::{close, Answer, Settings, CAPACITY, ROUNDS, RULES_BYTES};
use crate::sets::{rows_of, KINDS, ROW};

/// Says a row: kind:count for each count above 0, in kind order.
fn say_row(row: &[u64]) -> String {
    let held = row.iter().enumerate().filter(|(_, count)| **count > 0);
    let said: Vec<String> = held.map(|(kind, count)| format!("{kind}:{count}")).collect();
    said.join(" ")
}

/// Gives the lines that the listing program prints for these rules.
pub fn listing(rules: &[u8]) -> String {
    if rules.len() > RULES_BYTES {
        return "refused 3 0\n".into();
    }
    let settings = Settings { kinds: KINDS as u64, capacity: CAPACITY, rounds: ROUNDS };
    let area = vec![0; CAPACITY as usize * ROW];
    let outcome = close(settings, rules, &area, &area.repeat(3));
    let mut lines = say(&outcome.answer) + "\n";
    if let Answer::Closed { rows, .. } = outcome.answer {
        for row in rows_of(&outcome.table[..rows as usize * ROW]) {
            lines += &say_row(&row);
            lines.push('\n');
        }
    }
    lines
}
