//! Framed cases, little-endian, and the line that each is answered with.

use crate::rounds::{ask, close, round, Answer, Outcome, Settings};

/// The most bytes of rules, rows and order in a frame.
const LONGEST: [usize; 3] = [4_224, 16_512, 256];

/// The longest table area of a frame.
const TABLE: usize = 16_512;

/// The longest work area of a frame.
const WORK: usize = 98_432;

/// Which call a case puts.
#[derive(Clone, Copy, Debug, PartialEq, Eq)]
pub enum Call {
    /// Closing.
    Close,
    /// One round.
    Round,
    /// Asking.
    Ask,
}

/// One case: everything that a call is given.
#[derive(Clone, Debug, PartialEq, Eq)]
pub struct Case {
    /// The call.
    pub call: Call,
    /// The settings, also those that the call does not take.
    pub settings: Settings,
    /// The length of the table area.
    pub table: usize,
    /// The length of the work area.
    pub work: usize,
    /// The byte that both areas are filled with.
    pub fill: u8,
    /// The rules.
    pub rules: Vec<u8>,
    /// The saved rows.
    pub rows: Vec<u8>,
    /// The order.
    pub order: Vec<u8>,
}

/// Writes a length as 4 bytes.
fn four(length: usize) -> [u8; 4] {
    u32::try_from(length).expect("a frame's lengths are small").to_le_bytes()
}

/// Writes a case as a frame.
pub fn write_frame(case: &Case) -> Vec<u8> {
    let mut frame = vec![case.call as u8];
    let settings = case.settings;
    for setting in [settings.kinds, settings.capacity, settings.rounds] {
        frame.extend(setting.to_le_bytes());
    }
    frame.extend(four(case.table));
    frame.extend(four(case.work));
    frame.push(case.fill);
    for part in [&case.rules, &case.rows, &case.order] {
        frame.extend(four(part.len()));
        frame.extend(part);
    }
    frame
}

/// Says whether a case keeps the limits of a frame.
pub fn fits(case: &Case) -> bool {
    let parts = [case.rules.len(), case.rows.len(), case.order.len()];
    case.table <= TABLE
        && case.work <= WORK
        && parts.iter().zip(LONGEST).all(|(length, most)| *length <= most)
}

/// Takes a number of bytes from the front of the rest.
fn take<'a>(rest: &mut &'a [u8], length: usize) -> Option<&'a [u8]> {
    let (front, after) = rest.split_at_checked(length)?;
    *rest = after;
    Some(front)
}

/// Takes a little-endian number of so many bytes.
fn number(rest: &mut &[u8], length: usize) -> Option<u64> {
    let bytes = take(rest, length)?;
    Some(bytes.iter().rev().fold(0, |sum, &byte| sum << 8 | u64::from(byte)))
}

/// Takes a length of at most `most`.
fn length(rest: &mut &[u8], most: usize) -> Option<usize> {
    let length = usize::try_from(number(rest, 4)?).ok()?;
    (length <= most).then_some(length)
}

/// Takes one frame from the front of the rest, or gives nothing if it is a bad one.
pub fn read_frame(rest: &mut &[u8]) -> Option<Case> {
    let call = match number(rest, 1)? {
        0 => Call::Close,
        1 => Call::Round,
        2 => Call::Ask,
        _ => return None,
    };
    let settings = Settings { kinds: number(rest, 8)?, capacity: number(rest, 8)?, rounds: number(rest, 8)? };
    let table = length(rest, TABLE)?;
    let work = length(rest, WORK)?;
    let fill = number(rest, 1)? as u8;
    let mut parts = [vec![], vec![], vec![]];
    for (part, most) in parts.iter_mut().zip(LONGEST) {
        let length = length(rest, most)?;
        *part = take(rest, length)?.to_vec();
    }
    let [rules, rows, order] = parts;
    Some(Case { call, settings, table, work, fill, rules, rows, order })
}

/// Gives the Adler-32 checksum of some bytes.
pub fn adler32(bytes: &[u8]) -> u64 {
    let (mut low, mut high) = (1u64, 0u64);
    for &byte in bytes {
        low = (low + u64::from(byte)) % 65_521;
        high = (high + low) % 65_521;
    }
    high << 16 | low
}

/// Says an answer without the areas.
pub fn say(answer: &Answer) -> String {
    match answer {
        Answer::Closed { rows, rounds } => format!("closed {rows} {rounds}"),
        Answer::Round { rows, grew: true } => format!("round {rows} grew"),
        Answer::Round { rows, grew: false } => format!("round {rows} still"),
        Answer::Yes => "yes".into(),
        Answer::No => "no".into(),
        Answer::Refused { number, returned } => format!("refused {number} {returned}"),
    }
}

/// Says an answer with the checksums of both areas.
fn say_outcome(outcome: &Outcome) -> String {
    let (table, work) = (adler32(&outcome.table), adler32(&outcome.work));
    format!("{} {table} {work}", say(&outcome.answer))
}

/// Gives the line that a case is answered with.
pub fn answer_line(case: &Case) -> String {
    let table = vec![case.fill; case.table];
    let work = vec![case.fill; case.work];
    match case.call {
        Call::Close => say_outcome(&close(case.settings, &case.rules, &table, &work)),
        Call::Round => {
            let outcome = round(case.settings, &case.rules, &case.rows, &table, &work);
            say_outcome(&outcome)
        }
        Call::Ask => say(&ask(case.settings.kinds, &case.rows, &case.order)),
    }
}

/// Gives what is said of each case in a run of frames, a line each; a bad frame ends them.
pub fn lines(frames: &[u8], say: impl Fn(&Case) -> String) -> String {
    let mut lines = String::new();
    let mut rest = frames;
    while !rest.is_empty() {
        let Some(case) = read_frame(&mut rest) else {
            return lines + "bad frame\n";
        };
        lines += &say(&case);
        lines.push('\n');
    }
    lines
}

/// Says a case in one readable line, bytes in hexadecimal.
pub fn show(case: &Case) -> String {
    let hex = |bytes: &[u8]| bytes.iter().map(|b| format!("{b:02x}")).collect::<String>();
    let s = case.settings;
    format!(
        "{:?} kinds={} capacity={} rounds={} table={} work={} fill={} rules={} rows={} order={}",
        case.call,
        s.kinds,
        s.capacity,
        s.rounds,
        case.table,
        case.work,
        case.fill,
        hex(&case.rules),
        hex(&case.rows),
        hex(&case.order)
    )
}

#[cfg(test)]
mod tests {
    use super::*;

    /// The checksum is Adler-32.
    #[test]
    fn checksums() {
        assert_eq!(adler32(b""), 1);
        assert_eq!(adler32(b"Wikipedia"), 300286872);
    }

    /// A frame that is written is read again, and one that breaks off is bad.
    #[test]
    fn frames_come_back() {
        let case = Case {
            call: Call::Round,
            settings: Settings { kinds: 3, capacity: 1 << 63, rounds: u64::MAX },
            table: 31,
            work: 0,
            fill: 7,
            rules: vec![1, 2, 3],
            rows: vec![],
            order: vec![9; 65],
        };
        let frame = write_frame(&case);
        assert_eq!(frame.len(), 1 + 24 + 8 + 1 + 12 + 3 + 65);
        let mut rest = &frame[..];
        assert_eq!(read_frame(&mut rest), Some(case));
        assert!(rest.is_empty());
        assert_eq!(read_frame(&mut &frame[..frame.len() - 1]), None);
        let broken = lines(&frame[..frame.len() - 1], answer_line);
        assert_eq!(broken, "bad frame\n");
    }
}
