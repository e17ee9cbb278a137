//! A readable text for rules, and its spelling as 64-byte records.
//!
//! One line holds one of these, blanks being free:
//!
//! ```text
//! kind NAME = NUMBER          a name for a kind, 0 to 31
//! HEAD <- BODY                a rule
//! ```
//!
//! `#` starts a comment that runs to the end of its line. A HEAD is kinds separated by `+`, in any
//! order. In a BODY `+` is ⅋, `&` is &, `T` is ⊤, and parentheses group. `+` and `&` never stand
//! side by side without parentheses; `x + y + z` is `x + (y + z)`, and the same for `&`.
//! `3*x` stands for `x + x + x`. A NAME is letters, digits, `_` and `-`, starting with a letter;
//! `T` and `kind` are no names.

use crate::goals::{both, read_form, together, write_goal, write_rule, Goal, Rule, BOTH, RECORD, TOGETHER};
use crate::sets::KINDS;
use std::collections::BTreeMap;

/// The names of kinds.
type Names = BTreeMap<String, usize>;

/// A piece of a line.
#[derive(Clone, Debug, PartialEq, Eq)]
enum Piece {
    Word(String),
    Number(usize),
    Sign(char),
    Arrow,
}

/// Takes a line apart into pieces, without its comment.
fn pieces(line: &str) -> Result<Vec<Piece>, String> {
    let text: Vec<char> = line.split('#').next().unwrap_or("").chars().collect();
    let mut found = Vec::new();
    let mut at = 0;
    while at < text.len() {
        let run = |good: fn(char) -> bool| -> String {
            text[at..].iter().copied().take_while(|&c| good(c)).collect()
        };
        let sign = text[at];
        if sign.is_ascii_alphabetic() {
            let word = run(|c| c.is_ascii_alphanumeric() || c == '_' || c == '-');
            at += word.len();
            found.push(Piece::Word(word));
        } else if sign.is_ascii_digit() {
            let digits = run(|c| c.is_ascii_digit());
            at += digits.len();
            let number = digits.parse().map_err(|_| format!("{digits} is too large"))?;
            found.push(Piece::Number(number));
        } else if sign == '<' && text.get(at + 1) == Some(&'-') {
            at += 2;
            found.push(Piece::Arrow);
        } else {
            at += 1;
            if !sign.is_whitespace() {
                found.push(Piece::Sign(sign));
            }
        }
    }
    Ok(found)
}

/// A reader of one line's pieces.
struct Reader<'a> {
    pieces: &'a [Piece],
    names: &'a Names,
}

impl Reader<'_> {
    /// Takes the next piece if it is this one.
    fn takes(&mut self, piece: &Piece) -> bool {
        let there = self.pieces.first() == Some(piece);
        if there {
            self.pieces = &self.pieces[1..];
        }
        there
    }

    /// Takes the next piece, whatever it is.
    fn next(&mut self) -> Option<Piece> {
        let (first, rest) = self.pieces.split_first()?;
        self.pieces = rest;
        Some(first.clone())
    }

    /// Gives the kind of a name.
    fn kind(&self, name: &str) -> Result<usize, String> {
        let known = self.names.get(name).copied();
        known.ok_or_else(|| format!("{name} is no declared kind"))
    }

    /// Reads a kind after `COUNT*` as a ⅋ of so many.
    fn repeated(&mut self, count: usize) -> Result<Goal, String> {
        if count == 0 || count > RECORD || !self.takes(&Piece::Sign('*')) {
            return Err("a count stands as COUNT*NAME and is 1 to 64".into());
        }
        let Some(Piece::Word(name)) = self.next() else {
            return Err("a kind is missing after the count".into());
        };
        let kind = Goal::Kind(self.kind(&name)?);
        let again = |rest, _| together(kind.clone(), rest);
        Ok((1..count).fold(kind.clone(), again))
    }

    /// Reads a kind, ⊤, a repeated kind or a goal in parentheses.
    fn part(&mut self) -> Result<Goal, String> {
        match self.next() {
            Some(Piece::Word(word)) if word == "T" => Ok(Goal::Done),
            Some(Piece::Word(word)) => Ok(Goal::Kind(self.kind(&word)?)),
            Some(Piece::Number(count)) => self.repeated(count),
            Some(Piece::Sign('(')) => {
                let goal = self.goal()?;
                if self.takes(&Piece::Sign(')')) {
                    Ok(goal)
                } else {
                    Err("a closing parenthesis is missing".into())
                }
            }
            _ => Err("a goal is missing".into()),
        }
    }

    /// Reads parts joined by one connective.
    fn goal(&mut self) -> Result<Goal, String> {
        let first = self.part()?;
        let Some(sign @ Piece::Sign('+' | '&')) = self.pieces.first().cloned() else {
            return Ok(first);
        };
        let mut parts = vec![first];
        while self.takes(&sign) {
            parts.push(self.part()?);
        }
        if let Some(Piece::Sign('+' | '&')) = self.pieces.first() {
            return Err("+ and & side by side need parentheses".into());
        }
        let make = if sign == Piece::Sign('+') { together } else { both };
        let last = parts.pop().expect("there is a first part");
        Ok(parts.into_iter().rev().fold(last, |right, left| make(left, right)))
    }

    /// Reads a whole goal that nothing follows.
    fn whole(&mut self) -> Result<Goal, String> {
        let goal = self.goal()?;
        match self.pieces.first() {
            None => Ok(goal),
            Some(piece) => Err(format!("{piece:?} stands after the goal")),
        }
    }

    /// Reads `HEAD <- BODY`.
    fn rule(&mut self) -> Result<Rule, String> {
        let mut head = Vec::new();
        kinds_of(&self.goal()?, &mut head)?;
        head.sort_unstable();
        if !self.takes(&Piece::Arrow) {
            return Err("<- is missing".into());
        }
        let body = self.whole()?;
        Ok(Rule { head, body })
    }
}

/// Collects the kinds of a goal that is made of ⅋ alone.
fn kinds_of(goal: &Goal, kinds: &mut Vec<usize>) -> Result<(), String> {
    match goal {
        Goal::Kind(kind) => kinds.push(*kind),
        Goal::Together(left, right) => {
            kinds_of(left, kinds)?;
            kinds_of(right, kinds)?;
        }
        Goal::Done | Goal::Both(..) => return Err("a head is kinds and + alone".into()),
    }
    Ok(())
}

/// Reads `kind NAME = NUMBER` into the names, or says that the line is something else.
fn declare(line: &[Piece], names: &mut Names) -> Result<bool, String> {
    let Some(Piece::Word(first)) = line.first() else {
        return Ok(false);
    };
    if first != "kind" {
        return Ok(false);
    }
    let [_, Piece::Word(name), Piece::Sign('='), Piece::Number(number)] = line else {
        return Err("a kind is declared as: kind NAME = NUMBER".into());
    };
    if name == "T" || name == "kind" || *number >= KINDS || names.contains_key(name) {
        return Err(format!("{name} = {number} is no new name for a kind from 0 to 31"));
    }
    names.insert(name.clone(), *number);
    Ok(true)
}

/// Spells one line's rule, if it has one, as a record.
fn spell_line(line: &str, names: &mut Names) -> Result<Vec<u8>, String> {
    let pieces = pieces(line)?;
    if pieces.is_empty() || declare(&pieces, names)? {
        return Ok(vec![]);
    }
    let rule = Reader { pieces: &pieces, names }.rule()?;
    write_rule(&rule).ok_or("a head has at most 16 kinds and a body at most 47 codes".into())
}

/// Spells lines with names already known.
fn spell_with(lines: &mut dyn Iterator<Item = &str>, names: &mut Names) -> Result<Vec<u8>, String> {
    let mut records = Vec::new();
    for (number, line) in lines.enumerate() {
        let record = spell_line(line, names);
        records.extend(record.map_err(|what| format!("line {}: {what}", number + 1))?);
    }
    Ok(records)
}

/// Spells a readable text as rule records.
pub fn spell(text: &str) -> Result<Vec<u8>, String> {
    spell_with(&mut text.lines(), &mut Names::new())
}

/// Gives the letters a to z as names of the kinds 0 to 25.
fn letter_names() -> Names {
    ('a'..='z').map(String::from).zip(0..).collect()
}

/// Spells rules separated by semicolons in which the letters a to z are kinds 0 to 25.
pub fn letters(text: &str) -> Vec<u8> {
    spell_with(&mut text.split(';'), &mut letter_names()).expect("a good text")
}

/// Spells an order: goals separated by semicolons in which the letters a to z are kinds 0 to 25.
pub fn letter_goals(text: &str) -> Vec<u8> {
    let names = letter_names();
    let mut codes = Vec::new();
    for goal in text.split(';').filter(|goal| !goal.trim().is_empty()) {
        let pieces = pieces(goal).expect("a good text");
        let goal = Reader { pieces: &pieces, names: &names }.whole();
        codes.extend(write_goal(&goal.expect("a good text")));
    }
    codes
}

/// Says a part of a goal, in parentheses if it is compound and its place calls for them.
fn say_part(goal: &Goal, outer: u8, is_right: bool) -> String {
    let (sign, left, right) = match goal {
        Goal::Kind(kind) => return format!("k{kind}"),
        Goal::Done => return "T".into(),
        Goal::Together(left, right) => (TOGETHER, left, right),
        Goal::Both(left, right) => (BOTH, left, right),
    };
    let word = if sign == TOGETHER { "+" } else { "&" };
    let said = format!("{} {word} {}", say_part(left, sign, false), say_part(right, sign, true));
    if outer == 0 || (outer == sign && is_right) {
        said
    } else {
        format!("({said})")
    }
}

/// Says a head with its repeats counted.
fn say_head(head: &[usize]) -> String {
    let mut said: Vec<String> = Vec::new();
    for run in head.chunk_by(|a, b| a == b) {
        said.push(match run.len() {
            1 => format!("k{}", run[0]),
            count => format!("{count}*k{}", run[0]),
        });
    }
    said.join(" + ")
}

/// Collects the kinds that a goal names.
fn named(goal: &Goal, kinds: &mut Vec<usize>) {
    match goal {
        Goal::Kind(kind) => kinds.push(*kind),
        Goal::Done => {}
        Goal::Together(left, right) | Goal::Both(left, right) => {
            named(left, kinds);
            named(right, kinds);
        }
    }
}

/// Says rule records as a readable text, kind i being named `ki`.
pub fn unspell(bytes: &[u8]) -> Result<String, String> {
    if !bytes.len().is_multiple_of(RECORD) {
        return Err("the records are not a multiple of 64 bytes".into());
    }
    let mut kinds = Vec::new();
    let mut lines = String::new();
    for (number, record) in bytes.chunks(RECORD).enumerate() {
        let form = read_form(record, KINDS);
        let rule = form.map_err(|no| format!("record {number} is refused by {no}"))?;
        kinds.extend(&rule.head);
        named(&rule.body, &mut kinds);
        let body = say_part(&rule.body, 0, false);
        lines += &format!("{} <- {body}\n", say_head(&rule.head));
    }
    kinds.sort_unstable();
    kinds.dedup();
    let declared: String = kinds.iter().map(|kind| format!("kind k{kind} = {kind}\n")).collect();
    Ok(declared + &lines)
}

#[cfg(test)]
mod tests {
    use super::*;
    use crate::random::{rule, Random, Taste};

    /// A rule is spelled as the bytes of its record.
    #[test]
    fn bytes_of_a_rule() {
        let text = "kind x = 3 # a kind\nkind y = 1\n\n 2*x + y <- (x & T) + y # a rule\n";
        let mut record = vec![255; 64];
        record[..3].copy_from_slice(&[1, 3, 3]);
        record[16..21].copy_from_slice(&[65, 66, 3, 64, 1]);
        assert_eq!(spell(text), Ok(record));
    }

    /// Chains of one connective group to the right.
    #[test]
    fn chains_group_to_the_right() {
        assert_eq!(letter_goals("a + b + c"), [65, 0, 65, 1, 2]);
        assert_eq!(letter_goals("(a & b) & c; T"), [66, 66, 0, 1, 2, 64]);
        assert_eq!(letter_goals("3*a"), letter_goals("a + a + a"));
        assert_eq!(letter_goals(""), [] as [u8; 0]);
    }

    /// A fault of the text is told with the number of its line.
    #[test]
    fn faults_are_told_with_their_line() {
        let fault = |text: &str| spell(text).unwrap_err();
        assert!(fault("kind a = 0\na <- b").starts_with("line 2: b is no"));
        assert!(fault("kind a = 32").starts_with("line 1: "));
        assert!(fault("kind a = 0\nkind a = 1").starts_with("line 2: "));
        assert!(fault("kind T = 0").starts_with("line 1: "));
        for bad in ["a <- a + a & a", "a <- (a", "a <- a)", "a & a <- a", "a <-", "<- a", "a a"] {
            assert!(spell(&format!("kind a = 0\n{bad}")).is_err(), "{bad}");
        }
        assert!(spell("kind a = 0\n17*a <- T").is_err());
        assert!(spell("kind a = 0\na <- 25*a").is_err());
        assert!(spell("kind a = 0\n16*a <- 24*a").is_ok());
    }

    /// Records said as a text are spelled as the same records again.
    #[test]
    fn saying_and_spelling_again_gives_the_same_bytes() {
        let mut random = Random::new(7);
        let taste = Taste { kinds: 32, connectives: 23, both: 40, done: 10 };
        for _ in 0..200 {
            let bytes = write_rule(&rule(&mut random, &taste, 16, 10, 16)).unwrap();
            let text = unspell(&bytes).unwrap();
            assert_eq!(spell(&text), Ok(bytes), "{text}");
        }
    }
}
