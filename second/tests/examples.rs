//! The example rule files and their readable companions.

use second::fixed::{LADDER, P, Q};
use second::listing::listing;
use second::rounds::{ask, close, Answer, Settings};
use second::spelling::{letters, spell, unspell};

/// The rule files with their companions.
const FILES: [(&[u8], &str); 4] = [
    (include_bytes!("../../examples/p.rules"), include_str!("../../examples/p.txt")),
    (include_bytes!("../../examples/q.rules"), include_str!("../../examples/q.txt")),
    (include_bytes!("../../examples/ladder.rules"), include_str!("../../examples/ladder.txt")),
    (include_bytes!("../../examples/entitlements.rules"), include_str!("../../examples/entitlements.txt")),
];

/// Each companion spells exactly the bytes of its rule file.
#[test]
fn companions_spell_the_rule_files() {
    for (rules, text) in FILES {
        assert_eq!(spell(text).as_deref(), Ok(rules));
        assert_eq!(spell(&unspell(rules).unwrap()).as_deref(), Ok(rules));
    }
}

/// The rule files of P, Q and the ladder are the marked sets.
#[test]
fn the_marked_sets_are_those_of_the_examples() {
    assert_eq!(letters(P), FILES[0].0);
    assert_eq!(letters(Q), FILES[1].0);
    assert_eq!(letters(LADDER), FILES[2].0);
}

/// Each rule file closes with the rows and rounds that are told of it.
#[test]
fn listings() {
    let first = |place: usize| listing(FILES[place].0).lines().next().map(String::from).unwrap();
    assert_eq!(first(0), "closed 5 3");
    assert_eq!(first(1), "closed 3 3");
    assert_eq!(first(2), "closed 18 18");
    assert_eq!(first(3), "closed 70 6");
    assert!(FILES[3].0.len() / 64 >= 20);
}

/// A roll-out is entitled with ten seats and not with nine.
#[test]
fn nine_seats_are_not_ten() {
    let settings = Settings { kinds: 32, capacity: 256, rounds: 100 };
    let outcome = close(settings, FILES[3].0, &[0; 8_192], &[0; 24_576]);
    let Answer::Closed { rows, .. } = outcome.answer else {
        panic!("not closed");
    };
    let table = &outcome.table[..rows as usize * 32];
    let (rollout, licence, seat, maintenance) = (9, 10, 11, 12);
    let order = |seats: usize| [vec![rollout, licence, maintenance], vec![seat; seats]].concat();
    assert_eq!(ask(32, table, &order(9)), Answer::No);
    assert_eq!(ask(32, table, &order(10)), Answer::Yes);
}
