//! The made-up packs give the answers they are made for, by both sides.

use compare::{made_up, sides};

const CLASH: u32 = 27;

#[test]
fn seven_digits() {
    for pack in made_up::SEVEN_DIGITS {
        let answer = sides::check(pack.as_bytes());
        let i = answer.figures[5];
        assert_eq!(answer.number, CLASH, "{pack}");
        assert!((1_000_000..10_000_000).contains(&i), "{pack}: i {i}");
    }
}

#[test]
fn nine_places() {
    for pack in made_up::NINE_PLACES {
        let answer = sides::check(pack.as_bytes());
        assert_eq!((answer.number, answer.figures[4]), (CLASH, 9), "{pack}");
    }
}

#[test]
fn late() {
    for pack in made_up::LATE {
        assert_eq!(sides::check(pack.as_bytes()).number, 0, "{pack}");
    }
}

#[test]
fn hostile() {
    for (name, pack) in made_up::HOSTILE {
        let answer = sides::check(pack);
        assert!(matches!(answer.number, 0 | CLASH), "{name}");
    }
}
