//! Each job done by both sides, which must give the same answers, figures and bytes.

use okwazibelu::raw::{self, Figures};
use plain::Refusal;

/// What figures hold before a call.
const UNTOUCHED: Figures = [
    0xF00D_0000_0000_0000,
    0xF00D_0000_0000_0001,
    0xF00D_0000_0000_0002,
    0xF00D_0000_0000_0003,
    0xF00D_0000_0000_0004,
    0xF00D_0000_0000_0005,
    0xF00D_0000_0000_0006,
    0xF00D_0000_0000_0007,
];

/// Bytes before and behind the output area.
const GUARD: usize = 16;

/// What a call gives back: the table's number or 0, the figures, and the output area with its guards.
#[derive(Debug, PartialEq, Eq)]
pub struct Answer {
    /// The table's number, 0 for an answer.
    pub number: u32,
    /// All eight entries.
    pub figures: Figures,
    /// The area with its guards.
    pub area: Vec<u8>,
}

impl Answer {
    /// The answer the interface gives for a result of the ordinary Rust.
    fn expected(result: Result<Vec<u64>, Refusal>, area: Vec<u8>) -> Self {
        let (number, given) = match result {
            Ok(given) => (0, given),
            Err(refusal) => (refusal.number(), refusal.figures()),
        };
        let mut figures = UNTOUCHED;
        figures[0] = given.len() as u64;
        figures[1..=given.len()].copy_from_slice(&given);
        Answer {
            number,
            figures,
            area,
        }
    }
}

/// Stops with the inputs and both answers if these differ.
fn same(job: &str, inputs: &[&[u8]], plain: &Answer, proved: &Answer) {
    if plain == proved {
        return;
    }
    let inputs: Vec<String> = inputs
        .iter()
        .map(|input| format!("\"{}\"", input.escape_ascii()))
        .collect();
    panic!(
        "{job} differs\ninputs: {}\nplain:  {plain:x?}\nproved: {proved:x?}",
        inputs.join("\n        ")
    );
}

/// Reads a number.
pub fn read_number(text: &[u8]) -> Answer {
    let read = plain::read_number(text).map(|number| {
        vec![
            number.negative.into(),
            number.e.into(),
            number.v.into(),
            number.i,
            number.f,
            number.w.into(),
            number.t,
        ]
    });
    let expected = Answer::expected(read, Vec::new());
    let mut figures = UNTOUCHED;
    let number = raw::read_number(text, &mut figures);
    let proved = Answer {
        number,
        figures,
        area: Vec::new(),
    };
    same("read_number", &[text], &expected, &proved);
    expected
}

/// Chooses a word.
pub fn select(pack: &[u8], number: &[u8]) -> Answer {
    let word = plain::select(pack, number).map(|keyword| vec![keyword as u64]);
    let expected = Answer::expected(word, Vec::new());
    let mut figures = UNTOUCHED;
    let refusal = raw::select(pack, number, &mut figures);
    let proved = Answer {
        number: refusal,
        figures,
        area: Vec::new(),
    };
    same("select", &[pack, number], &expected, &proved);
    expected
}

/// Checks a pack.
pub fn check(pack: &[u8]) -> Answer {
    let expected = Answer::expected(plain::check(pack).map(|()| vec![]), Vec::new());
    let mut figures = UNTOUCHED;
    let number = raw::check(pack, &mut figures);
    let proved = Answer {
        number,
        figures,
        area: Vec::new(),
    };
    same("check", &[pack], &expected, &proved);
    expected
}

/// Stops if the library's number and figures for a pack are not those of the ordinary Rust.
pub fn same_check(pack: &[u8], number: u32, figures: &Figures) {
    let (expected, given) = match plain::check(pack) {
        Ok(()) => (0, Vec::new()),
        Err(refusal) => (refusal.number(), refusal.figures()),
    };
    let answer = (number, &figures[1..=given.len()]);
    assert_eq!((expected, &given[..]), answer, "{}", pack.escape_ascii());
}

/// A run of bytes in which a byte that moved would show.
fn filled(length: usize) -> Vec<u8> {
    (0..length).map(|place| (place * 37 + 11) as u8).collect()
}

/// Prints a number into an area of that size.
pub fn print([symbols, pattern, number]: [&[u8]; 3], size: usize) -> Answer {
    let room = GUARD..GUARD + size;
    let mut area = filled(size + 2 * GUARD);
    let length = plain::print(symbols, pattern, number, &mut area[room.clone()]);
    let expected = Answer::expected(length.map(|length| vec![length as u64]), area);
    let mut area = filled(size + 2 * GUARD);
    let mut figures = UNTOUCHED;
    let refusal = raw::print(symbols, pattern, number, &mut area[room], &mut figures);
    let proved = Answer {
        number: refusal,
        figures,
        area,
    };
    same("print", &[symbols, pattern, number], &expected, &proved);
    expected
}
