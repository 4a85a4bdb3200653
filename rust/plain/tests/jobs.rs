//! Jobs with their answers, line by line: those of document 01's bench program, and ones in hexadecimal that bring symbols and an area's size along.

use plain::{Number, Refusal, check, print, read_number, select};

/// The program's output area.
const AREA: usize = 2048;
/// Longest line that is a job.
const MAX_LINE: usize = 8192;

fn answer(line: &[u8]) -> Vec<u8> {
    if line.len() > MAX_LINE {
        return b"? 60".to_vec();
    }
    let fields: Vec<&[u8]> = line.split(|&b| b == b'\t').collect();
    match fields[..] {
        [b"s", pack, number] => {
            let word = select(pack, number).map(|keyword| keyword.name().as_bytes().to_vec());
            report('s', word)
        }
        [b"c", pack] => report('c', check(pack).map(|()| b"ok".to_vec())),
        [b"f", pattern, number] => {
            let mut area = [0; AREA];
            let text = print(b"", pattern, number, &mut area);
            report('f', text.map(|length| area[..length].to_vec()))
        }
        _ => b"? 61".to_vec(),
    }
}

/// The answer to a job whose fields, but for the size of an area, are in hexadecimal.
fn hex_answer(line: &[u8]) -> Vec<u8> {
    let line = str::from_utf8(line).expect("a job in hexadecimal is text");
    let fields: Vec<&str> = line.split('\t').collect();
    match fields[..] {
        ["N", number] => report('N', read_number(&bytes(number)).map(operands)),
        ["S", pack, number, "n"] => {
            let word = select(&bytes(pack), &bytes(number));
            report('S', word.map(|keyword| keyword.name().into()))
        }
        ["C", pack, "n"] => report('C', check(&bytes(pack)).map(|()| b"ok".to_vec())),
        ["F", symbols, pattern, number, size, ""] => {
            let size = size.parse().expect("a size");
            report('F', print_hex([symbols, pattern, number].map(bytes), size))
        }
        _ => panic!("no job: {line}"),
    }
}

fn bytes(hex: &str) -> Vec<u8> {
    let pairs = hex.as_bytes().chunks(2).map(|pair| {
        let pair = str::from_utf8(pair).ok()?;
        u8::from_str_radix(pair, 16).ok()
    });
    pairs.collect::<Option<_>>().expect(hex)
}

fn operands(number: Number) -> Vec<u8> {
    let Number {
        negative,
        e,
        v,
        i,
        f,
        w,
        t,
    } = number;
    format!("{} {e} {v} {i} {f} {w} {t}", u8::from(negative)).into_bytes()
}

/// Prints into an area of that size, all of which but the text must stay as it was.
fn print_hex([symbols, pattern, number]: [Vec<u8>; 3], size: usize) -> Result<Vec<u8>, Refusal> {
    let before: Vec<u8> = (0..size).map(|place| (place * 37 + 11) as u8).collect();
    let mut area = before.clone();
    let length = print(&symbols, &pattern, &number, &mut area);
    let written = length.unwrap_or(0);
    assert_eq!(area[written..], before[written..]);
    length.map(|_| {
        let text = area[..written].iter().map(|byte| format!("{byte:02x}"));
        text.collect::<String>().into_bytes()
    })
}

fn report(letter: char, answer: Result<Vec<u8>, Refusal>) -> Vec<u8> {
    match answer {
        Ok(text) => [format!("{letter} ").as_bytes(), &text].concat(),
        Err(refusal) => {
            let mut line = format!("{letter}! {}", refusal.number());
            for figure in refusal.figures() {
                line += &format!(" {figure}");
            }
            line.into_bytes()
        }
    }
}

fn lines(file: &[u8]) -> Vec<&[u8]> {
    let file = file.strip_suffix(b"\n").unwrap_or(file);
    file.split(|&b| b == b'\n').collect()
}

fn compare(answer: fn(&[u8]) -> Vec<u8>, jobs: &[u8], answers: &[u8]) {
    let (jobs, answers) = (lines(jobs), lines(answers));
    assert_eq!(jobs.len(), answers.len());
    for (job, expected) in jobs.iter().zip(answers) {
        assert_eq!(
            answer(job).escape_ascii().to_string(),
            expected.escape_ascii().to_string(),
            "{}",
            job.escape_ascii()
        );
    }
}

#[test]
fn bench_card() {
    compare(
        answer,
        include_bytes!("data/card.jobs"),
        include_bytes!("data/card.answers"),
    );
}

/// Valid, nearly valid and damaged jobs of an earlier implementation.
#[test]
fn made_up_jobs() {
    compare(
        answer,
        include_bytes!("data/base.jobs"),
        include_bytes!("data/base.answers"),
    );
}

/// Jobs of the same kind, most of them with minimum grouping digits in their symbols.
#[test]
fn made_up_jobs_with_symbols() {
    compare(
        hex_answer,
        include_bytes!("data/grouping.jobs"),
        include_bytes!("data/grouping.answers"),
    );
}

#[test]
fn lines_that_are_no_jobs() {
    for (line, expected) in [
        (vec![b'c'; MAX_LINE + 1], "? 60"),
        (vec![b'c'; MAX_LINE], "? 61"),
        (vec![], "? 61"),
        (b"c".to_vec(), "? 61"),
        (b"c\t".to_vec(), "c! 21 0"),
        (b"f\t0\t1\t".to_vec(), "? 61"),
    ] {
        assert_eq!(answer(&line), expected.as_bytes());
    }
}
