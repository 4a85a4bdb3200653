//! The header's comment and `Refusal` are held to the table of docs/REFERENCE.md: the same numbers, words and figures, and none besides.

use okwazibelu::Refusal;

const REFERENCE: &str = include_str!("../../../docs/REFERENCE.md");
const HEADER: &str = include_str!("../../../include/okwazibelu.h");
const ENUM: &str = include_str!("../src/refusal.rs");

/// A refusal's number, when it is given, and the names of its figures.
#[derive(Debug, PartialEq)]
struct Row {
    number: u32,
    given: String,
    figures: String,
}

impl Row {
    fn new(number: &str, given: &str, figures: &str) -> Row {
        Row {
            number: number.parse().expect("a row begins with its number"),
            given: given.replace('`', ""),
            figures: figures.to_string(),
        }
    }

    /// How many figures there are, in each of the cases that semicolons part.
    fn counts(&self) -> Vec<usize> {
        let cases = self.figures.split(';');
        let names = cases.map(|case| case.rsplit(':').next().unwrap_or_default());
        names
            .map(|names| {
                names
                    .split(',')
                    .filter(|name| !name.trim().is_empty())
                    .count()
            })
            .collect()
    }
}

/// The lines between two lines that begin so.
fn section<'a>(text: &'a str, from: &str, to: &str) -> impl Iterator<Item = &'a str> {
    let (_, rest) = text.split_once(from).expect(from);
    let (section, _) = rest.split_once(to).expect(to);
    section.lines().map(str::trim)
}

fn is_row(line: &str) -> bool {
    line.starts_with(|first: char| first.is_ascii_digit())
}

/// The table's rows: `| number | given | figures |`.
fn reference() -> Vec<Row> {
    section(REFERENCE, "## Refusals", "## Order of refusals")
        .filter_map(|line| line.strip_prefix("| "))
        .filter(|line| is_row(line))
        .map(|line| {
            let cells: Vec<&str> = line.split('|').map(str::trim).collect();
            let [number, given, figures, ""] = cells[..] else {
                panic!("three cells: {line}");
            };
            Row::new(number, given, figures)
        })
        .collect()
}

/// The header's rows: `number  given [figures]`.
fn header() -> Vec<Row> {
    section(HEADER, "* Refusals, with their figures", "#ifndef")
        .filter_map(|line| line.strip_prefix('*'))
        .map(str::trim)
        .filter(|line| is_row(line))
        .map(|line| {
            let (number, rest) = line.split_once("  ").expect(line);
            let (given, figures) = rest.split_once(" [").unwrap_or((rest, "]"));
            Row::new(number, given, figures.strip_suffix(']').expect(line))
        })
        .collect()
}

/// The number that begins the comment of each of the enum's cases, once.
fn cases() -> Vec<u32> {
    let mut numbers: Vec<u32> = section(ENUM, "pub enum Refusal {", "\n}")
        .filter_map(|line| line.strip_prefix("/// "))
        .filter(|line| is_row(line))
        .map(|line| line[..2].parse().expect(line))
        .collect();
    numbers.dedup();
    numbers
}

#[test]
fn the_header_has_the_table() {
    let rows = reference();
    assert!(!rows.is_empty());
    assert_eq!(header(), rows);
}

#[test]
fn the_enum_has_the_table() {
    let rows = reference();
    let numbers: Vec<u32> = rows.iter().map(|row| row.number).collect();
    assert_eq!(cases(), numbers);
    for number in (0..1000).filter(|number| !numbers.contains(number)) {
        assert_eq!(Refusal::of(number, &[0; 8]), None, "{number} is no row");
    }
    for row in &rows {
        for count in row.counts() {
            let figures = [count as u64, 1, 2, 3, 4, 5, 6, 7];
            let refusal = Refusal::of(row.number, &figures).expect(&row.given);
            assert_eq!(
                (refusal.number(), refusal.reason()),
                (row.number, row.given.as_str())
            );
            assert_eq!(refusal.figures(), figures[1..=count], "{row:?}");
        }
    }
}
