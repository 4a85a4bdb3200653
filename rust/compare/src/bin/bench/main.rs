//! Times of the proved library and of the ordinary Rust on the same inputs in the same process.

mod check;
mod table;
mod timer;

use check::check;
use compare::published_packs;
use okwazibelu::raw;
use plain::Refusal;
use std::env;
use std::hint::black_box;
use std::process::ExitCode;
use table::Table;
use timer::times;

type Section = (&'static str, fn(&mut Table));

const SECTIONS: [Section; 4] = [
    ("read_number", read_number),
    ("select", select),
    ("check", check),
    ("print", print),
];

/// Runs the section that the argument names, or all.
fn main() -> ExitCode {
    let wanted = env::args().nth(1);
    let chosen = |name: &str| wanted.as_deref().is_none_or(|wanted| wanted == name);
    if !SECTIONS.iter().any(|(name, _)| chosen(name)) {
        let names = SECTIONS.map(|(name, _)| name).join(", ");
        eprintln!("there is no such section; there are {names}");
        return ExitCode::from(2);
    }
    head();
    let mut table = Table::default();
    for (_, run) in SECTIONS.iter().filter(|(name, _)| chosen(name)) {
        run(&mut table);
    }
    table.summary();
    ExitCode::SUCCESS
}

fn head() {
    println!(
        "Times in nanoseconds a call: median of up to 31 runs of about 0.5 ms each, after warm-up; a call of over 1 s is timed once. Ratio is proved/plain."
    );
    println!(
        "The proved library is called through its C interface, the ordinary Rust through its own functions; both read their texts on every call."
    );
    println!(
        "No buffer is cleared in the timed loops: figures and output area keep what the call before left in them."
    );
}

/// How an answer is named in a row.
fn named<T>(answer: Result<T, Refusal>, name: impl Fn(T) -> String) -> String {
    match answer {
        Ok(value) => name(value),
        Err(refusal) => format!("refusal {}", refusal.number()),
    }
}

/// Stops if the sides differ, as times of different answers say nothing.
fn agree<T>(plain: &Result<T, Refusal>, proved: u32) {
    let expected = plain.as_ref().map_or_else(Refusal::number, |_| 0);
    assert_eq!(expected, proved, "the two sides give the same answer");
}

fn read_number(table: &mut Table) {
    table.section("read_number", "read_number");
    for text in [
        "1",
        "-1234.567",
        "123456789012345.123456789",
        "1.20050c3",
        "1c15",
        "1.2.3",
    ] {
        let mut figures = [0; 8];
        let answer = plain::read_number(text.as_bytes());
        agree(&answer, raw::read_number(text.as_bytes(), &mut figures));
        let times = times(
            || plain::read_number(black_box(text.as_bytes())),
            || raw::read_number(black_box(text.as_bytes()), black_box(&mut figures)),
        );
        let answer = named(answer, |_| "read".to_string());
        table.row(&format!("{text}  ({answer})"), times);
    }
}

/// Languages and the packs published for them.
fn languages() -> Vec<(&'static str, &'static str)> {
    let cardinal = |locale: &str| {
        published_packs()
            .into_iter()
            .filter(|(id, ..)| id.starts_with("cardinal"))
            .find(|(_, locales, _)| locales.split(' ').any(|name| name == locale))
            .map(|(_, _, pack)| pack)
            .expect("a published language")
    };
    vec![
        ("Russian", cardinal("ru")),
        ("Arabic", cardinal("ar")),
        ("Polish", cardinal("pl")),
        ("English", cardinal("en")),
        ("Japanese (other: alone)", cardinal("ja")),
        ("Lithuanian", cardinal("lt")),
        ("French", cardinal("fr")),
    ]
}

fn select(table: &mut Table) {
    table.section("select", "select, from texts");
    for (language, pack) in languages() {
        for number in ["1", "23", "1234567.5", "1c6"] {
            let (pack, text) = (pack.as_bytes(), number.as_bytes());
            let mut figures = [0; 8];
            let answer = plain::select(pack, text);
            agree(&answer, raw::select(pack, text, &mut figures));
            let times = times(
                || plain::select(black_box(pack), black_box(text)),
                || raw::select(black_box(pack), black_box(text), black_box(&mut figures)),
            );
            let answer = named(answer, |keyword| keyword.name().to_string());
            table.row(&format!("{language}, {number}  ({answer})"), times);
        }
    }
}

const LONG_NUMBER: &str = "-123456789012345.123456789";

/// A comma, a no-break space, and groups from five integer digits on.
const POLISH: &[u8] = b"\x11,\x22\xC2\xA0\x71\x02";

fn print(table: &mut Table) {
    let long = format!("{}#,##0.00 'km'", "é".repeat(121));
    let patterns = [
        "0",
        "#,##0.##",
        "0.0",
        "#,##,##0.00",
        "0.65",
        "0%",
        "#,##0.###‰",
        "00000.0000",
        "0.00;(0.00)",
        "'No.' 0",
        "€ 'it''s' #,##0.0# 'об/мин'",
        &long,
    ];
    let title = format!("print, standard symbols; long is {LONG_NUMBER}");
    table.section("print", &title);
    for pattern in patterns {
        for (name, number) in [("1234.567", "1234.567"), ("long", LONG_NUMBER)] {
            for size in [64, 2048] {
                let shown = if pattern.len() > 40 {
                    format!("pattern of {} bytes", pattern.len())
                } else {
                    pattern.to_string()
                };
                let label = format!("{shown}  {name}");
                print_row(
                    table,
                    &label,
                    [b"", pattern.as_bytes(), number.as_bytes()],
                    size,
                );
            }
        }
    }
    table.section("print", "print, symbols 11 2C 22 C2 A0 71 02");
    for (name, number) in [("not grouped", "1234.567"), ("grouped", "12345.678")] {
        let label = format!("#,##0.##  {number}, {name}");
        print_row(table, &label, [POLISH, b"#,##0.##", number.as_bytes()], 64);
    }
}

fn print_row(table: &mut Table, label: &str, inputs: [&[u8]; 3], size: usize) {
    let [symbols, pattern, number] = inputs;
    let answer = plain::print(symbols, pattern, number, &mut vec![0; size]);
    let answer = named(answer, |length| format!("{length} bytes"));
    let label = format!("{label}, area {size}  ({answer})");
    table.row(&label, print_times(inputs, size));
}

fn print_times([symbols, pattern, number]: [&[u8]; 3], size: usize) -> (f64, f64) {
    let (mut plain_area, mut proved_area) = (vec![0; size], vec![0; size]);
    let mut figures = [0; 8];
    let answer = plain::print(symbols, pattern, number, &mut plain_area);
    let proved = raw::print(symbols, pattern, number, &mut proved_area, &mut figures);
    agree(&answer, proved);
    assert_eq!(plain_area, proved_area, "the two sides print the same");
    times(
        || {
            plain::print(
                black_box(symbols),
                black_box(pattern),
                black_box(number),
                black_box(&mut plain_area),
            )
        },
        || {
            raw::print(
                black_box(symbols),
                black_box(pattern),
                black_box(number),
                black_box(&mut proved_area),
                black_box(&mut figures),
            )
        },
    )
}
