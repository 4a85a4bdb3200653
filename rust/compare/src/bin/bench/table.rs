//! The table of times.

use crate::timer::median;

/// Width of the column with the inputs' names, and of a name in the last line.
const WIDTH: usize = 64;
const SHORT_WIDTH: usize = 40;

/// Prints rows as they come and keeps what the last line tells of them.
#[derive(Default)]
pub struct Table {
    section: &'static str,
    rows: Vec<Row>,
    longest_check: Option<Row>,
}

/// A row's name and the figure it is kept for.
#[derive(Clone)]
struct Row {
    name: String,
    figure: f64,
}

impl Table {
    /// Starts a section of the table.
    pub fn section(&mut self, name: &'static str, title: &str) {
        self.section = name;
        println!("\n{title}");
        println!(
            "  {:<WIDTH$} {:>12} {:>12} {:>7}",
            "input", "plain ns", "proved ns", "ratio"
        );
    }

    /// A row of both sides' times.
    pub fn row(&mut self, input: &str, (plain, proved): (f64, f64)) {
        let ratio = proved / plain;
        println!(
            "  {:<WIDTH$} {:>12} {:>12} {ratio:>7.2}",
            cut(input, WIDTH),
            shown(plain),
            shown(proved)
        );
        self.rows.push(self.named(input, ratio));
    }

    /// A row of both sides' times of one check.
    pub fn check_row(&mut self, input: &str, times: (f64, f64)) {
        self.row(input, times);
        let check = self.named(input, times.1);
        self.longest_check = self
            .longest_check
            .take()
            .into_iter()
            .chain([check])
            .max_by(by_figure);
    }

    fn named(&self, input: &str, figure: f64) -> Row {
        Row {
            name: format!("{}: {}", self.section, cut(input, SHORT_WIDTH)),
            figure,
        }
    }

    /// How the ratios lie, the worst of them and the longest check.
    pub fn summary(&self) {
        let ratios: Vec<f64> = self.rows.iter().map(|row| row.figure).collect();
        let above = ratios.iter().filter(|&&ratio| ratio > 2.0).count();
        let Some(worst) = self.rows.iter().max_by(|a, b| by_figure(a, b)) else {
            return;
        };
        print!(
            "\n{} rows: {above} with a ratio proved/plain above 2.0, median ratio {:.2}, worst ratio {:.2} (row {})",
            ratios.len(),
            median(ratios),
            worst.figure,
            worst.name
        );
        if let Some(longest) = &self.longest_check {
            let micros = longest.figure / 1000.0;
            print!(", longest check {micros:.0} us (row {})", longest.name);
        }
        println!();
    }
}

fn by_figure(a: &Row, b: &Row) -> std::cmp::Ordering {
    a.figure.total_cmp(&b.figure)
}

/// Small times with a decimal, large ones without.
fn shown(nanoseconds: f64) -> String {
    if nanoseconds < 100.0 {
        format!("{nanoseconds:.1}")
    } else {
        format!("{nanoseconds:.0}")
    }
}

/// The input's name, cut if it is wider than that.
fn cut(input: &str, width: usize) -> String {
    if input.chars().count() <= width {
        return input.to_string();
    }
    let front: String = input.chars().take(width - 2).collect();
    front + ".."
}
