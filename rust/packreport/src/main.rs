//! Checks the language pack in a file and shows the result: 0 passed, 1 refused, 2 no file to read.

mod place;
mod report;

use std::io::{self, Write};
use std::process::ExitCode;
use std::{env, fs};

fn main() -> ExitCode {
    let mut arguments = env::args_os().skip(1);
    let (Some(path), None) = (arguments.next(), arguments.next()) else {
        eprintln!("usage: packreport FILE");
        return ExitCode::from(2);
    };
    let name = path.display();
    match fs::read(&path) {
        Err(error) => {
            eprintln!("cannot read {name}: {error}");
            ExitCode::from(2)
        }
        Ok(pack) => show(&name.to_string(), &pack),
    }
}

fn show(name: &str, pack: &[u8]) -> ExitCode {
    let (text, status) = match okwazibelu::check(pack) {
        Ok(()) => (report::passed(pack), ExitCode::SUCCESS),
        Err(refusal) => (report::refused(name, pack, refusal), ExitCode::FAILURE),
    };
    // The status tells the result even where nobody reads the text.
    let _ = io::stdout().write_all(text.as_bytes());
    status
}
