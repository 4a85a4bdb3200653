//! Plural words and printed numbers by Unicode UTS #35 Part 3 as documents 01 and 02 narrow it, in ordinary Rust.
//!
//! An independent second implementation: it shares no code with the proved library and is compared with it.
//!
//! ```
//! use plain::{Keyword, check, print, read_number, select};
//!
//! assert_eq!(read_number(b"1.20050c3").unwrap().i, 1200);
//! assert_eq!(select(b"one: n = 1; few: n = 2..4", b"3.0"), Ok(Keyword::Few));
//! assert_eq!(check(b"one: i = 1; two: f = 2").unwrap_err().figures(), [1, 2, 0, 1, 1, 2]);
//!
//! let mut area = [0; 8];
//! assert_eq!(print(b"", b"0.0", b"0.349", &mut area), Ok(3));
//! assert_eq!(&area[..3], b"0.3");
//!
//! let minimum = b"\x71\x02";
//! assert_eq!(print(minimum, b"#,##0", b"1234", &mut area), Ok(4));
//! assert_eq!(print(minimum, b"#,##0", b"12345", &mut area), Ok(6));
//! assert_eq!(&area[..6], b"12,345");
//! ```

#![forbid(unsafe_code)]

mod check;
mod lexer;
mod number;
mod pack;
mod pattern;
mod print;
mod refusal;
mod segments;
mod select;
mod symbols;
mod table;

pub use check::{check, check_pack};
pub use number::{Number, read_number};
pub use pack::{Clause, Keyword, Operand, Pack, Relation, Rule, read_pack};
pub use print::print;
pub use refusal::Refusal;
pub use select::{select, select_rule};
