//! Reading a rule pack into its rules.

use crate::Refusal;
use crate::lexer::{Kind, Lexer, Token};
use std::ops::RangeInclusive;

const MAX_BYTES: usize = 4096;
const MAX_CLAUSES: usize = 8;
const MAX_RELATIONS: usize = 8;
const MAX_RANGES: usize = 16;
const MAX_VALUE: u32 = 999_999;

/// A plural category.
#[derive(Clone, Copy, Debug, PartialEq, Eq)]
#[allow(missing_docs)]
pub enum Keyword {
    Zero,
    One,
    Two,
    Few,
    Many,
    Other,
}

impl Keyword {
    /// All keywords in document 01's order.
    pub const ALL: [Keyword; 6] = [
        Keyword::Zero,
        Keyword::One,
        Keyword::Two,
        Keyword::Few,
        Keyword::Many,
        Keyword::Other,
    ];

    /// The keyword as written.
    pub fn name(self) -> &'static str {
        ["zero", "one", "two", "few", "many", "other"][self as usize]
    }

    fn from_name(name: &[u8]) -> Option<Keyword> {
        Keyword::ALL
            .into_iter()
            .find(|keyword| keyword.name().as_bytes() == name)
    }
}

/// An operand; `c` is another spelling of `e`.
#[derive(Clone, Copy, Debug, PartialEq, Eq)]
#[allow(missing_docs)]
pub enum Operand {
    N,
    I,
    F,
    T,
    V,
    W,
    E,
}

/// `operand [% modulus] = values` or its negation.
#[derive(Clone, Debug, PartialEq, Eq)]
pub struct Relation {
    /// What is compared.
    pub operand: Operand,
    /// The modulus, if one is written.
    pub modulus: Option<u32>,
    /// Whether it is `!=`.
    pub negated: bool,
    /// Values and ranges; a value is a range of one.
    pub ranges: Vec<RangeInclusive<u32>>,
}

/// Relations that must all hold.
pub type Clause = Vec<Relation>;

/// A keyword with its condition: clauses of which one must hold. `other` has none.
#[derive(Clone, Debug, PartialEq, Eq)]
pub struct Rule {
    /// The word of the numbers that meet the rule.
    pub keyword: Keyword,
    /// The clauses joined by `or`.
    pub clauses: Vec<Clause>,
}

/// A parsed rule pack.
#[derive(Clone, Debug, PartialEq, Eq)]
pub struct Pack {
    /// The rules in the order of the text.
    pub rules: Vec<Rule>,
}

/// Reads a pack; refusals 20 to 26.
pub fn read_pack(text: &[u8]) -> Result<Pack, Refusal> {
    if text.len() > MAX_BYTES {
        return Err(Refusal::PackTooLong);
    }
    let mut parser = Parser::new(text);
    let rules = parser.rules()?;
    match parser.fault {
        Some((_, refusal)) => Err(refusal),
        None => Ok(Pack { rules }),
    }
}

/// Recursive descent with one token of lookahead.
///
/// A grammar error ends the parse; of the refusals 22 to 26 the one with the earliest place is kept, as a later grammar error goes before all of them.
struct Parser<'a> {
    lexer: Lexer<'a>,
    ahead: Option<Token<'a>>,
    length: usize,
    fault: Option<(usize, Refusal)>,
}

impl<'a> Parser<'a> {
    fn new(text: &'a [u8]) -> Self {
        let mut lexer = Lexer::new(text);
        let ahead = lexer.next();
        Parser {
            lexer,
            ahead,
            length: text.len(),
            fault: None,
        }
    }

    fn rules(&mut self) -> Result<Vec<Rule>, Refusal> {
        let mut rules: Vec<Rule> = Vec::new();
        loop {
            let rule = self.rule(&rules)?;
            rules.push(rule);
            if self.ahead.is_none() {
                return Ok(rules);
            }
            self.expect(Kind::Semicolon)?;
        }
    }

    fn rule(&mut self, earlier: &[Rule]) -> Result<Rule, Refusal> {
        let (start, word) = self.word()?;
        let known = Keyword::from_name(word);
        if known.is_none() || earlier.iter().any(|rule| Some(rule.keyword) == known) {
            self.note(start, Refusal::Keyword(start));
        }
        self.expect(Kind::Colon)?;
        let clauses = if word == b"other" {
            Vec::new()
        } else {
            self.condition()?
        };
        // A pack with an unknown keyword is refused in the end, so its stand-in is never seen.
        let keyword = known.unwrap_or(Keyword::Other);
        Ok(Rule { keyword, clauses })
    }

    fn condition(&mut self) -> Result<Vec<Clause>, Refusal> {
        let mut clauses = Vec::new();
        loop {
            self.note_if(clauses.len() == MAX_CLAUSES, Refusal::TooMany);
            clauses.push(self.clause()?);
            if !self.accept(Kind::Word(b"or")) {
                return Ok(clauses);
            }
        }
    }

    fn clause(&mut self) -> Result<Clause, Refusal> {
        let mut relations = Vec::new();
        loop {
            self.note_if(relations.len() == MAX_RELATIONS, Refusal::TooMany);
            relations.push(self.relation()?);
            if !self.accept(Kind::Word(b"and")) {
                return Ok(relations);
            }
        }
    }

    fn relation(&mut self) -> Result<Relation, Refusal> {
        let operand = self.operand()?;
        let modulus = if self.accept(Kind::Percent) {
            Some(self.modulus()?)
        } else {
            None
        };
        let negated = self.accept(Kind::NotEqual);
        if !negated {
            self.expect(Kind::Equal)?;
        }
        let ranges = self.ranges()?;
        Ok(Relation {
            operand,
            modulus,
            negated,
            ranges,
        })
    }

    fn operand(&mut self) -> Result<Operand, Refusal> {
        let operand = match self.ahead.map(|token| token.kind) {
            Some(Kind::Word(b"n")) => Operand::N,
            Some(Kind::Word(b"i")) => Operand::I,
            Some(Kind::Word(b"f")) => Operand::F,
            Some(Kind::Word(b"t")) => Operand::T,
            Some(Kind::Word(b"v")) => Operand::V,
            Some(Kind::Word(b"w")) => Operand::W,
            Some(Kind::Word(b"c" | b"e")) => Operand::E,
            _ => return Err(self.unexpected()),
        };
        self.advance();
        Ok(operand)
    }

    fn modulus(&mut self) -> Result<u32, Refusal> {
        let (start, modulus) = self.value()?;
        if !matches!(modulus, 10 | 100 | 1_000 | 10_000 | 100_000 | 1_000_000) {
            self.note(start, Refusal::ModulusNotListed(start));
        }
        Ok(modulus)
    }

    fn ranges(&mut self) -> Result<Vec<RangeInclusive<u32>>, Refusal> {
        let mut ranges = Vec::new();
        loop {
            self.note_if(ranges.len() == MAX_RANGES, Refusal::TooMany);
            ranges.push(self.range()?);
            if !self.accept(Kind::Comma) {
                return Ok(ranges);
            }
        }
    }

    fn range(&mut self) -> Result<RangeInclusive<u32>, Refusal> {
        let (_, from) = self.relation_value()?;
        if !self.accept(Kind::DotDot) {
            return Ok(from..=from);
        }
        let (start, to) = self.relation_value()?;
        if from > to {
            self.note(start, Refusal::RangeReversed(start));
        }
        Ok(from..=to)
    }

    fn relation_value(&mut self) -> Result<(usize, u32), Refusal> {
        let (start, value) = self.value()?;
        if value > MAX_VALUE {
            self.note(start, Refusal::ValueTooLarge(start));
        }
        Ok((start, value))
    }

    /// A digit token's start and value; what does not fit saturates, which is above any bound.
    fn value(&mut self) -> Result<(usize, u32), Refusal> {
        let Some(Token {
            start,
            kind: Kind::Digits(digits),
        }) = self.ahead
        else {
            return Err(self.unexpected());
        };
        self.advance();
        let value = digits.iter().fold(0u32, |sum, b| {
            sum.saturating_mul(10).saturating_add(u32::from(b - b'0'))
        });
        Ok((start, value))
    }

    fn word(&mut self) -> Result<(usize, &'a [u8]), Refusal> {
        let Some(Token {
            start,
            kind: Kind::Word(word),
        }) = self.ahead
        else {
            return Err(self.unexpected());
        };
        self.advance();
        Ok((start, word))
    }

    fn advance(&mut self) {
        self.ahead = self.lexer.next();
    }

    fn accept(&mut self, kind: Kind) -> bool {
        let found = self.ahead.is_some_and(|token| token.kind == kind);
        if found {
            self.advance();
        }
        found
    }

    fn expect(&mut self, kind: Kind) -> Result<(), Refusal> {
        if self.accept(kind) {
            Ok(())
        } else {
            Err(self.unexpected())
        }
    }

    /// Where the token ahead starts, or the pack's length.
    fn place(&self) -> usize {
        self.ahead.map_or(self.length, |token| token.start)
    }

    fn unexpected(&self) -> Refusal {
        Refusal::PackGrammar(self.place())
    }

    /// Notes a refusal at the token ahead if the condition holds.
    fn note_if(&mut self, condition: bool, refusal: fn(usize) -> Refusal) {
        if condition {
            self.note(self.place(), refusal(self.place()));
        }
    }

    /// Keeps the refusal with the earliest place, then the lowest number.
    fn note(&mut self, place: usize, refusal: Refusal) {
        let goes_before = self.fault.is_none_or(|(kept_place, kept)| {
            (place, refusal.number()) < (kept_place, kept.number())
        });
        if goes_before {
            self.fault = Some((place, refusal));
        }
    }
}
