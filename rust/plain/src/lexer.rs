//! The tokens of a rule pack.

/// What a token is; a byte that begins no token is `Stray`.
#[derive(Clone, Copy, Debug, PartialEq, Eq)]
pub(crate) enum Kind<'a> {
    Word(&'a [u8]),
    Digits(&'a [u8]),
    Colon,
    Semicolon,
    Comma,
    Percent,
    Equal,
    NotEqual,
    DotDot,
    Stray,
}

/// A token and where it starts.
#[derive(Clone, Copy, Debug, PartialEq, Eq)]
pub(crate) struct Token<'a> {
    pub start: usize,
    pub kind: Kind<'a>,
}

/// Hands out the tokens of a pack in order.
pub(crate) struct Lexer<'a> {
    text: &'a [u8],
    at: usize,
}

impl<'a> Lexer<'a> {
    pub fn new(text: &'a [u8]) -> Self {
        Lexer { text, at: 0 }
    }

    /// The run of bytes from the current place on for which `belongs` holds.
    fn run(&self, belongs: impl Fn(&u8) -> bool) -> &'a [u8] {
        let rest = &self.text[self.at..];
        &rest[..rest.iter().take_while(|&b| belongs(b)).count()]
    }

    fn skip_white_space(&mut self) {
        while let Some(length) = white_space(&self.text[self.at..]) {
            self.at += length;
        }
    }
}

impl<'a> Iterator for Lexer<'a> {
    type Item = Token<'a>;

    fn next(&mut self) -> Option<Token<'a>> {
        self.skip_white_space();
        let start = self.at;
        let (kind, length) = match &self.text[start..] {
            [] => return None,
            [b'a'..=b'z', ..] => {
                let word = self.run(u8::is_ascii_lowercase);
                (Kind::Word(word), word.len())
            }
            [b'0'..=b'9', ..] => {
                let digits = self.run(u8::is_ascii_digit);
                (Kind::Digits(digits), digits.len())
            }
            [b'.', b'.', ..] => (Kind::DotDot, 2),
            [b'!', b'=', ..] => (Kind::NotEqual, 2),
            [b':', ..] => (Kind::Colon, 1),
            [b';', ..] => (Kind::Semicolon, 1),
            [b',', ..] => (Kind::Comma, 1),
            [b'%', ..] => (Kind::Percent, 1),
            [b'=', ..] => (Kind::Equal, 1),
            [_, ..] => (Kind::Stray, 1),
        };
        self.at += length;
        Some(Token { start, kind })
    }
}

/// Length of the white-space code point the bytes begin with, if they do.
fn white_space(bytes: &[u8]) -> Option<usize> {
    match bytes {
        [0x09..=0x0D | 0x20, ..] => Some(1),
        [0xC2, 0x85, ..] => Some(2),
        [0xE2, 0x80, 0x8E | 0x8F | 0xA8 | 0xA9, ..] => Some(3),
        _ => None,
    }
}
