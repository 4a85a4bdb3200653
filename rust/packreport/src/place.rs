//! Where a byte of a pack stands, for people: line, column and the line's text.

/// Most characters of a line that are shown.
const WIDTH: usize = 100;
/// Characters shown before the caret where a line is cut in front.
const BEFORE: usize = 60;

/// A place in a text; lines and columns count from 1, columns by characters.
pub struct Place {
    pub line: usize,
    pub column: usize,
    /// The characters of the line as they are shown.
    shown: Vec<String>,
}

impl Place {
    /// The place of a byte, or of the end behind the last character that is not a line's end.
    pub fn new(text: &[u8], byte: usize) -> Self {
        let byte = if byte == text.len() {
            trim_line_ends(text).len()
        } else {
            byte
        };
        let before = &text[..byte];
        let start = before
            .iter()
            .rposition(|&b| b == b'\n')
            .map_or(0, |end| end + 1);
        let rest = &text[start..];
        let end = rest.iter().position(|&b| b == b'\n').unwrap_or(rest.len());
        Place {
            line: line_of(text, byte),
            column: characters(&text[start..byte]).len() + 1,
            shown: characters(trim_line_ends(&rest[..end])),
        }
    }

    /// The line with its number, and a caret under the place.
    pub fn excerpt(&self) -> String {
        let caret = self.column - 1;
        let cut = self.shown.len() > WIDTH;
        let from = if cut { caret.saturating_sub(BEFORE) } else { 0 };
        let to = self.shown.len().min(from + WIDTH);
        let front = if from > 0 { "..." } else { "" };
        let back = if to < self.shown.len() { "..." } else { "" };
        let text = self.shown[from..to].concat();
        let indent = self.shown[from..caret.min(to)].iter().map(|s| blank(s));
        let indent = blank(front) + &indent.collect::<String>();
        let number = self.line.to_string();
        let gutter = " ".repeat(number.len());
        let line = format!("{number} | {front}{text}{back}");
        format!("{gutter} |\n{}\n{gutter} | {indent}^\n", line.trim_end())
    }
}

/// The number of the line a byte stands in.
pub fn line_of(text: &[u8], byte: usize) -> usize {
    1 + text[..byte].iter().filter(|&&b| b == b'\n').count()
}

fn trim_line_ends(text: &[u8]) -> &[u8] {
    let end = text
        .iter()
        .rposition(|b| !matches!(b, b'\n' | b'\r'))
        .map_or(0, |last| last + 1);
    &text[..end]
}

/// The characters of a text as they are shown; a byte that belongs to none stands for itself.
fn characters(text: &[u8]) -> Vec<String> {
    let mut shown = Vec::new();
    for chunk in text.utf8_chunks() {
        shown.extend(chunk.valid().chars().map(visible));
        shown.extend(chunk.invalid().iter().map(|b| format!("\\x{b:02X}")));
    }
    shown
}

/// A character, or its number where it would not show or would break the line.
fn visible(character: char) -> String {
    let unseen = character.is_control()
        || character.is_whitespace() && character != ' '
        || matches!(character, '\u{200B}'..='\u{200F}' | '\u{202A}'..='\u{202E}' | '\u{FEFF}');
    if unseen && character != '\t' {
        format!("\\u{{{:X}}}", character as u32)
    } else {
        character.to_string()
    }
}

/// As much room as a shown text takes, with tabs kept.
fn blank(shown: &str) -> String {
    shown
        .chars()
        .map(|c| if c == '\t' { '\t' } else { ' ' })
        .collect()
}
