//! A CSV text as rows of fields, each row with the line that it begins on.
//!
//! Fields are parted by `,` or `;`, whichever comes first in the header row. A field may stand in double quotes, a quote in it doubled. A line
//! ends with LF, CRLF or CR. A byte order mark before the text is taken. Blanks around a field don't count.

use std::iter::Peekable;
use std::str::Chars;

/// What is wrong with a text, and on which line, from 1.
#[derive(Debug, PartialEq, Eq)]
pub struct Bad {
    pub line: usize,
    pub why: String,
}

impl Bad {
    pub fn new(line: usize, why: impl Into<String>) -> Bad {
        let why = why.into();
        Bad { line, why }
    }
}

#[derive(Debug, PartialEq, Eq)]
pub struct Row {
    pub line: usize,
    pub fields: Vec<String>,
}

/// The rows of a text, without those whose fields are all empty.
pub fn rows(bytes: &[u8]) -> Result<Vec<Row>, Bad> {
    let text = decoded(bytes)?;
    let mut reader = Reader {
        rest: text.chars().peekable(),
        line: 1,
        separator: separator(text)?,
    };
    let mut rows = Vec::new();
    while reader.rest.peek().is_some() {
        let row = reader.row()?;
        if row.fields.iter().any(|field| !field.is_empty()) {
            rows.push(row);
        }
    }
    Ok(rows)
}

/// The text of these bytes, which must be UTF-8, without the mark before it.
fn decoded(bytes: &[u8]) -> Result<&str, Bad> {
    const MARK: &[u8] = b"\xEF\xBB\xBF";
    if bytes.starts_with(b"\xFF\xFE") || bytes.starts_with(b"\xFE\xFF") {
        let why = "the text is UTF-16; save the sheet as CSV in UTF-8";
        return Err(Bad::new(1, why));
    }
    let bytes = bytes.strip_prefix(MARK).unwrap_or(bytes);
    let text = std::str::from_utf8(bytes).map_err(|error| {
        let line = line_after(&bytes[..error.valid_up_to()]);
        Bad::new(
            line,
            "the text is not UTF-8; save the sheet as CSV in UTF-8",
        )
    })?;
    let control = |c: &char| c.is_control() && !matches!(c, '\t' | '\r' | '\n');
    match text.char_indices().find(|(_, c)| control(c)) {
        None => Ok(text),
        Some((at, c)) => {
            let why = format!("the control character U+{:04X} stands here", c as u32);
            Err(Bad::new(line_after(&bytes[..at]), why))
        }
    }
}

/// The line that comes after these bytes, from 1.
fn line_after(bytes: &[u8]) -> usize {
    let feeds = bytes.iter().filter(|&&byte| byte == b'\n').count();
    let returns = bytes.iter().filter(|&&byte| byte == b'\r').count();
    let both = bytes.windows(2).filter(|pair| pair == b"\r\n").count();
    1 + feeds + returns - both
}

/// The first `,` or `;` of the header row that stands outside quotes.
fn separator(text: &str) -> Result<char, Bad> {
    let start = text.trim_start();
    let line = line_after(&text.as_bytes()[..text.len() - start.len()]);
    let mut quoted = false;
    let mut tabs = false;
    for c in start.chars() {
        match c {
            '"' => quoted = !quoted,
            ',' | ';' if !quoted => return Ok(c),
            '\n' | '\r' if !quoted => break,
            '\t' => tabs = true,
            _ => {}
        }
    }
    let why = if start.is_empty() {
        "the text is empty; its first row must be a header row"
    } else if tabs {
        "the header row has neither `,` nor `;` but tabs; save the sheet as CSV"
    } else {
        "the header row has neither `,` nor `;` between its columns"
    };
    Err(Bad::new(line, why))
}

/// What comes after a field.
enum After {
    Field,
    Row,
}

struct Reader<'a> {
    rest: Peekable<Chars<'a>>,
    line: usize,
    separator: char,
}

impl Reader<'_> {
    fn row(&mut self) -> Result<Row, Bad> {
        let line = self.line;
        let mut fields = Vec::new();
        loop {
            let (field, after) = self.field()?;
            fields.push(field);
            if let After::Row = after {
                return Ok(Row { line, fields });
            }
        }
    }

    fn field(&mut self) -> Result<(String, After), Bad> {
        while self.rest.next_if(|&c| c == ' ' || c == '\t').is_some() {}
        if self.rest.next_if_eq(&'"').is_some() {
            let field = self.quoted()?;
            while self.rest.next_if(|&c| c == ' ' || c == '\t').is_some() {}
            return match self.after() {
                Some(after) => Ok((field, after)),
                None => Err(Bad::new(self.line, "text follows a closing quote")),
            };
        }
        let mut field = String::new();
        loop {
            if let Some(after) = self.after() {
                field.truncate(field.trim_end().len());
                return Ok((field, after));
            }
            match self.rest.next() {
                Some('"') => {
                    let why = "a quote stands inside a field; a field with quotes is put in quotes, and its own are doubled";
                    return Err(Bad::new(self.line, why));
                }
                Some(c) => field.push(c),
                None => {}
            }
        }
    }

    /// Takes what ends a field, if it comes next.
    fn after(&mut self) -> Option<After> {
        let Some(&next) = self.rest.peek() else {
            return Some(After::Row);
        };
        if next == self.separator {
            self.rest.next();
            return Some(After::Field);
        }
        if next == '\r' || next == '\n' {
            self.line_end();
            return Some(After::Row);
        }
        None
    }

    fn line_end(&mut self) {
        if self.rest.next() == Some('\r') {
            self.rest.next_if_eq(&'\n');
        }
        self.line += 1;
    }

    /// The field whose opening quote was taken.
    fn quoted(&mut self) -> Result<String, Bad> {
        let opened = self.line;
        let mut field = String::new();
        loop {
            match self.rest.peek() {
                None => return Err(Bad::new(opened, "a quote opens here and is never closed")),
                Some('\r' | '\n') => {
                    self.line_end();
                    field.push('\n');
                }
                Some('"') => {
                    self.rest.next();
                    if self.rest.next_if_eq(&'"').is_none() {
                        return Ok(field);
                    }
                    field.push('"');
                }
                Some(&c) => {
                    self.rest.next();
                    field.push(c);
                }
            }
        }
    }
}

#[cfg(test)]
mod tests {
    use super::*;

    fn fields(text: &str) -> Vec<(usize, Vec<String>)> {
        let rows = rows(text.as_bytes()).expect("a good text");
        rows.into_iter().map(|row| (row.line, row.fields)).collect()
    }

    fn row(line: usize, fields: &[&str]) -> (usize, Vec<String>) {
        (line, fields.iter().map(|field| field.to_string()).collect())
    }

    #[test]
    fn separators_and_line_ends() {
        let expected = [row(1, &["a", "b"]), row(2, &["1", "2"])];
        for text in [
            "a,b\n1,2\n",
            "a;b\r\n1;2",
            "\u{feff}a,b\r1,2\r",
            " a , b \n 1\t,2 \n",
        ] {
            assert_eq!(fields(text), expected, "{text:?}");
        }
        assert_eq!(fields("a;b,c\n1;2,5\n")[1], row(2, &["1", "2,5"]));
    }

    #[test]
    fn quotes() {
        let text = "\"a,1\",\"say \"\"b\"\"\"\n\"two\r\nlines\",x\n3,4\n";
        let expected = [
            row(1, &["a,1", "say \"b\""]),
            row(2, &["two\nlines", "x"]),
            row(4, &["3", "4"]),
        ];
        assert_eq!(fields(text), expected);
    }

    #[test]
    fn empty_rows_are_left_out_and_counted() {
        let expected = [row(2, &["a", "b"]), row(5, &["1", "2"])];
        assert_eq!(fields("\na,b\n,\n\n1,2\n\n"), expected);
    }

    #[test]
    fn bad_texts_have_their_line() {
        for (text, line) in [
            (&b""[..], 1),
            (b"\n\n", 3),
            (b"a\tb\n", 1),
            (b"ab\n1,2\n", 1),
            (b"a,b\n1,\"2\n3,4\n", 2),
            (b"a,b\n1,2\n\"3\"4,5\n", 3),
            (b"a,b\n1,2\"\n", 2),
            (b"a,b\n1,2\n\xE4,1\n", 3),
            (b"a,b\r\n1,\x002\r\n", 2),
            (b"\xFF\xFEa\0,\0b\0", 1),
        ] {
            let bad = rows(text).expect_err("a bad text");
            assert_eq!(bad.line, line, "{bad:?}");
        }
    }
}
