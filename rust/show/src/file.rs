//! A file of cells: four hex digits each, with white space between them, and comments from `#` to the line's end.
//!
//! Two comments give names to numbers, for the words that are shown: `# names: 1=put 2=lamp`, and `# name: 3=dark cave`
//! for one name with spaces in it.

use std::collections::BTreeMap;
use std::fmt::{self, Display, Formatter};

/// What a file says.
#[derive(Debug, Default, PartialEq)]
pub struct Session {
    /// The cells of all commands.
    pub cells: Vec<u16>,
    /// The names that the comments give.
    pub names: Names,
}

/// Names by number.
pub type Names = BTreeMap<u16, String>;

/// What is wrong with a file, and in which line, counted from 1.
#[derive(Debug, PartialEq)]
pub struct Wrong {
    /// The line.
    pub line: usize,
    /// What is wrong there.
    pub what: String,
}

impl Display for Wrong {
    fn fmt(&self, formatter: &mut Formatter) -> fmt::Result {
        write!(formatter, "line {}: {}", self.line, self.what)
    }
}

/// Reads a file.
pub fn read(text: &str) -> Result<Session, Wrong> {
    let mut session = Session::default();
    for (index, line) in text.lines().enumerate() {
        read_line(line, &mut session).map_err(|what| Wrong {
            line: index + 1,
            what,
        })?;
    }
    Ok(session)
}

fn read_line(line: &str, session: &mut Session) -> Result<(), String> {
    let (cells, comment) = line.split_once('#').unwrap_or((line, ""));
    for word in cells.split_whitespace() {
        session.cells.push(cell(word)?);
    }
    let comment = comment.trim();
    if let Some(names) = comment.strip_prefix("names:") {
        for word in names.split_whitespace() {
            session.names.extend([name(word)?]);
        }
    }
    if let Some(one) = comment.strip_prefix("name:") {
        session.names.extend([name(one.trim_start())?]);
    }
    Ok(())
}

fn cell(word: &str) -> Result<u16, String> {
    let wrong = format!("`{word}` is no cell: write four hex digits");
    if word.len() != 4 || !word.bytes().all(|byte| byte.is_ascii_hexdigit()) {
        return Err(wrong);
    }
    u16::from_str_radix(word, 16).map_err(|_| wrong)
}

fn name(text: &str) -> Result<(u16, String), String> {
    let wrong = || format!("`{text}` gives no name: write 2=lamp, or name: 3=dark cave");
    let (number, name) = text.split_once('=').ok_or_else(wrong)?;
    let number = number.parse().map_err(|_| wrong())?;
    Ok((number, name.to_string()))
}

#[cfg(test)]
mod tests {
    use super::*;

    #[test]
    fn cells_names_and_comments() {
        let text = "# names: 1=f 2=a\n0005 2001\t0002 8000 # rule 5\n\n# name: 3=dark  cave\n7000";
        let session = read(text).expect("it is right");
        assert_eq!(session.cells, [0x0005, 0x2001, 0x0002, 0x8000, 0x7000]);
        let names = [(1, "f"), (2, "a"), (3, "dark  cave")];
        assert_eq!(
            session.names,
            names.map(|(n, name)| (n, name.to_string())).into()
        );
        assert_eq!(read(""), Ok(Session::default()));
    }

    #[test]
    fn what_is_wrong_has_its_line() {
        for text in ["0005\n20001", "0005\n+201", "0005\n201", "0005\n0x01"] {
            assert_eq!(read(text).map_err(|wrong| wrong.line), Err(2), "{text}");
        }
        for text in ["# names: 1=f a", "# names: x=f", "# name: dark cave"] {
            assert_eq!(read(text).map_err(|wrong| wrong.line), Err(1), "{text}");
        }
        let wrong = read("7000 room").expect_err("no cell");
        assert_eq!(
            wrong.to_string(),
            "line 1: `room` is no cell: write four hex digits"
        );
    }
}
