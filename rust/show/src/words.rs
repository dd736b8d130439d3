//! Commands, terms and records in words.

use crate::file::Names;
use crate::listing::Record;

/// A command as a person reads it.
#[derive(Debug, PartialEq)]
pub struct Command {
    /// The upper 4 bits of its first cell.
    pub kind: u16,
    /// What it says.
    pub words: String,
    /// How many cells it has; those of a faulty term only up to the fault.
    pub size: usize,
}

/// The command at the front of some cells.
pub fn command(cells: &[u16], names: &Names) -> Option<Command> {
    let (first, behind) = cells.split_first()?;
    let (kind, number) = (first >> 12, first & 0x0fff);
    let bare = |words: String| Command {
        kind,
        words,
        size: 1,
    };
    let with_term = |front: String| {
        let mut reader = Reader {
            cells: behind,
            at: 0,
            variables: 0,
            names,
        };
        let mut words = front;
        reader.subterm(&mut words);
        Command {
            kind,
            words,
            size: 1 + reader.at,
        }
    };
    Some(match (kind, number) {
        (0, _) => with_term(format!("add rule {number}: ")),
        (1, _) => bare(format!("remove rule {number}")),
        (2, 0) => with_term("variants of ".to_string()),
        (3, 0) => with_term("instances of ".to_string()),
        (4, 0) => with_term("generalisations of ".to_string()),
        (5, 0) => with_term("unifiables of ".to_string()),
        (6, _) => bare(format!("show rule {number}")),
        (7, 0) => bare("room".to_string()),
        _ => bare(format!("kind {kind}, number {number}")),
    })
}

/// A term in words: `f(a, ?0)`. A symbol without a name is its name number and arity, as `f12/2`.
pub fn term(cells: &[u16], names: &Names) -> String {
    let mut words = String::new();
    Reader {
        cells,
        at: 0,
        variables: 0,
        names,
    }
    .subterm(&mut words);
    words
}

/// Goes through the cells of a term.
struct Reader<'a> {
    cells: &'a [u16],
    at: usize,
    variables: u16,
    names: &'a Names,
}

impl Reader<'_> {
    /// One subterm; false where the cells end or are wrong, and then the words end with `..`.
    fn subterm(&mut self, words: &mut String) -> bool {
        let Some(cell) = self.cells.get(self.at).filter(|_| self.at < 32) else {
            *words += "..";
            return false;
        };
        if *cell >= 0x8000 {
            return self.variable(*cell, words);
        }
        self.at += 1;
        let (arity, name) = (cell >> 12, cell & 0x0fff);
        match self.names.get(&name) {
            Some(name) => *words += name,
            None => *words += &format!("f{name}/{arity}"),
        }
        for argument in 0..arity {
            *words += if argument == 0 { "(" } else { ", " };
            if !self.subterm(words) {
                return false;
            }
        }
        if arity > 0 {
            *words += ")";
        }
        true
    }

    /// A variable; one that is wrong is shown as a cell.
    fn variable(&mut self, cell: u16, words: &mut String) -> bool {
        let number = cell & 0x7fff;
        if number > 15 || number > self.variables {
            *words += &format!("[{cell:04x}] ..");
            return false;
        }
        self.at += 1;
        self.variables = self.variables.max(number + 1);
        *words += &format!("?{number}");
        true
    }
}

/// The record of a command of some kind.
pub fn record(kind: u16, record: &Record, names: &Names) -> String {
    if record.refusal != 0 {
        return format!("refused, {}", refusal(record.refusal));
    }
    match (kind, &record.cells[..]) {
        (2..=5, []) => "no rules".to_string(),
        (2..=5, [one]) => format!("rule {one}"),
        (2..=5, all) => format!(
            "rules {}",
            all.iter()
                .map(u16::to_string)
                .collect::<Vec<_>>()
                .join(", ")
        ),
        (6, cells) => term(cells, names),
        (7, [rules, nodes]) => format!("{}, {}", counted(*rules, "rule"), counted(*nodes, "node")),
        _ => "done".to_string(),
    }
}

fn counted(count: u16, what: &str) -> String {
    format!("{count} {what}{}", if count == 1 { "" } else { "s" })
}

/// A stop number with what it means.
pub fn stop(number: u16) -> String {
    match number {
        0 => "0: all cells are used".to_string(),
        _ => refusal(number),
    }
}

/// A refusal number with what it means; only those that a batch gives.
fn refusal(number: u16) -> String {
    let words = match number {
        1 => "the memory isn't a book",
        2 => "no such kind, or a number that has to be 0",
        3 => "the cells end while a subterm is wanted",
        4 => "a variable cell is wrong",
        5 => "32 cells read, a subterm still wanted",
        6 => "the number is already held",
        7 => "the number isn't held",
        8 => "512 rules are held",
        9 => "the nodes would be more than 4,096",
        10 => "the record doesn't fit in the output left",
        _ => "no such refusal",
    };
    format!("{number}: {words}")
}

#[cfg(test)]
mod tests {
    use super::*;

    fn names() -> Names {
        [(1, "f"), (2, "a"), (4, "g")]
            .map(|(n, name)| (n, name.to_string()))
            .into()
    }

    #[test]
    fn terms() {
        let long = [vec![0x1004; 32], vec![0x0002]].concat();
        let cases: [(&[u16], &str); 7] = [
            (&[0x2001, 0x1004, 0x0002, 0x8000], "f(g(a), ?0)"),
            (&[0x3009, 0x8000, 0x0fff, 0x8000], "f9/3(?0, f4095/0, ?0)"),
            (&[0x2001, 0x0002], "f(a, .."),
            (&[], ".."),
            (&[0x1004, 0x8001], "g([8001] .."),
            (&[0x9000], "[9000] .."),
            (&long, &format!("{}..", "g(".repeat(32))),
        ];
        for (cells, words) in cases {
            assert_eq!(term(cells, &names()), words);
        }
    }

    #[test]
    fn commands() {
        let read =
            |cells: &[u16]| command(cells, &names()).map(|command| (command.words, command.size));
        let found = |words: &str, size| Some((words.to_string(), size));
        assert_eq!(read(&[]), None);
        assert_eq!(
            read(&[0x0005, 0x2001, 0x0002, 0x8000, 0x7000]),
            found("add rule 5: f(a, ?0)", 4)
        );
        assert_eq!(read(&[0x1fff, 0x7000]), found("remove rule 4095", 1));
        assert_eq!(read(&[0x4000, 0x8000]), found("generalisations of ?0", 2));
        assert_eq!(read(&[0x4001, 0x8000]), found("kind 4, number 1", 1));
        assert_eq!(read(&[0x6005]), found("show rule 5", 1));
        assert_eq!(read(&[0xf000]), found("kind 15, number 0", 1));
    }

    #[test]
    fn records() {
        let said = |kind, refusal, cells: &[u16]| {
            record(
                kind,
                &Record {
                    refusal,
                    cells: cells.to_vec(),
                },
                &names(),
            )
        };
        assert_eq!(said(0, 0, &[]), "done");
        assert_eq!(said(0, 6, &[]), "refused, 6: the number is already held");
        assert_eq!(said(3, 0, &[]), "no rules");
        assert_eq!(said(3, 0, &[7]), "rule 7");
        assert_eq!(said(3, 0, &[7, 10]), "rules 7, 10");
        assert_eq!(said(6, 0, &[0x1004, 0x8000]), "g(?0)");
        assert_eq!(said(7, 0, &[1, 0]), "1 rule, 0 nodes");
    }
}
