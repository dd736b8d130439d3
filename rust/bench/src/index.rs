//! What every way to hold rules can do, and the same commands for all of them.

/// Numbered rules that can be asked about. Numbers and terms are good: who holds them checks nothing.
pub trait Index: Default {
    /// Adds a rule with a number that isn't held.
    fn add(&mut self, number: u16, term: &[u16]);

    /// Removes a rule that is held.
    fn remove(&mut self, number: u16);

    /// Writes the numbers of the rules that answer, ascending, to the front of `out`, and gives their count.
    fn ask(&mut self, fills: Fills, question: &[u16], out: &mut [u16]) -> usize;
}

/// Whose blanks may be filled; the two make the four questions.
#[derive(Clone, Copy, PartialEq, Eq, Debug)]
pub struct Fills {
    /// The question's: instances and unifiables.
    pub question: bool,
    /// The rule's: generalisations and unifiables.
    pub rule: bool,
}

impl Fills {
    /// Those of a command's kind, 2 to 5.
    pub fn of(kind: u16) -> Fills {
        Fills {
            question: kind == 3 || kind == 5,
            rule: kind == 4 || kind == 5,
        }
    }
}

/// The mark of a blank form for each variable. It is above every symbol.
pub const BLANK: u16 = 0x8000;

/// The cell as a blank form has it.
pub fn blank(cell: u16) -> u16 {
    cell.min(BLANK)
}

/// How many arguments a cell calls for.
pub fn arity(cell: u16) -> usize {
    if cell < BLANK {
        usize::from(cell >> 12)
    } else {
        0
    }
}

/// Where the subterm that begins at a place ends.
pub fn end(cells: &[u16], start: usize) -> usize {
    let (mut place, mut wanted) = (start, 1);
    while wanted > 0 {
        wanted = wanted - 1 + arity(cells[place]);
        place += 1;
    }
    place
}

/// Runs good commands of the kinds 0 to 5 and writes their records; gives the cells written.
pub fn run(index: &mut impl Index, cells: &[u16], out: &mut [u16]) -> usize {
    let (mut used, mut written) = (0, 0);
    while used < cells.len() {
        let (kind, number) = (cells[used] >> 12, cells[used] & 0x0fff);
        used += 1;
        let mut count = 0;
        if kind == 1 {
            index.remove(number);
        } else {
            let term = &cells[used..end(cells, used)];
            used += term.len();
            if kind == 0 {
                index.add(number, term);
            } else {
                count = index.ask(Fills::of(kind), term, &mut out[written + 1..]);
            }
        }
        out[written] = count as u16;
        written += 1 + count;
    }
    written
}
