//! Cells and terms: what a cell says, where a term ends, and its blank form.

/// A term has 1 to 32 cells.
pub const MOST_CELLS: usize = 32;

/// Variables are numbered 0 to 15.
pub const LAST_VARIABLE: u16 = 15;

/// Name number and arity together are the symbol: the same name with another arity is another symbol.
#[derive(Clone, Copy, PartialEq, Eq, Hash, Debug)]
pub struct Symbol {
    /// How many subterms the symbol calls for, 0 to 7.
    pub arity: u16,
    /// The name number, 0 to 4,095; the name table isn't consulted.
    pub name: u16,
}

/// A cell's 16 bits taken apart, fields from the most significant. Any 16 bits are one of the two.
#[derive(Clone, Copy, PartialEq, Eq, Debug)]
pub enum Cell {
    /// 1 bit 0; 3 bits arity; 12 bits name number.
    Symbol(Symbol),
    /// 1 bit 1; 3 bits that have to be zero; 12 bits variable number.
    Variable {
        /// The 3-bit field, zero in a good cell.
        field: u16,
        /// The variable number as it stands, good or not.
        number: u16,
    },
}

impl Cell {
    /// Takes a cell apart.
    pub fn of(bits: u16) -> Cell {
        let field = (bits >> 12) & 0b111;
        let low = bits & 0x0fff;
        if bits >> 15 == 0 {
            Cell::Symbol(Symbol {
                arity: field,
                name: low,
            })
        } else {
            Cell::Variable { field, number: low }
        }
    }
}

/// One place of a blank form: a symbol, or the same mark for each variable.
#[derive(Clone, Copy, PartialEq, Eq, Hash, Debug)]
pub enum Mark {
    /// The symbol that stands there.
    Symbol(Symbol),
    /// The mark written `*`.
    Blank,
}

impl Mark {
    /// The mark that a good cell has in the blank form.
    fn of(cell: Cell) -> Mark {
        match cell {
            Cell::Symbol(symbol) => Mark::Symbol(symbol),
            Cell::Variable { .. } => Mark::Blank,
        }
    }
}

/// Why no term could be read. The three causes of refusal 4 are kept apart, since the reference lists them apart.
#[derive(Clone, Copy, PartialEq, Eq, Hash, Debug)]
pub enum Cause {
    /// 32 cells read, a subterm still wanted.
    TooLong,
    /// The cells end while a subterm is wanted.
    CutShort,
    /// A variable cell with a bit of its 3-bit field set.
    FieldSet,
    /// A variable number above 15.
    NumberAboveLast,
    /// A variable number above the count of variables so far.
    NumberAboveCount,
}

impl Cause {
    /// The reference's refusal number.
    pub fn number(self) -> u16 {
        match self {
            Cause::TooLong => 5,
            Cause::CutShort => 3,
            Cause::FieldSet | Cause::NumberAboveLast | Cause::NumberAboveCount => 4,
        }
    }
}

/// A term fault and where it is.
#[derive(Clone, Copy, PartialEq, Eq, Hash, Debug)]
pub struct Fault {
    /// What is wrong there.
    pub cause: Cause,
    /// The place counted from the term's start, which is the number of good cells read before it.
    pub place: usize,
}

impl Fault {
    /// The reference's refusal number.
    pub fn number(self) -> u16 {
        self.cause.number()
    }
}

/// Reads one term from `start` on and answers its length, or the first fault in reading order.
///
/// One subterm is wanted at first; a symbol of arity k takes one away and adds k; a variable takes one away; the term
/// ends when none is wanted. A start past the end finds nothing there. Cells after the term aren't read.
pub fn read(cells: &[u16], start: usize) -> Result<usize, Fault> {
    let row = cells.get(start..).unwrap_or(&[]);
    let mut wanted = 1;
    let mut variables = 0;
    let mut place = 0;
    while wanted > 0 {
        let cell = good_cell(row, place, variables).map_err(|cause| Fault { cause, place })?;
        wanted -= 1;
        match cell {
            Cell::Symbol(symbol) => wanted += symbol.arity,
            Cell::Variable { number, .. } => variables = variables.max(number + 1),
        }
        place += 1;
    }
    Ok(place)
}

/// The wanted cell at a place, after `variables` different variables. At one place the order is 5, 3, 4.
fn good_cell(row: &[u16], place: usize, variables: u16) -> Result<Cell, Cause> {
    if place == MOST_CELLS {
        return Err(Cause::TooLong);
    }
    let bits = row.get(place).ok_or(Cause::CutShort)?;
    let cell = Cell::of(*bits);
    if let Cell::Variable { field, number } = cell {
        check_variable(field, number, variables)?;
    }
    Ok(cell)
}

/// The first new variable of a term is 0, the next new one 1, and so on, so a number equal to the count is a new one.
fn check_variable(field: u16, number: u16, variables: u16) -> Result<(), Cause> {
    if field != 0 {
        Err(Cause::FieldSet)
    } else if number > LAST_VARIABLE {
        Err(Cause::NumberAboveLast)
    } else if number > variables {
        Err(Cause::NumberAboveCount)
    } else {
        Ok(())
    }
}

/// Cells that are one term and nothing after it. Only reading makes one, so whoever holds it needs no check.
#[derive(Clone, PartialEq, Eq, Hash, Debug)]
pub struct Term {
    cells: Vec<u16>,
}

impl Term {
    /// Reads the term that begins at `start`.
    pub fn read(cells: &[u16], start: usize) -> Result<Term, Fault> {
        let length = read(cells, start)?;
        Ok(Term {
            cells: cells[start..start + length].to_vec(),
        })
    }

    /// The term's cells, variables kept.
    pub fn cells(&self) -> &[u16] {
        &self.cells
    }

    /// The same mark for each variable, in preorder.
    pub fn blank_form(&self) -> Vec<Mark> {
        let mark = |bits: &u16| Mark::of(Cell::of(*bits));
        self.cells.iter().map(mark).collect()
    }
}

#[cfg(test)]
mod tests {
    use super::*;

    fn fault(cells: &[u16]) -> (u16, usize, Cause) {
        let fault = read(cells, 0).expect_err("no term");
        (fault.number(), fault.place, fault.cause)
    }

    /// A chain of `links` cells of arity 1.
    fn links(links: usize) -> Vec<u16> {
        vec![0x1004; links]
    }

    #[test]
    fn fields_come_from_the_most_significant_bit() {
        let symbol = |arity, name| Cell::Symbol(Symbol { arity, name });
        let variable = |field, number| Cell::Variable { field, number };
        assert_eq!(Cell::of(0x2001), symbol(2, 1));
        assert_eq!(Cell::of(0x7fff), symbol(7, 4095));
        assert_eq!(Cell::of(0x8000), variable(0, 0));
        assert_eq!(Cell::of(0xffff), variable(7, 4095));
        assert_eq!(Cell::of(0x9002), variable(1, 2));
    }

    #[test]
    fn cut_short() {
        assert_eq!(fault(&[0x2001, 0x0002]), (3, 2, Cause::CutShort));
        assert_eq!(fault(&[]), (3, 0, Cause::CutShort));
    }

    #[test]
    fn variable_1_alone_is_refused() {
        assert_eq!(fault(&[0x8001]), (4, 0, Cause::NumberAboveCount));
    }

    #[test]
    fn a_variable_may_occur_twice() {
        assert_eq!(read(&[0x2001, 0x8000, 0x8000], 0), Ok(3));
    }

    #[test]
    fn cells_after_the_term_are_not_read() {
        assert_eq!(read(&[0x0002, 0xffff], 0), Ok(1));
        assert_eq!(read(&[0x1001, 0x8000, 0xffff], 0), Ok(2));
    }

    #[test]
    fn a_start_past_the_end_finds_nothing() {
        for start in [1, 2, usize::MAX] {
            let fault = read(&[0x0002], start).expect_err("nothing there");
            assert_eq!((fault.number(), fault.place), (3, 0));
        }
    }

    #[test]
    fn places_count_from_the_term() {
        let cells = [0x0002, 0x2001, 0x0002, 0x9000];
        let fault = read(&cells, 1).expect_err("field set");
        assert_eq!((fault.number(), fault.place), (4, 2));
    }

    #[test]
    fn thirty_two_cells_are_a_term_and_one_more_wanted_is_5() {
        let mut cells = links(31);
        cells.push(0x0002);
        assert_eq!(read(&cells, 0), Ok(32));
        // With nothing after, with a good cell after and with a bad one after: at one place 5 goes before 3 and 4.
        assert_eq!(fault(&links(32)), (5, 32, Cause::TooLong));
        assert_eq!(fault(&[links(32), vec![2]].concat()).0, 5);
        assert_eq!(fault(&[links(32), vec![0xffff]].concat()).0, 5);
        assert_eq!(fault(&links(31)), (3, 31, Cause::CutShort));
    }

    /// A term of sixteen or seventeen variables: three symbols that want as many, and the variables in turn.
    fn wide(variables: u16) -> Vec<u16> {
        let last = variables - 12;
        let mut cells = vec![0x7001, 0x7001, last << 12 | 1];
        cells.extend((0..variables).map(|number| 0x8000 | number));
        cells
    }

    #[test]
    fn sixteen_variables_pass_and_the_seventeenth_gives_4() {
        assert_eq!(read(&wide(16), 0), Ok(19));
        assert_eq!(fault(&wide(17)), (4, 19, Cause::NumberAboveLast));
        // Seventeen places are no fault, only a seventeenth variable is.
        let mut cells = wide(17);
        cells[19] = 0x800f;
        assert_eq!(read(&cells, 0), Ok(20));
    }

    #[test]
    fn causes_of_4_are_kept_apart() {
        assert_eq!(fault(&[0xffff]).2, Cause::FieldSet);
        assert_eq!(fault(&[0x9000]).2, Cause::FieldSet);
        assert_eq!(fault(&[0xc000]).2, Cause::FieldSet);
        assert_eq!(fault(&[0x8010]).2, Cause::NumberAboveLast);
        assert_eq!(fault(&[0x8fff]).2, Cause::NumberAboveLast);
        assert_eq!(fault(&[0x800f]).2, Cause::NumberAboveCount);
        let skips = [0x3001, 0x8000, 0x8000, 0x8002];
        assert_eq!(fault(&skips), (4, 3, Cause::NumberAboveCount));
    }

    #[test]
    fn the_first_fault_in_reading_order_is_given() {
        assert_eq!(fault(&[0x2001, 0x8001]), (4, 1, Cause::NumberAboveCount));
        assert_eq!(fault(&[0x2001, 0x9000, 0x8010]).1, 1);
    }

    #[test]
    fn the_blank_form_has_one_mark_for_each_variable() {
        let term = Term::read(&[0x2001, 0x8000, 0x8000, 0x0002], 0).expect("a term");
        let f = Symbol { arity: 2, name: 1 };
        assert_eq!(
            term.blank_form(),
            [Mark::Symbol(f), Mark::Blank, Mark::Blank]
        );
        assert_eq!(term.cells(), [0x2001, 0x8000, 0x8000]);
    }
}
