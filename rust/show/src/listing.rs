//! What the session program prints, read back.

/// A listing.
#[derive(Debug, PartialEq)]
pub struct Listing {
    /// The records, in the order of their commands.
    pub records: Vec<Record>,
    /// The stop number.
    pub stop: u16,
    /// Command cells used.
    pub used: usize,
    /// Output cells written.
    pub written: usize,
}

/// A record.
#[derive(Debug, PartialEq)]
pub struct Record {
    /// 0, or why the command was refused.
    pub refusal: u16,
    /// Its further cells.
    pub cells: Vec<u16>,
}

/// Reads a listing; nothing where the text is none, as `bad input` is.
pub fn read(text: &str) -> Option<Listing> {
    let mut lines = text.lines();
    lines
        .next()
        .filter(|line| *line == "no refusal count cells")?;
    let last = lines.next_back()?;
    let ["stop", stop, "used", used, "written", written] = split(last)[..] else {
        return None;
    };
    Some(Listing {
        records: lines.map(record).collect::<Option<_>>()?,
        stop: stop.parse().ok()?,
        used: used.parse().ok()?,
        written: written.parse().ok()?,
    })
}

fn split(line: &str) -> Vec<&str> {
    line.split(' ').collect()
}

fn record(line: &str) -> Option<Record> {
    let [_, refusal, _, cells @ ..] = &split(line)[..] else {
        return None;
    };
    let cells = cells.iter().map(|cell| u16::from_str_radix(cell, 16).ok());
    Some(Record {
        refusal: refusal.parse().ok()?,
        cells: cells.collect::<Option<_>>()?,
    })
}

#[cfg(test)]
mod tests {
    use super::*;

    #[test]
    fn a_listing_is_read_back() {
        let text = "no refusal count cells\n1 0 2 0005 000a\n2 7 0\nstop 0 used 5 written 4\n";
        let record = |refusal, cells: &[u16]| Record {
            refusal,
            cells: cells.to_vec(),
        };
        let records = vec![record(0, &[5, 10]), record(7, &[])];
        let listing = Listing {
            records,
            stop: 0,
            used: 5,
            written: 4,
        };
        assert_eq!(read(text), Some(listing));
        assert_eq!(read("bad input\n"), None);
        assert_eq!(read(""), None);
    }
}
