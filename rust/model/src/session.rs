//! The session program: bytes in, listing text out.

use crate::batch::{records, run, Answer};
use crate::book::Book;

/// The most bytes that are read.
pub const MOST_BYTES: usize = 8_192;

/// The output room of the one batch, in cells.
pub const ROOM: usize = 4_096;

/// The listing for the bytes of standard input.
pub fn listing(input: &[u8]) -> String {
    if input.len() % 2 == 1 || input.len() > MOST_BYTES {
        return String::from("bad input\n");
    }
    let answer = run(&mut Book::empty(), &cells(input), ROOM);
    let mut text = String::from("no refusal count cells\n");
    for (index, (refusal, cells)) in records(&answer.out).into_iter().enumerate() {
        text += &record_line(index + 1, refusal, cells);
    }
    text + &stop_line(&answer)
}

/// Two bytes a cell, high byte first.
fn cells(input: &[u8]) -> Vec<u16> {
    let pairs = input.chunks_exact(2);
    pairs
        .map(|pair| u16::from_be_bytes([pair[0], pair[1]]))
        .collect()
}

/// A record's position from 1, refusal, count in decimal, each further cell in four lower-case hex digits.
fn record_line(position: usize, refusal: u16, cells: &[u16]) -> String {
    let further: String = cells.iter().map(|cell| format!(" {cell:04x}")).collect();
    format!("{position} {refusal} {}{further}\n", cells.len())
}

/// The last line.
fn stop_line(answer: &Answer) -> String {
    let stop = answer.stop.number();
    let written = answer.out.len();
    format!("stop {stop} used {} written {written}\n", answer.used)
}

#[cfg(test)]
mod tests {
    use super::*;

    fn bytes(cells: &[u16]) -> Vec<u8> {
        cells.iter().flat_map(|cell| cell.to_be_bytes()).collect()
    }

    #[test]
    fn the_references_listing() {
        let cells = [
            0x0005, 0x2001, 0x0002, 0x8000, 0x0009, 0x2001, 0x8000, 0x8000, 0x0002, 0x2001, 0x1004,
            0x0003, 0x0003, 0x4000, 0x2001, 0x0002, 0x0003, 0x3000, 0x2001, 0x8000, 0x8001, 0x1005,
            0x1005, 0x7000, 0x5000, 0x2001, 0x0002,
        ];
        let wanted = "no refusal count cells\n\
                      1 0 0\n\
                      2 0 0\n\
                      3 0 0\n\
                      4 0 2 0005 0009\n\
                      5 0 3 0002 0005 0009\n\
                      6 0 0\n\
                      7 7 0\n\
                      8 0 2 0002 0006\n\
                      9 3 0\n\
                      stop 3 used 24 written 16\n";
        assert_eq!(listing(&bytes(&cells)), wanted);
    }

    #[test]
    fn nothing_in_gives_header_and_stop_line() {
        let wanted = "no refusal count cells\nstop 0 used 0 written 0\n";
        assert_eq!(listing(&[]), wanted);
    }

    #[test]
    fn an_odd_count_or_too_many_bytes_is_bad_input() {
        for count in [1, 3, 8_191, 8_193, 8_194, 10_000] {
            assert_eq!(listing(&vec![0x10; count]), "bad input\n");
        }
        let most = listing(&vec![0x10; 8_192]);
        assert_eq!(most.lines().count(), 4_098);
        assert!(most.ends_with("stop 0 used 4096 written 4096\n"));
    }

    #[test]
    fn the_output_room_is_4096_cells() {
        // 1,365 room records of three cells fill 4,095; the next one doesn't fit.
        let text = listing(&bytes(&[0x7000; 1_366]));
        assert!(text.ends_with("1365 0 2 0000 0000\nstop 10 used 1365 written 4095\n"));
    }

    #[test]
    fn digits_are_lower_case() {
        let cells = [0x0abc, 0x8000, 0x3000, 0x8000];
        assert!(listing(&bytes(&cells)).contains("2 0 1 0abc\n"));
    }
}
