//! A reader of typed terms as one writes it by hand: names stand in a hash map, and nothing is checked.

use std::collections::HashMap;

/// The names' numbers.
#[derive(Default)]
pub struct ByHand {
    numbers: HashMap<Vec<u8>, u16>,
}

/// The text that is read, and what came of it.
struct Reader<'a> {
    text: &'a [u8],
    place: usize,
    variables: Vec<&'a [u8]>,
    cells: Vec<u16>,
}

impl ByHand {
    /// The cells of the term at the front of a text, and the place after it. A text that is no term gives anything, or
    /// panics.
    pub fn read(&mut self, text: &[u8]) -> (Vec<u16>, usize) {
        let mut reader = Reader {
            text,
            place: 0,
            variables: vec![],
            cells: vec![],
        };
        self.term(&mut reader);
        (reader.cells, reader.place)
    }

    fn term(&mut self, reader: &mut Reader) {
        reader.blanks();
        let own = reader.cells.len();
        match reader.text[reader.place] {
            b'A'..=b'Z' => {
                let word = reader.word();
                let known = reader.variables.iter().position(|known| *known == word);
                let number = known.unwrap_or(reader.variables.len());
                if known.is_none() {
                    reader.variables.push(word);
                }
                reader.cells.push(0x8000 | number as u16);
                return;
            }
            b'\'' => {
                let name = reader.quoted();
                reader.cells.push(self.number(&name));
            }
            _ => {
                let name = reader.word();
                reader.cells.push(self.number(name));
            }
        }
        reader.cells[own] |= self.arguments(reader) << 12;
    }

    /// Reads arguments, if a bracket follows, and counts them.
    fn arguments(&mut self, reader: &mut Reader) -> u16 {
        let (end, mut count) = (reader.place, 0);
        reader.blanks();
        if reader.text.get(reader.place) != Some(&b'(') {
            reader.place = end;
            return 0;
        }
        while reader.text[reader.place] != b')' {
            reader.place += 1;
            self.term(reader);
            reader.blanks();
            count += 1;
        }
        reader.place += 1;
        count
    }

    /// The number of a name, held or new.
    fn number(&mut self, name: &[u8]) -> u16 {
        if let Some(number) = self.numbers.get(name) {
            return *number;
        }
        let number = self.numbers.len() as u16;
        self.numbers.insert(name.to_vec(), number);
        number
    }
}

impl<'a> Reader<'a> {
    fn blanks(&mut self) {
        while let Some(byte @ (b' ' | b'\t' | b'\n' | b'%')) = self.text.get(self.place) {
            if *byte == b'%' {
                let line = self.text[self.place..].iter();
                self.place += line.take_while(|byte| **byte != b'\n').count();
            } else {
                self.place += 1;
            }
        }
    }

    fn word(&mut self) -> &'a [u8] {
        let text = &self.text[self.place..];
        let in_word = |byte: &&u8| byte.is_ascii_alphanumeric() || **byte == b'_';
        let length = text.iter().take_while(in_word).count();
        self.place += length;
        &text[..length]
    }

    fn quoted(&mut self) -> Vec<u8> {
        let mut name = vec![];
        self.place += 1;
        while self.text[self.place] != b'\'' {
            self.place += usize::from(self.text[self.place] == b'\\');
            name.push(self.text[self.place]);
            self.place += 1;
        }
        self.place += 1;
        name
    }
}
