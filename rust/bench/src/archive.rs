//! The proved book.

use claggyfoot::ffi;

/// A book's words.
#[derive(Clone)]
pub struct Archive {
    /// The words.
    pub words: Vec<u64>,
}

impl Default for Archive {
    fn default() -> Archive {
        let mut words = vec![0; ffi::book_words()];
        assert_eq!(ffi::book_empty(&mut words), 0);
        Archive { words }
    }
}

impl Archive {
    /// Runs a batch of which all commands are taken; gives the cells written.
    pub fn run(&mut self, cells: &[u16], out: &mut [u16]) -> usize {
        let ended = ffi::batch(&mut self.words, cells, out);
        assert_eq!((ended.stop, ended.used), (0, cells.len() as u64));
        ended.written as usize
    }

    /// The check alone.
    pub fn passes(&self) -> bool {
        ffi::book_passes(&self.words) == 0
    }
}
