//! No index: every rule is tested, one by one.

use crate::index::{blank, end, Fills, Index, BLANK};

/// The rules, ascending by number, with blank forms.
#[derive(Default)]
pub struct OneByOne {
    rules: Vec<(u16, Vec<u16>)>,
}

impl Index for OneByOne {
    fn add(&mut self, number: u16, term: &[u16]) {
        let place = self.rules.partition_point(|(held, _)| *held < number);
        let form = term.iter().map(|cell| blank(*cell)).collect();
        self.rules.insert(place, (number, form));
    }

    fn remove(&mut self, number: u16) {
        let place = self.rules.partition_point(|(held, _)| *held < number);
        self.rules.remove(place);
    }

    fn ask(&mut self, fills: Fills, question: &[u16], out: &mut [u16]) -> usize {
        let mut count = 0;
        for (number, form) in &self.rules {
            if answers(fills, question, form) {
                out[count] = *number;
                count += 1;
            }
        }
        count
    }
}

/// Does the rule with this blank form answer the question?
fn answers(fills: Fills, question: &[u16], form: &[u16]) -> bool {
    let (mut asked, mut held) = (0, 0);
    while asked < question.len() && held < form.len() {
        let (cell, there) = (blank(question[asked]), form[held]);
        if cell == there {
            (asked, held) = (asked + 1, held + 1);
        } else if cell == BLANK && fills.question {
            (asked, held) = (asked + 1, end(form, held));
        } else if there == BLANK && fills.rule {
            (asked, held) = (end(question, asked), held + 1);
        } else {
            return false;
        }
    }
    true
}
