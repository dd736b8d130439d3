//! An ordinary discrimination tree: nodes on the heap, each with a map of its children.

use std::collections::BTreeMap;

use crate::index::{arity, blank, end, Fills, Index, BLANK};

/// A node, and the rules whose blank form ends here.
#[derive(Default)]
struct Node {
    children: BTreeMap<u16, Node>,
    rules: Vec<u16>,
}

/// The tree, and each rule's term.
#[derive(Default)]
pub struct Mapped {
    root: Node,
    terms: BTreeMap<u16, Vec<u16>>,
}

impl Index for Mapped {
    fn add(&mut self, number: u16, term: &[u16]) {
        let mut node = &mut self.root;
        for cell in term {
            node = node.children.entry(blank(*cell)).or_default();
        }
        node.rules.push(number);
        self.terms.insert(number, term.to_vec());
    }

    fn remove(&mut self, number: u16) {
        if let Some(term) = self.terms.remove(&number) {
            self.root.take_out(number, &term);
        }
    }

    fn ask(&mut self, fills: Fills, question: &[u16], out: &mut [u16]) -> usize {
        let mut found = vec![];
        let search = Search { fills, question };
        search.below(&self.root, 0, 0, &mut found);
        found.sort_unstable();
        out[..found.len()].copy_from_slice(&found);
        found.len()
    }
}

impl Node {
    /// Takes a rule out below this node, with the nodes that only it needs.
    fn take_out(&mut self, number: u16, rest: &[u16]) {
        let Some((cell, rest)) = rest.split_first() else {
            self.rules.retain(|held| *held != number);
            return;
        };
        let Some(child) = self.children.get_mut(&blank(*cell)) else {
            return;
        };
        child.take_out(number, rest);
        if child.children.is_empty() && child.rules.is_empty() {
            self.children.remove(&blank(*cell));
        }
    }
}

/// A question on its way through the tree.
struct Search<'a> {
    fills: Fills,
    question: &'a [u16],
}

impl Search<'_> {
    /// Finds what answers below a node, where so many subterms of a rule are still to skip and the question is at a place.
    fn below(&self, node: &Node, skip: usize, place: usize, found: &mut Vec<u16>) {
        if skip > 0 {
            for (cell, child) in &node.children {
                self.below(child, skip - 1 + arity(*cell), place, found);
            }
            return;
        }
        if place == self.question.len() {
            found.extend(&node.rules);
            return;
        }
        let asked = blank(self.question[place]);
        if asked == BLANK && self.fills.question {
            for (cell, child) in &node.children {
                self.below(child, arity(*cell), place + 1, found);
            }
            return;
        }
        if let Some(child) = node.children.get(&asked) {
            self.below(child, 0, place + 1, found);
        }
        if asked != BLANK && self.fills.rule {
            if let Some(child) = node.children.get(&BLANK) {
                self.below(child, 0, end(self.question, place), found);
            }
        }
    }
}
