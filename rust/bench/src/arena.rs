//! A tuned tree: flat nodes of 16 bytes, siblings linked in order, the blank child at hand, a sorted index where a node has
//! many children, and a search with a list of its own. No input is checked. It is what speed can be had.

use crate::index::{arity, blank, end, Fills, Index, BLANK};

/// From so many children on, a node has an index of them.
const MANY: u16 = 12;

/// From so many answers on, they are sorted by a map of bits.
const MANY_ANSWERS: usize = 24;

/// Links are places in the arena; 0 is the root, and none where a child or sibling is meant.
#[derive(Clone, Copy, Default)]
struct Node {
    cell: u16,
    parent: u16,
    first: u16,
    next: u16,
    /// The child for the blank, which is also the last of the siblings.
    blank: u16,
    children: u16,
    /// The place of its index + 1.
    index: u16,
    /// The number + 1 of a rule that ends here.
    rule: u16,
}

/// A rule's term, and the next rule with the same blank form.
#[derive(Clone, Copy)]
struct Rule {
    next: u16,
    length: u16,
    cells: [u16; 32],
}

const NO_RULE: Rule = Rule {
    next: 0,
    length: 0,
    cells: [0; 32],
};

/// A node that was met, the subterms of a rule still to skip there, and the place in the question.
type Point = (u16, u8, u8);

/// Places in the arena: a power of two, so that a link needs no check of its bounds.
const PLACES: usize = 8_192;

/// The tree.
pub struct Arena {
    nodes: Box<[Node; PLACES]>,
    used: u16,
    free: Vec<u16>,
    indices: Vec<Vec<(u16, u16)>>,
    rules: Vec<Rule>,
    points: Vec<Point>,
}

impl Default for Arena {
    fn default() -> Arena {
        Arena {
            nodes: Box::new([Node::default(); PLACES]),
            used: 1,
            free: vec![],
            indices: vec![],
            rules: vec![NO_RULE; 4_096],
            points: Vec::with_capacity(PLACES),
        }
    }
}

impl Index for Arena {
    fn add(&mut self, number: u16, term: &[u16]) {
        let mut node = 0;
        for cell in term {
            let cell = blank(*cell);
            node = match self.child(node, cell) {
                0 => self.link(node, cell),
                child => child,
            };
        }
        let next = self.node(node).rule;
        let rule = &mut self.rules[usize::from(number)];
        rule.next = next;
        rule.length = term.len() as u16;
        rule.cells[..term.len()].copy_from_slice(term);
        self.node_mut(node).rule = number + 1;
    }

    fn remove(&mut self, number: u16) {
        let rule = self.rules[usize::from(number)];
        let term = &rule.cells[..usize::from(rule.length)];
        let node = term
            .iter()
            .fold(0, |node, cell| self.child(node, blank(*cell)));
        self.take_off(node, number + 1, rule.next);
        let mut node = node;
        while node != 0 && self.node(node).rule == 0 && self.node(node).first == 0 {
            node = self.unlink(node);
        }
    }

    fn ask(&mut self, fills: Fills, question: &[u16], out: &mut [u16]) -> usize {
        let count = self.search(fills, question, out);
        if count < MANY_ANSWERS {
            out[..count].sort_unstable();
        } else {
            sort_by_bits(&mut out[..count]);
        }
        count
    }
}

/// Sorts rule numbers of which none stands twice.
fn sort_by_bits(numbers: &mut [u16]) {
    let mut bits = [0_u64; 64];
    for number in &*numbers {
        bits[usize::from(number / 64)] |= 1 << (number % 64);
    }
    let mut place = 0;
    for (high, word) in bits.iter().enumerate() {
        let mut left = *word;
        while left != 0 {
            numbers[place] = (64 * high) as u16 + left.trailing_zeros() as u16;
            left &= left - 1;
            place += 1;
        }
    }
}

impl Arena {
    fn node(&self, link: u16) -> &Node {
        &self.nodes[usize::from(link) % PLACES]
    }

    fn node_mut(&mut self, link: u16) -> &mut Node {
        &mut self.nodes[usize::from(link) % PLACES]
    }

    /// The child with a cell, or 0.
    fn child(&self, parent: u16, cell: u16) -> u16 {
        let parent = self.node(parent);
        if cell == BLANK {
            return parent.blank;
        }
        if parent.index != 0 {
            let index = &self.indices[usize::from(parent.index - 1)];
            let place = index.binary_search_by_key(&cell, |(held, _)| *held);
            return place.map_or(0, |place| index[place].1);
        }
        let mut link = parent.first;
        while link != 0 {
            let node = self.node(link);
            if node.cell >= cell {
                return if node.cell == cell { link } else { 0 };
            }
            link = node.next;
        }
        0
    }

    /// The last child with a smaller cell, or 0.
    fn before(&self, parent: u16, cell: u16) -> u16 {
        let parent = self.node(parent);
        if parent.index != 0 {
            let index = &self.indices[usize::from(parent.index - 1)];
            let place = index.partition_point(|(held, _)| *held < cell);
            return place.checked_sub(1).map_or(0, |place| index[place].1);
        }
        let (mut before, mut link) = (0, parent.first);
        while link != 0 && self.node(link).cell < cell {
            (before, link) = (link, self.node(link).next);
        }
        before
    }

    /// Makes a child that isn't there.
    fn link(&mut self, parent: u16, cell: u16) -> u16 {
        let before = self.before(parent, cell);
        let next = match before {
            0 => self.node(parent).first,
            _ => self.node(before).next,
        };
        let new = self.place(Node {
            cell,
            parent,
            next,
            ..Node::default()
        });
        match before {
            0 => self.node_mut(parent).first = new,
            _ => self.node_mut(before).next = new,
        }
        let above = self.node_mut(parent);
        above.children += 1;
        if cell == BLANK {
            above.blank = new;
        }
        self.index_more(parent, cell, new);
        new
    }

    /// Puts a node in the arena.
    fn place(&mut self, node: Node) -> u16 {
        let link = self.free.pop().unwrap_or(self.used);
        self.used += u16::from(link == self.used);
        *self.node_mut(link) = node;
        link
    }

    /// Keeps the index of a node that has many children, or makes it.
    fn index_more(&mut self, parent: u16, cell: u16, new: u16) {
        let above = *self.node(parent);
        if above.index != 0 {
            let index = &mut self.indices[usize::from(above.index - 1)];
            let place = index.partition_point(|(held, _)| *held < cell);
            index.insert(place, (cell, new));
        } else if above.children == MANY {
            let (mut index, mut link) = (vec![], above.first);
            while link != 0 {
                index.push((self.node(link).cell, link));
                link = self.node(link).next;
            }
            self.indices.push(index);
            self.node_mut(parent).index = self.indices.len() as u16;
        }
    }

    /// Takes a rule off the chain of its node.
    fn take_off(&mut self, node: u16, rule: u16, next: u16) {
        let mut held = self.node(node).rule;
        if held == rule {
            self.node_mut(node).rule = next;
            return;
        }
        while self.rules[usize::from(held - 1)].next != rule {
            held = self.rules[usize::from(held - 1)].next;
        }
        self.rules[usize::from(held - 1)].next = next;
    }

    /// Takes a node without children out, and gives its parent.
    fn unlink(&mut self, link: u16) -> u16 {
        let Node {
            cell, parent, next, ..
        } = *self.node(link);
        match self.before(parent, cell) {
            0 => self.node_mut(parent).first = next,
            before => self.node_mut(before).next = next,
        }
        let above = self.node_mut(parent);
        above.children -= 1;
        if cell == BLANK {
            above.blank = 0;
        }
        let index = above.index;
        if index != 0 {
            let index = &mut self.indices[usize::from(index - 1)];
            let place = index.partition_point(|(held, _)| *held < cell);
            index.remove(place);
        }
        self.free.push(link);
        parent
    }

    /// Writes the numbers that answer, in any order. One way down is followed at once, and only others go on the list.
    fn search(&mut self, fills: Fills, question: &[u16], out: &mut [u16]) -> usize {
        let mut points = std::mem::take(&mut self.points);
        let (mut count, mut point) = (0, Some((0, 0, 0)));
        while let Some((link, skip, place)) = point {
            point = if skip > 0 {
                self.all(link, skip - 1, place, &mut points)
            } else if usize::from(place) == question.len() {
                count = self.collect(link, out, count);
                None
            } else {
                let asked = blank(question[usize::from(place)]);
                if asked == BLANK && fills.question {
                    self.all(link, 0, place + 1, &mut points)
                } else {
                    self.two(
                        link,
                        asked,
                        place,
                        fills.rule.then_some(question),
                        &mut points,
                    )
                }
            };
            point = point.or_else(|| points.pop());
        }
        self.points = points;
        count
    }

    /// All children are points, with their arguments still to skip: the first comes next, the others go on the list.
    fn all(&self, parent: u16, skip: u8, place: u8, points: &mut Vec<Point>) -> Option<Point> {
        let mut link = self.node(parent).first;
        let mut point = None;
        while link != 0 {
            let node = self.node(link);
            points.extend(point);
            point = Some((link, skip + arity(node.cell) as u8, place));
            link = node.next;
        }
        point
    }

    /// The child with the cell asked for, and where the rule's blanks may be filled the blank one, which stands for the whole
    /// subterm.
    fn two(
        &self,
        link: u16,
        asked: u16,
        place: u8,
        question: Option<&[u16]>,
        points: &mut Vec<Point>,
    ) -> Option<Point> {
        let child = self.child(link, asked);
        let same = (child != 0).then_some((child, 0, place + 1));
        let general = self.node(link).blank;
        match question {
            Some(question) if general != 0 && asked != BLANK => {
                points.extend(same);
                Some((general, 0, end(question, usize::from(place)) as u8))
            }
            _ => same,
        }
    }

    /// The rules that end at a node.
    fn collect(&self, link: u16, out: &mut [u16], mut count: usize) -> usize {
        let mut rule = self.node(link).rule;
        while rule != 0 {
            out[count] = rule - 1;
            count += 1;
            rule = self.rules[usize::from(rule - 1)].next;
        }
        count
    }
}
