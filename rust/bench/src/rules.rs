//! The rules that are held and the terms that are asked about.

use model::random::Random;

use crate::index::{end, BLANK};

/// How many terms are asked about in one batch.
pub const QUESTIONS: usize = 64;

/// A number and a term.
pub type Rule = (u16, Vec<u16>);

/// So many rules of one kind.
pub struct Set {
    /// The kind.
    pub name: &'static str,
    /// Ascending by term and by number.
    pub rules: Vec<Rule>,
    /// What is asked.
    pub questions: Vec<Vec<u16>>,
}

/// The kinds of rules, by name.
pub const KINDS: [&str; 4] = ["adventure", "siblings", "scattered", "chains"];

/// The numbers of rules that are tried for a kind.
pub fn sizes(kind: &str) -> &'static [usize] {
    match kind {
        // 128 chains of 32 cells fill the nodes.
        "chains" => &[16, 32, 64, 128],
        _ => &[16, 32, 64, 128, 256, 512],
    }
}

/// The set of a kind with so many rules.
pub fn set(name: &'static str, size: usize) -> Set {
    let mut random = Random::new(size as u64);
    let mut terms: Vec<Vec<u16>> = match name {
        "scattered" => scattered(&mut random, size),
        _ => (0..size)
            .map(|index| match name {
                "adventure" => adventure(&mut random),
                "siblings" => vec![0x2001, index as u16, BLANK],
                _ => chain(index as u16),
            })
            .collect(),
    };
    terms.sort();
    let step = 4_096 / size as u16;
    let numbers = (0..size as u16).map(|index| index * step);
    let rules: Vec<Rule> = numbers.zip(terms).collect();
    let questions = (0..QUESTIONS)
        .map(|index| match name {
            "scattered" if index % 2 == 1 => missing(&mut random, &rules),
            _ => question(&mut random, index, &rules),
        })
        .collect();
    Set {
        name,
        rules,
        questions,
    }
}

/// Does what `put(lamp, in(X))` does: one of 24 verbs with one to three arguments, of up to three levels.
fn adventure(random: &mut Random) -> Vec<u16> {
    let verb = low(random, 24);
    let arguments = 1 + verb % 3;
    let mut term = vec![arguments << 12 | verb];
    let mut variables = 0;
    for _ in 0..arguments {
        match random.below(10) {
            0..=1 => {
                term.push(0x1000 | (100 + low(random, 10)));
                term.push(thing(random, &mut variables));
            }
            2 => {
                term.push(0x2000 | (200 + low(random, 5)));
                term.push(thing(random, &mut variables));
                term.push(thing(random, &mut variables));
            }
            _ => term.push(thing(random, &mut variables)),
        }
    }
    term
}

/// A noun or a variable.
fn thing(random: &mut Random, variables: &mut u16) -> u16 {
    if random.below(5) < 2 {
        *variables += 1;
        BLANK | (*variables - 1)
    } else {
        300 + low(random, 80)
    }
}

/// A number below the end, low ones more often.
fn low(random: &mut Random, end: usize) -> u16 {
    random.below(end).min(random.below(end)) as u16
}

/// Siblings whose names are any of the 4,096, each once.
fn scattered(random: &mut Random, size: usize) -> Vec<Vec<u16>> {
    let mut names: Vec<u16> = (0..4_096).collect();
    let draw = |_| vec![0x2001, names.swap_remove(random.below(names.len())), BLANK];
    (0..size).map(draw).collect()
}

/// A rule with a name in place of its second cell that no rule has there.
fn missing(random: &mut Random, rules: &[Rule]) -> Vec<u16> {
    let mut term = rules[0].1.clone();
    while rules.iter().any(|rule| rule.1[1] == term[1]) {
        term[1] = random.below(4_096) as u16;
    }
    term
}

/// A chain of 32 cells that begins with its own symbol.
fn chain(first: u16) -> Vec<u16> {
    [vec![0x1000 | (first + 100)], vec![0x1004; 30], vec![BLANK]].concat()
}

/// By turns a rule as it is, one with things for its variables, and one with some subterms made blank.
fn question(random: &mut Random, index: usize, rules: &[Rule]) -> Vec<u16> {
    let term = &rules[random.below(rules.len())].1;
    match index % 3 {
        0 => term.clone(),
        1 => ground(random, term),
        _ => blanked(random, term),
    }
}

/// Each variable's place gets a noun.
fn ground(random: &mut Random, term: &[u16]) -> Vec<u16> {
    let filled = |cell: &u16| match *cell {
        BLANK.. => 300 + low(random, 80),
        symbol => symbol,
    };
    term.iter().map(filled).collect()
}

/// One subterm in four is made blank, and so is each variable; every blank is a variable of its own.
fn blanked(random: &mut Random, term: &[u16]) -> Vec<u16> {
    let (mut out, mut place, mut variables) = (vec![term[0]], 1, 0);
    while place < term.len() {
        if term[place] >= BLANK || random.one_in(4) {
            out.push(BLANK | variables);
            variables += 1;
            place = end(term, place);
        } else {
            out.push(term[place]);
            place += 1;
        }
    }
    out
}

/// The rules in any order.
pub fn shuffled(rules: &[Rule]) -> Vec<Rule> {
    let mut random = Random::new(rules.len() as u64 + 1);
    let mut left = rules.to_vec();
    let draw = |_| left.swap_remove(random.below(left.len()));
    (0..rules.len()).map(draw).collect()
}

/// The commands that add rules.
pub fn adds(rules: &[Rule]) -> Vec<Vec<u16>> {
    let add = |(number, term): &Rule| [&[*number], &term[..]].concat();
    rules.iter().map(add).collect()
}

/// The commands that remove rules.
pub fn removes(rules: &[Rule]) -> Vec<Vec<u16>> {
    rules
        .iter()
        .map(|(number, _)| vec![0x1000 | number])
        .collect()
}

/// The commands that ask one kind of question, 2 to 5, about each term.
pub fn asks(kind: u16, terms: &[Vec<u16>]) -> Vec<Vec<u16>> {
    let ask = |term: &Vec<u16>| [&[kind << 12], &term[..]].concat();
    terms.iter().map(ask).collect()
}
