//! The four questions over blank forms, every `*` filled on its own by any blank form.
//!
//! Each relation is the reference's "some filling of .. gives ..": a blank form is a tree, a filling is a list with a tree
//! for each blank in reading order, and a relation holds when such a filling can be given.

use crate::term::{Mark, Symbol, Term};

/// A blank form as a tree.
#[derive(Clone, PartialEq, Eq, Hash, Debug)]
pub enum Form {
    /// The mark `*`.
    Blank,
    /// A symbol with as many forms below it as its arity says.
    Symbol(Symbol, Vec<Form>),
}

impl Form {
    /// The blank form of a term.
    pub fn of(term: &Term) -> Form {
        Form::parse(&mut term.blank_form().into_iter())
    }

    /// Takes one tree from the front of a preorder row.
    fn parse(row: &mut impl Iterator<Item = Mark>) -> Form {
        match row.next().expect("a term's row ends with the term") {
            Mark::Blank => Form::Blank,
            Mark::Symbol(symbol) => {
                let below = (0..symbol.arity).map(|_| Form::parse(row)).collect();
                Form::Symbol(symbol, below)
            }
        }
    }
}

/// A filling: for each blank of a form, in reading order, the form that is put there.
pub type Filling = Vec<Form>;

/// The form with each blank filled; the blanks take the filling's forms in turn.
///
/// # Panics
/// When the filling hasn't exactly one form for each blank.
pub fn filled(form: &Form, filling: &[Form]) -> Form {
    let mut left = filling.iter();
    let whole = filled_from(form, &mut left);
    assert!(left.next().is_none(), "more forms than blanks");
    whole
}

fn filled_from<'a>(form: &Form, left: &mut impl Iterator<Item = &'a Form>) -> Form {
    match form {
        Form::Blank => left.next().expect("a form for each blank").clone(),
        Form::Symbol(symbol, below) => {
            let below = below.iter().map(|part| filled_from(part, left)).collect();
            Form::Symbol(*symbol, below)
        }
    }
}

/// The filling of `pattern` that gives `whole`, if there is one; there is never a second.
pub fn filling(pattern: &Form, whole: &Form) -> Option<Filling> {
    match (pattern, whole) {
        // A blank may be filled by any form, so also by the one that stands here.
        (Form::Blank, _) => Some(vec![whole.clone()]),
        // No filling changes a symbol.
        (Form::Symbol(..), Form::Blank) => None,
        (Form::Symbol(symbol, parts), Form::Symbol(other, wholes)) => {
            if symbol != other {
                return None;
            }
            let pairs = parts.iter().zip(wholes);
            let fillings: Option<Vec<Filling>> =
                pairs.map(|(part, whole)| filling(part, whole)).collect();
            Some(fillings?.concat())
        }
    }
}

/// The form in which two forms meet, if some filling of each gives one and the same.
///
/// Laid over one another, they meet unless two symbols clash: where one has a blank, it can be filled by what the other
/// has there, and no other blank has a say in that.
pub fn meeting(one: &Form, other: &Form) -> Option<Form> {
    match (one, other) {
        (Form::Blank, there) | (there, Form::Blank) => Some(there.clone()),
        (Form::Symbol(symbol, ones), Form::Symbol(clash, others)) => {
            if symbol != clash {
                return None;
            }
            let pairs = ones.iter().zip(others);
            let below: Option<Vec<Form>> = pairs.map(|(one, other)| meeting(one, other)).collect();
            Some(Form::Symbol(*symbol, below?))
        }
    }
}

/// The four questions that can be asked of the book.
#[derive(Clone, Copy, PartialEq, Eq, Hash, Debug)]
pub enum Question {
    /// Rule and question have the same blank form.
    Variants,
    /// Some filling of the question's blanks gives the rule.
    Instances,
    /// Some filling of the rule's blanks gives the question.
    Generalisations,
    /// Some filling of each gives one and the same blank form.
    Unifiables,
}

impl Question {
    /// All four, in the order of their kinds.
    pub const ALL: [Question; 4] = [
        Question::Variants,
        Question::Instances,
        Question::Generalisations,
        Question::Unifiables,
    ];

    /// Whether the question lists the rule.
    pub fn lists(self, rule: &Form, question: &Form) -> bool {
        match self {
            Question::Variants => rule == question,
            Question::Instances => filling(question, rule).is_some(),
            Question::Generalisations => filling(rule, question).is_some(),
            Question::Unifiables => meeting(rule, question).is_some(),
        }
    }
}

#[cfg(test)]
mod tests {
    use super::*;
    use crate::random::{term, Random};
    use std::collections::HashSet;

    fn symbol(name: u16, below: Vec<Form>) -> Form {
        let arity = below.len() as u16;
        Form::Symbol(Symbol { arity, name }, below)
    }

    fn f(one: Form, other: Form) -> Form {
        symbol(1, vec![one, other])
    }

    fn a() -> Form {
        symbol(2, vec![])
    }

    fn b() -> Form {
        symbol(3, vec![])
    }

    fn g(part: Form) -> Form {
        symbol(4, vec![part])
    }

    const BLANK: Form = Form::Blank;

    /// All forms of at most three cells over a, b, g/1, f/2 and the blank.
    fn small_forms() -> Vec<Form> {
        let ones = vec![BLANK, a(), b()];
        let mut forms = ones.clone();
        for one in &ones {
            forms.push(g(one.clone()));
            forms.push(g(g(one.clone())));
            for other in &ones {
                forms.push(f(one.clone(), other.clone()));
            }
        }
        forms
    }

    fn blanks(form: &Form) -> usize {
        match form {
            Form::Blank => 1,
            Form::Symbol(_, below) => below.iter().map(blanks).sum(),
        }
    }

    /// All fillings of so many blanks with forms from a pool.
    fn all_fillings(blanks: usize, pool: &[Form]) -> Vec<Filling> {
        (0..blanks).fold(vec![vec![]], |shorter, _| {
            let mut longer = vec![];
            for filling in &shorter {
                for form in pool {
                    longer.push([filling.clone(), vec![form.clone()]].concat());
                }
            }
            longer
        })
    }

    /// Everything that a filling from the pool can give.
    fn images(form: &Form, pool: &[Form]) -> HashSet<Form> {
        all_fillings(blanks(form), pool)
            .iter()
            .map(|filling| filled(form, filling))
            .collect()
    }

    /// The reference's words tried out: a form of three cells can only meet another by fillings of at most three cells.
    #[test]
    fn the_relations_are_what_trying_all_fillings_finds() {
        let pool = small_forms();
        let images: Vec<_> = pool.iter().map(|form| images(form, &pool)).collect();
        for (rule, rule_images) in pool.iter().zip(&images) {
            for (question, question_images) in pool.iter().zip(&images) {
                let lists = |which: Question| which.lists(rule, question);
                assert_eq!(lists(Question::Variants), rule == question);
                assert_eq!(lists(Question::Instances), question_images.contains(rule));
                let general = rule_images.contains(question);
                assert_eq!(lists(Question::Generalisations), general);
                let meet = !rule_images.is_disjoint(question_images);
                assert_eq!(lists(Question::Unifiables), meet);
            }
        }
    }

    #[test]
    fn a_found_filling_gives_the_whole() {
        let mut random = Random::new(11);
        let mut found = 0;
        for _ in 0..20_000 {
            let one = Form::of(&term(&mut random));
            let other = Form::of(&term(&mut random));
            if let Some(filling) = filling(&one, &other) {
                assert_eq!(filled(&one, &filling), other);
                found += 1;
            }
            if let Some(both) = meeting(&one, &other) {
                for form in [&one, &other] {
                    let filling = filling(form, &both).expect("it is an instance of each");
                    assert_eq!(filled(form, &filling), both);
                }
            }
        }
        assert!(found > 500, "the generator hits often enough: {found}");
    }

    /// Demand 2: a generalisation of a pattern exactly when that pattern, were it the rule, would be an instance of it.
    #[test]
    fn generalisations_and_instances_are_each_other_turned_round() {
        let mut random = Random::new(12);
        for _ in 0..20_000 {
            let one = Form::of(&term(&mut random));
            let other = Form::of(&term(&mut random));
            assert_eq!(
                Question::Generalisations.lists(&one, &other),
                Question::Instances.lists(&other, &one)
            );
            let both = Question::Generalisations.lists(&one, &other)
                && Question::Instances.lists(&one, &other);
            assert_eq!(Question::Variants.lists(&one, &other), both);
        }
    }

    #[test]
    fn a_row_becomes_its_tree() {
        let cells = [0x2001, 0x1004, 0x0003, 0x8000];
        let term = Term::read(&cells, 0).expect("a term");
        assert_eq!(Form::of(&term), f(g(b()), BLANK));
    }

    #[test]
    fn a_filling_is_given_in_reading_order() {
        let whole = f(g(b()), a());
        assert_eq!(filling(&f(BLANK, BLANK), &whole), Some(vec![g(b()), a()]));
        assert_eq!(filling(&BLANK, &whole), Some(vec![whole.clone()]));
        assert_eq!(filling(&whole, &whole), Some(vec![]));
        assert_eq!(filling(&whole, &BLANK), None);
    }

    #[test]
    fn two_forms_meet_in_one() {
        let meet = meeting(&f(BLANK, b()), &f(a(), BLANK));
        assert_eq!(meet, Some(f(a(), b())));
        assert_eq!(meeting(&a(), &b()), None);
    }
}
