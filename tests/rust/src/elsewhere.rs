//! Editing other layers must not move a lesson (document 02, n): when two drives are of one lesson, in
//! that document's words, and edits of a book that leave a lesson as it is.

use crate::book::{Arrow, Book, Literal, Rule, FALSITY};
use crate::drive::{all_layers, Drive};
use crate::ffi;
use crate::inputs::{Question, Wanted};
use crate::reader;
use crate::rng::Rng;
use std::collections::BTreeSet;

const MOST_LAYERS: u8 = 32;
const MOST_RULES: usize = 1_024;
const MOST_BODY: usize = 16;

/// A book, and a drive of it.
#[derive(Clone, Debug, PartialEq, Eq)]
pub struct Lesson {
    pub book: Book,
    pub drive: Drive,
}

/// The layers from which a path of one or more arrows leads to a layer: bit i for layer i.
fn below(arrows: &[Arrow], layer: u8) -> u32 {
    let mut below = 0;
    loop {
        let before = below;
        for arrow in arrows {
            if arrow.later == layer || below >> arrow.later & 1 == 1 {
                below |= 1 << arrow.earlier;
            }
        }
        if below == before {
            return below;
        }
    }
}

/// The layers of a set.
fn members(set: u32) -> impl Iterator<Item = u8> {
    (0..MOST_LAYERS).filter(move |layer| set >> layer & 1 == 1)
}

/// A rule without the order and the repetition of its body literals.
type Said = (u8, (u16, bool), BTreeSet<(u16, bool)>);

fn said(rule: &Rule) -> Said {
    let pair = |literal: &Literal| (literal.atom, literal.negated);
    let body = rule.body.iter().map(pair).collect();
    (rule.layer, pair(&rule.head), body)
}

impl Lesson {
    pub fn new(book: Book, drive: Drive) -> Lesson {
        Lesson { book, drive }
    }

    /// The layers below the driven one, which must be one of the 32 that there can be.
    fn below(&self) -> u32 {
        below(&self.book.arrows, self.drive.layer as u8)
    }

    /// The driven layer and those below it.
    pub fn lower(&self) -> u32 {
        self.below() | 1 << self.drive.layer
    }

    /// All other layers of the book.
    pub fn others(&self) -> u32 {
        all_layers(self.book.layers) & !self.lower()
    }

    fn is_accepted(&self) -> bool {
        reader::first_cause(&self.book.bytes()) == reader::GRANTED
    }

    fn has_driven_layer(&self) -> bool {
        self.drive.layer < self.book.layers.into()
    }

    fn has_layers_off(&self) -> bool {
        self.drive.off & !all_layers(self.book.layers) == 0
    }

    /// Whether each rule of the driven layer and of those below it is a rule of another book.
    fn rules_in(&self, other: &Book) -> bool {
        let theirs: BTreeSet<Said> = other.rules.iter().map(said).collect();
        let lower = self.lower();
        let mut ours = self.book.rules.iter();
        ours.all(|rule| lower >> rule.layer & 1 == 0 || theirs.contains(&said(rule)))
    }

    /// Which of the driven layer and those below it are below each other.
    fn order(&self, lower: u32) -> Vec<u32> {
        let below = |layer| below(&self.book.arrows, layer) & lower;
        members(lower).map(below).collect()
    }
}

/// What document 02, (n) asks of two drives.
#[derive(Clone, Copy, Debug, PartialEq, Eq)]
pub enum Hypothesis {
    /// "two accepted books"
    Accepted,
    /// "with equal n"
    Facts,
    /// "neither meeting 9"
    DrivenLayer,
    /// "or 19"
    LayersOff,
    /// "the same driven layer"
    SameLayer,
    /// "with the same layers below it"
    Below,
    /// "the same set of layers switched off among those at or below it"
    Off,
    /// "the same rules in the driven layer and in the layers below it": none is taken away
    RulesKept,
    /// and none comes to them
    NoMoreRules,
    /// "the same layers below each other among them"
    Order,
}

pub use Hypothesis::*;

pub const EVERY_HYPOTHESIS: [Hypothesis; 10] = [
    Accepted,
    Facts,
    DrivenLayer,
    LayersOff,
    SameLayer,
    Below,
    Off,
    RulesKept,
    NoMoreRules,
    Order,
];

impl Hypothesis {
    fn holds(self, one: &Lesson, other: &Lesson) -> bool {
        let lower = one.lower();
        match self {
            Accepted => one.is_accepted() && other.is_accepted(),
            Facts => one.book.atoms == other.book.atoms,
            DrivenLayer => one.has_driven_layer() && other.has_driven_layer(),
            LayersOff => one.has_layers_off() && other.has_layers_off(),
            SameLayer => one.drive.layer == other.drive.layer,
            Below => one.below() == other.below(),
            Off => (one.drive.off ^ other.drive.off) & lower == 0,
            RulesKept => one.rules_in(&other.book),
            NoMoreRules => other.rules_in(&one.book),
            Order => one.order(lower) == other.order(lower),
        }
    }
}

/// The hypotheses that two drives do not meet.
pub fn broken(one: &Lesson, other: &Lesson) -> Vec<Hypothesis> {
    let mut broken = EVERY_HYPOTHESIS.to_vec();
    broken.retain(|hypothesis| !hypothesis.holds(one, other));
    broken
}

/// What a book can be edited in while a lesson is driven.
#[derive(Clone, Copy, Debug, PartialEq, Eq)]
pub enum Edit {
    /// Layers that no arrow joins to others yet.
    MoreLayers,
    /// The last layer goes, with all that it had.
    FewerLayers,
    /// Other layers get other numbers.
    Renumbered,
    /// Rules and constraints come to other layers.
    RulesAdded,
    /// Some of theirs go.
    RulesTaken,
    /// Their heads and bodies change.
    RulesChanged,
    /// An arrow among other layers comes.
    ArrowElsewhere,
    /// One goes.
    ArrowElsewhereTaken,
    /// An arrow from the driven layer, or from one below it, to another layer comes.
    ArrowUpward,
    /// One goes.
    ArrowUpwardTaken,
    /// An arrow comes, or goes, where a path leads anyway.
    SamePaths,
    /// Other layers are switched off and on.
    SetElsewhere,
    /// Rules and arrows stand in another order.
    OtherOrder,
    /// Rules of any layer stand there twice.
    RulesRepeated,
    /// Body literals of any rule stand in another order, or twice.
    BodiesRewritten,
}

pub use Edit::*;

pub const EVERY_EDIT: [Edit; 15] = [
    MoreLayers,
    FewerLayers,
    Renumbered,
    RulesAdded,
    RulesTaken,
    RulesChanged,
    ArrowElsewhere,
    ArrowElsewhereTaken,
    ArrowUpward,
    ArrowUpwardTaken,
    SamePaths,
    SetElsewhere,
    OtherOrder,
    RulesRepeated,
    BodiesRewritten,
];

/// The same lesson in a book that was edited, and the edits that changed something.
pub fn edited(rng: &mut Rng, lesson: &Lesson) -> (Lesson, Vec<Edit>) {
    let mut other = lesson.clone();
    let mut edits = Vec::new();
    for _ in 0..rng.range(1, 12) {
        let edit = rng.pick(&EVERY_EDIT);
        let before = other.clone();
        edit.apply(rng, &mut other);
        if other != before {
            edits.push(edit);
        }
    }
    (other, edits)
}

impl Edit {
    fn apply(self, rng: &mut Rng, lesson: &mut Lesson) {
        let (lower, others) = (lesson.lower(), lesson.others());
        let elsewhere: Vec<u8> = members(others).collect();
        let within: Vec<u8> = members(lower).collect();
        let Lesson { book, drive } = lesson;
        match self {
            MoreLayers => book.layers = rng.range(book.layers.into(), MOST_LAYERS.into()) as u8,
            FewerLayers => without_the_last(lesson, others),
            Renumbered => renumbered(rng, lesson, lower, &elsewhere),
            RulesAdded => add_rules(rng, book, &elsewhere),
            RulesTaken => book
                .rules
                .retain(|rule| lower >> rule.layer & 1 == 1 || rng.chance(50)),
            RulesChanged => change_rules(rng, book, others),
            ArrowElsewhere => add_arrow(rng, book, &elsewhere, &elsewhere),
            ArrowElsewhereTaken => take_arrow(rng, book, others, others),
            ArrowUpward => add_arrow(rng, book, &within, &elsewhere),
            ArrowUpwardTaken => take_arrow(rng, book, lower, others),
            SamePaths => same_paths(rng, book, &within),
            SetElsewhere => drive.off ^= rng.word() as u32 & others,
            OtherOrder => {
                rng.shuffle(&mut book.rules);
                rng.shuffle(&mut book.arrows);
            }
            RulesRepeated => repeat_rules(rng, book),
            BodiesRewritten => {
                for rule in &mut book.rules {
                    rewrite(rng, &mut rule.body);
                }
            }
        }
    }
}

/// Takes the last layer away if it is one of the others.
fn without_the_last(lesson: &mut Lesson, others: u32) {
    let Lesson { book, drive } = lesson;
    let last = book.layers - 1;
    if others >> last & 1 == 1 {
        book.layers = last;
        book.rules.retain(|rule| rule.layer != last);
        book.arrows
            .retain(|arrow| arrow.earlier != last && arrow.later != last);
        drive.off &= !(1 << last);
    }
}

/// Gives the other layers other numbers, in a book that may get more layers for it.
fn renumbered(rng: &mut Rng, lesson: &mut Lesson, lower: u32, elsewhere: &[u8]) {
    let Lesson { book, drive } = lesson;
    let layers = rng.range(
        book.layers.into(),
        (book.layers + 4).min(MOST_LAYERS).into(),
    ) as u8;
    let mut numbers: Vec<u8> = (0..layers).filter(|at| lower >> at & 1 == 0).collect();
    rng.shuffle(&mut numbers);
    let number = |layer: u8| match elsewhere.iter().position(|&other| other == layer) {
        Some(at) => numbers[at],
        None => layer,
    };
    for rule in &mut book.rules {
        rule.layer = number(rule.layer);
    }
    for arrow in &mut book.arrows {
        *arrow = Arrow {
            earlier: number(arrow.earlier),
            later: number(arrow.later),
        };
    }
    let off = members(drive.off).fold(0, |off, layer| off | 1 << number(layer));
    *drive = drive.off(off);
    book.layers = layers;
}

/// A rule of one of the layers, about what some rule of the book says: mostly the opposite of it. Or a
/// constraint, with or without a body.
fn any_rule(rng: &mut Rng, book: &Book, layers: &[u8]) -> Rule {
    let literal = |rng: &mut Rng| Literal {
        atom: rng.below(book.atoms.into()) as u16,
        negated: rng.chance(50),
    };
    let heads: Vec<Literal> = book
        .rules
        .iter()
        .filter(|rule| !rule.is_constraint())
        .map(|rule| rule.head)
        .collect();
    let head = match rng.below(5) {
        0 => FALSITY,
        1 => literal(rng),
        _ if heads.is_empty() => literal(rng),
        _ => rng.pick(&heads).opposite(),
    };
    Rule {
        layer: rng.pick(layers),
        head,
        body: (0..rng.below(3)).map(|_| literal(rng)).collect(),
    }
}

/// Some rules more in these layers, if there are any.
fn add_rules(rng: &mut Rng, book: &mut Book, layers: &[u8]) {
    if !layers.is_empty() {
        for _ in 0..rng.range(1, 4) {
            let rule = any_rule(rng, book, layers);
            book.rules.push(rule);
        }
        book.rules.truncate(MOST_RULES);
    }
}

/// Other rules in place of some of these layers'.
fn change_rules(rng: &mut Rng, book: &mut Book, layers: u32) {
    for at in 0..book.rules.len() {
        let layer = book.rules[at].layer;
        if layers >> layer & 1 == 1 && rng.chance(50) {
            book.rules[at] = any_rule(rng, book, &[layer]);
        }
    }
}

/// Some rules once more.
fn repeat_rules(rng: &mut Rng, book: &mut Book) {
    if !book.rules.is_empty() {
        for _ in 0..rng.range(1, 3) {
            let rule = book.rules[rng.below(book.rules.len())].clone();
            book.rules.push(rule);
        }
        book.rules.truncate(MOST_RULES);
    }
}

/// An arrow more from one of some layers to one of others, where the book stays lawful with it.
fn add_arrow(rng: &mut Rng, book: &mut Book, from: &[u8], to: &[u8]) {
    if !from.is_empty() && !to.is_empty() {
        let arrow = Arrow {
            earlier: rng.pick(from),
            later: rng.pick(to),
        };
        if may_join(book, &arrow) {
            book.arrows.push(arrow);
        }
    }
}

/// Whether the book stays lawful with an arrow more.
fn may_join(book: &Book, arrow: &Arrow) -> bool {
    let Arrow { earlier, later } = *arrow;
    earlier != later
        && !book.arrows.contains(arrow)
        && below(&book.arrows, earlier) >> later & 1 == 0
}

/// Takes an arrow away that leads from one of some layers to one of others.
fn take_arrow(rng: &mut Rng, book: &mut Book, from: u32, to: u32) {
    let leads = |arrow: &Arrow| from >> arrow.earlier & 1 == 1 && to >> arrow.later & 1 == 1;
    let arrows: Vec<Arrow> = book.arrows.iter().copied().filter(leads).collect();
    if !arrows.is_empty() {
        let taken = rng.pick(&arrows);
        book.arrows.retain(|arrow| *arrow != taken);
    }
}

/// Among the driven layer and those below it: an arrow comes where a path leads, or one goes beside
/// which another path leads.
fn same_paths(rng: &mut Rng, book: &mut Book, within: &[u8]) {
    let without = |arrow: &Arrow| -> Vec<Arrow> {
        let others = book.arrows.iter().filter(|other| *other != arrow);
        others.copied().collect()
    };
    let pairs = within
        .iter()
        .flat_map(|&earlier| within.iter().map(move |&later| Arrow { earlier, later }));
    let spare: Vec<Arrow> = pairs
        .filter(|arrow| below(&without(arrow), arrow.later) >> arrow.earlier & 1 == 1)
        .collect();
    if !spare.is_empty() {
        let arrow = rng.pick(&spare);
        match book.arrows.contains(&arrow) {
            true => book.arrows = without(&arrow),
            false => book.arrows.push(arrow),
        }
    }
}

/// Writes a body in another order, with some of its literals twice.
fn rewrite(rng: &mut Rng, body: &mut Vec<Literal>) {
    if !body.is_empty() && rng.chance(50) {
        for _ in 0..rng.below(3) {
            let literal = rng.pick(body);
            body.push(literal);
        }
        body.truncate(MOST_BODY);
        rng.shuffle(body);
    }
}

/// What the engine makes of a question about a lesson.
pub fn put(question: &Question, lesson: &Lesson) -> Wanted {
    let (book, drive) = (lesson.book.bytes(), lesson.drive);
    let (answer, buffer) = match question {
        Question::Check => (ffi::check(&book), Vec::new()),
        Question::Test { candidate } => (ffi::test(&book, drive, candidate), Vec::new()),
        Question::List { buffer } => ffi::list(&book, drive, buffer),
        Question::One { buffer } => ffi::one(&book, drive, buffer),
        Question::Place { fact } => (ffi::place(&book, drive, *fact), Vec::new()),
        Question::Nearest { candidate, buffer } => ffi::nearest(&book, drive, candidate, buffer),
        Question::Count { condition } => (ffi::count(&book, drive, condition), Vec::new()),
    };
    Wanted { answer, buffer }
}
