//! Conditions by document 02, (e): a reader of them, when one holds in a state, and texts of every kind.
//!
//! The reader keeps two stacks, the trees that it has read and the operators that wait (a shunting yard).
//! It is of another kind than the engine's, whose levels call each other.

use crate::expected::{BAD_CONDITION, NO_SUCH_FACT, TOO_DEEP};
use crate::known::Known;
use crate::rng::Rng;

/// The most bytes of a condition.
pub const LONGEST: usize = 255;

/// How deep its brackets may be nested.
pub const DEEPEST: usize = 16;

/// The most digits of a name.
const DIGITS: usize = 4;

/// What a condition is written with, but for most of the digits.
pub const ALPHABET: [u8; 7] = *b"01!&|()";

/// A condition with its grouping, and without the brackets that show it.
#[derive(Clone, Debug, PartialEq, Eq)]
pub enum Tree {
    Name(u16),
    Not(Box<Tree>),
    And(Box<Tree>, Box<Tree>),
    Or(Box<Tree>, Box<Tree>),
}

use Tree::{And, Name, Not, Or};

impl Tree {
    pub fn holds(&self, state: &[bool]) -> bool {
        match self {
            Name(fact) => state[usize::from(*fact)],
            Not(one) => !one.holds(state),
            And(one, other) => one.holds(state) && other.holds(state),
            Or(one, other) => one.holds(state) || other.holds(state),
        }
    }

    /// In how many of the states it holds.
    pub fn fitting(&self, states: &[Vec<bool>]) -> usize {
        states.iter().filter(|state| self.holds(state)).count()
    }

    /// In how many states of a book it holds.
    pub fn fitting_of(&self, known: &Known) -> usize {
        let holds = |&number: &usize| self.holds(&(known.state)(number));
        (0..known.count).filter(holds).count()
    }

    /// Whether a book of so many facts has all that it names.
    fn names_facts_of(&self, atoms: u16) -> bool {
        match self {
            Name(fact) => *fact < atoms,
            Not(one) => one.names_facts_of(atoms),
            And(one, other) | Or(one, other) => {
                one.names_facts_of(atoms) && other.names_facts_of(atoms)
            }
        }
    }
}

/// A condition as it is read.
pub struct Read {
    pub tree: Tree,
    /// How many brackets stand open at once.
    pub depth: usize,
}

/// What a reader knows between two bytes.
#[derive(Default)]
struct Yard {
    trees: Vec<Tree>,
    /// Operators whose right side is not complete, and brackets that stand open.
    waiting: Vec<u8>,
}

/// What binds tighter has the higher number. An open bracket is no operator.
fn tightness(waiting: u8) -> u8 {
    match waiting {
        b'!' => 3,
        b'&' => 2,
        b'|' => 1,
        _ => 0,
    }
}

impl Yard {
    /// Gives the last operators their right sides, as long as they bind so tightly at least.
    fn settle(&mut self, least: u8) {
        while let Some(&operator) = self.waiting.last() {
            if tightness(operator) < least {
                return;
            }
            self.waiting.pop();
            let mut side = || Box::new(self.trees.pop().expect("a tree for each side"));
            let right = side();
            let tree = match operator {
                b'!' => Not(right),
                b'&' => And(side(), right),
                _ => Or(side(), right),
            };
            self.trees.push(tree);
        }
    }

    fn open_brackets(&self) -> usize {
        self.waiting.iter().filter(|&&byte| byte == b'(').count()
    }
}

/// The number that begins a text of digits, and how many digits it has.
fn name(text: &[u8]) -> Option<(u16, usize)> {
    let digits = text.iter().take_while(|byte| byte.is_ascii_digit()).count();
    let value = |number: u16, digit: &u8| 10 * number + u16::from(digit - b'0');
    (1..=DIGITS)
        .contains(&digits)
        .then(|| (text[..digits].iter().fold(0, value), digits))
}

/// The reading of a text. `None` where it is outside the grammar.
pub fn read(text: &[u8]) -> Option<Read> {
    let mut yard = Yard::default();
    // Whether a part must follow, and not an operator between two or a bracket that closes.
    let mut part_follows = true;
    let (mut at, mut depth) = (0, 0);
    while at < text.len() {
        match (part_follows, text[at]) {
            (true, byte @ (b'!' | b'(')) => yard.waiting.push(byte),
            (true, _) => {
                let (fact, digits) = name(&text[at..])?;
                yard.trees.push(Name(fact));
                part_follows = false;
                at += digits - 1;
            }
            (false, operator @ (b'&' | b'|')) => {
                yard.settle(tightness(operator));
                yard.waiting.push(operator);
                part_follows = true;
            }
            (false, b')') => {
                yard.settle(1);
                yard.waiting.pop()?;
            }
            (false, _) => return None,
        }
        depth = depth.max(yard.open_brackets());
        at += 1;
    }
    if part_follows {
        return None;
    }
    yard.settle(1);
    let tree = yard.trees.pop()?;
    yard.waiting.is_empty().then_some(Read { tree, depth })
}

/// The tree of a condition on a book of so many facts, or the first of causes 16, 17 and 11 that applies.
pub fn read_for(condition: &[u8], atoms: u16) -> Result<Tree, u64> {
    if condition.is_empty() || condition.len() > LONGEST {
        return Err(BAD_CONDITION);
    }
    match read(condition) {
        None => Err(BAD_CONDITION),
        Some(read) if read.depth > DEEPEST => Err(TOO_DEEP),
        Some(read) if !read.tree.names_facts_of(atoms) => Err(NO_SUCH_FACT),
        Some(read) => Ok(read.tree),
    }
}

/// A tree with so many names, all of them below `atoms`.
pub fn any_tree(rng: &mut Rng, names: usize, atoms: u16) -> Tree {
    if rng.chance(20) {
        return Not(Box::new(any_tree(rng, names, atoms)));
    }
    if names == 1 {
        return Name(rng.below(atoms.into()) as u16);
    }
    let left = rng.range(1, names - 1);
    let mut side = |names| Box::new(any_tree(rng, names, atoms));
    let (one, other) = (side(left), side(names - left));
    match rng.chance(50) {
        true => And(one, other),
        false => Or(one, other),
    }
}

/// How a text is written: so many percent of the parts have brackets that they do not need, one pair or
/// more, and so many names a zero in front that they do not need.
#[derive(Clone, Copy, Debug, Default)]
pub struct Hand {
    pub brackets: usize,
    pub zeros: usize,
}

impl Hand {
    /// The text of a tree: read back, it is this tree.
    pub fn text(self, rng: &mut Rng, tree: &Tree) -> Vec<u8> {
        let mut text = Vec::new();
        self.put(rng, tree, 1, &mut text);
        text
    }

    /// Writes a tree where a part is wanted that binds so tightly at least.
    fn put(self, rng: &mut Rng, tree: &Tree, least: u8, text: &mut Vec<u8>) {
        let binds = match tree {
            Or(..) => tightness(b'|'),
            And(..) => tightness(b'&'),
            Not(_) | Name(_) => tightness(b'!'),
        };
        if binds < least || rng.chance(self.brackets) {
            text.push(b'(');
            self.put(rng, tree, 1, text);
            text.push(b')');
            return;
        }
        match tree {
            Name(fact) => text.extend(self.name(rng, *fact).bytes()),
            Not(one) => {
                text.push(b'!');
                self.put(rng, one, binds, text);
            }
            And(one, other) => self.put_both(rng, (one, b'&', other), text),
            Or(one, other) => self.put_both(rng, (one, b'|', other), text),
        }
    }

    /// What follows an operator binds tighter, as the same operator groups from the left.
    fn put_both(self, rng: &mut Rng, parts: (&Tree, u8, &Tree), text: &mut Vec<u8>) {
        let (one, operator, other) = parts;
        self.put(rng, one, tightness(operator), text);
        text.push(operator);
        self.put(rng, other, tightness(operator) + 1, text);
    }

    fn name(self, rng: &mut Rng, fact: u16) -> String {
        let mut name = fact.to_string();
        while name.len() < DIGITS && rng.chance(self.zeros) {
            name.insert(0, '0');
        }
        name
    }
}

/// A lawful condition on a book of so many facts, and its tree.
pub fn lawful(rng: &mut Rng, atoms: u16) -> (Vec<u8>, Tree) {
    loop {
        let names = rng.pick(&[1, 2, 3, 4, 6, 10, 20, 60]);
        let tree = any_tree(rng, names, atoms);
        let hand = Hand {
            brackets: rng.pick(&[0, 0, 10, 30, 60]),
            zeros: rng.pick(&[0, 0, 30]),
        };
        let text = hand.text(rng, &tree);
        if text.len() <= LONGEST && read(&text).is_some_and(|read| read.depth <= DEEPEST) {
            return (text, tree);
        }
    }
}

/// A part in so many brackets.
pub fn nested(depth: usize, part: &[u8]) -> Vec<u8> {
    [&b"(".repeat(depth), part, &b")".repeat(depth)].concat()
}

/// A condition that is read, with brackets that are too deep.
pub fn too_deep(rng: &mut Rng, atoms: u16) -> Vec<u8> {
    loop {
        let (part, _) = lawful(rng, atoms);
        let depth = rng.pick(&[DEEPEST + 1, DEEPEST + 2, 40, 100]);
        let text = nested(depth, &part);
        if text.len() <= LONGEST {
            return text;
        }
    }
}

/// A text with one byte that is another one, that is gone, or that is new.
pub fn damaged(rng: &mut Rng, mut text: Vec<u8>) -> Vec<u8> {
    let at = rng.below(text.len().max(1));
    let any = rng.byte();
    let byte = rng.pick(&[any, b'0', b'9', b'!', b'&', b'|', b'(', b')']);
    match rng.below(3) {
        0 if !text.is_empty() => text[at] = byte,
        1 if !text.is_empty() => drop(text.remove(at)),
        _ => text.insert(at, byte),
    }
    text
}

/// What is no condition: nothing, too much, any bytes, and such as occur in conditions.
pub fn outside(rng: &mut Rng, atoms: u16) -> Vec<u8> {
    loop {
        let length = rng.pick(&[
            0,
            1,
            2,
            5,
            20,
            LONGEST - 1,
            LONGEST,
            LONGEST + 1,
            300,
            5_000,
        ]);
        let text = match rng.below(5) {
            0 => rng.bytes(length),
            1 => (0..length).map(|_| rng.pick(&ALPHABET)).collect(),
            2 => vec![rng.pick(&ALPHABET); length],
            3 => {
                let deep = too_deep(rng, atoms);
                damaged(rng, deep)
            }
            _ => {
                let (text, _) = lawful(rng, atoms);
                damaged(rng, text)
            }
        };
        if read_for(&text, atoms) == Err(BAD_CONDITION) {
            return text;
        }
    }
}

/// Any bytes, half of which are a lawful condition on a book of so many facts.
pub fn any_bytes(rng: &mut Rng, atoms: u16) -> Vec<u8> {
    match rng.below(10) {
        0 => Vec::new(),
        1 => too_deep(rng, atoms),
        2 => lawful(rng, atoms.saturating_add(1)).0,
        3..=4 => outside(rng, atoms),
        _ => lawful(rng, atoms).0,
    }
}

#[cfg(test)]
mod tests {
    use super::*;
    use crate::rng::seed;

    fn tree(text: &str) -> Option<Tree> {
        read(text.as_bytes()).map(|read| read.tree)
    }

    fn name(fact: u16) -> Box<Tree> {
        Box::new(Name(fact))
    }

    #[test]
    fn the_desks_condition_has_the_tree_that_document_02_gives_it() {
        let left = And(name(3), Box::new(Not(name(14))));
        let right = And(name(2), name(5));
        let both = Or(Box::new(left), Box::new(right));
        assert_eq!(tree("3&!14|(2&5)"), Some(both));
    }

    #[test]
    fn both_operators_group_from_the_left() {
        let or = Or(Box::new(Or(name(1), name(2))), name(3));
        assert_eq!(tree("1|2|3"), Some(or));
        let and = And(Box::new(And(name(1), name(2))), name(3));
        assert_eq!(tree("1&2&3"), Some(and));
        assert_ne!(tree("1|2|3"), tree("1|(2|3)"));
        assert_ne!(tree("1&2&3"), tree("1&(2&3)"));
    }

    #[test]
    fn what_is_no_condition_is_not_read() {
        for text in [
            "", "!", "&", "|", "(", ")", "()", "0&", "&0", "0|", "0||1", "0&|1", "0!", "0!1",
            "01234", "0 ", " 0", "0&!", "(0", "0)", "(0))", ")0(", "0(1)", "(0)(1)", "(0)1", "0\n",
            "-1", "+1", "!()",
        ] {
            assert_eq!(tree(text), None, "{text}");
        }
    }

    #[test]
    fn depth_is_of_brackets_that_stand_open_at_once() {
        for (text, depth) in [
            ("0", 0),
            ("!!!0", 0),
            ("(0)", 1),
            ("(0)&(0)|(0)", 1),
            ("((0))", 2),
            ("(0&(1))|(((2)))", 3),
            ("!(!(0))", 2),
        ] {
            let read = read(text.as_bytes()).expect(text);
            assert_eq!(read.depth, depth, "{text}");
        }
    }

    #[test]
    fn every_text_of_a_tree_is_read_back() {
        let seed = seed();
        let mut rng = Rng::named(seed, "trees read back");
        let mut longest = 0;
        for _ in 0..20_000 {
            let atoms = rng.pick(&[1, 2, 5, 12, 300, 1_024]);
            let names = rng.range(1, 30);
            let tree = any_tree(&mut rng, names, atoms);
            for brackets in [0, 20, 50] {
                let text = Hand {
                    brackets,
                    zeros: 20,
                }
                .text(&mut rng, &tree);
                let told = String::from_utf8_lossy(&text);
                let read = read(&text).map(|read| read.tree);
                assert_eq!(read.as_ref(), Some(&tree), "seed {seed}, {told}");
                longest = longest.max(text.len());
            }
        }
        assert!(longest > LONGEST, "{longest}");
    }
}
