//! Document 01's definitions by brute force, in its order and words, with the layers that document
//! 02, (h) switches off, with the exception that (i) there makes and with the states that (c) there
//! rules out, for small books: every state is tried; and (j)'s closest of them. Nothing is clever here,
//! and nothing is shared with the engine.

use crate::book::{Book, Literal, Rule};
use crate::drive::Drive;

/// `below[i][j]`: a path of one or more arrows leads from layer i to layer j. Paths through a layer
/// that is switched off still count.
pub fn below(book: &Book) -> Vec<Vec<bool>> {
    let layers = usize::from(book.layers);
    let mut below = vec![vec![false; layers]; layers];
    for arrow in &book.arrows {
        below[usize::from(arrow.earlier)][usize::from(arrow.later)] = true;
    }
    loop {
        let mut added = false;
        for i in 0..layers {
            for j in 0..layers {
                if !below[i][j] && (0..layers).any(|via| below[i][via] && below[via][j]) {
                    below[i][j] = true;
                    added = true;
                }
            }
        }
        if !added {
            return below;
        }
    }
}

/// Whether a rule counts at the driven layer: its layer is that one or below it, and is not switched
/// off. The driven layer may be off too.
fn relevant(below: &[Vec<bool>], rule: &Rule, drive: Drive) -> bool {
    let driven = drive.layer as usize;
    let layer = usize::from(rule.layer);
    (layer == driven || below[layer][driven]) && !drive.is_off(rule.layer)
}

/// Document 02, (i): whether a rule has its head among its own body literals, the same fact with the
/// same sign. Such a rule displaces nothing; all else about it is as document 01 has it.
pub fn leans_on_itself(rule: &Rule) -> bool {
    rule.body.contains(&rule.head)
}

/// Whether each plain literal of the body stands and each negated one does not.
pub fn body_holds(rule: &Rule, state: &[bool]) -> bool {
    rule.body
        .iter()
        .all(|literal| state[usize::from(literal.atom)] != literal.negated)
}

/// The names reached: `positive[f]` for "f", `negative[f]` for "not f".
pub struct Least {
    pub positive: Vec<bool>,
    pub negative: Vec<bool>,
}

impl Least {
    fn has(&self, literal: &Literal) -> bool {
        let atom = usize::from(literal.atom);
        match literal.negated {
            false => self.positive[atom],
            true => self.negative[atom],
        }
    }

    fn add(&mut self, literal: &Literal) {
        let atom = usize::from(literal.atom);
        match literal.negated {
            false => self.positive[atom] = true,
            true => self.negative[atom] = true,
        }
    }
}

/// A book at the driven layer, some of its layers being switched off.
pub struct Driven {
    atoms: usize,
    below: Vec<Vec<bool>>,
    /// The relevant rules, but for the constraints: those displace nothing, are never displaced, reach
    /// no name and make no fact branch.
    rules: Vec<Rule>,
    /// The relevant constraints.
    constraints: Vec<Rule>,
}

impl Driven {
    /// The book must have the driven layer.
    pub fn new(book: &Book, drive: Drive) -> Driven {
        let below = below(book);
        let mut rules = book.rules.clone();
        rules.retain(|rule| relevant(&below, rule, drive));
        let (constraints, rules) = rules.into_iter().partition(Rule::is_constraint);
        Driven {
            atoms: usize::from(book.atoms),
            below,
            rules,
            constraints,
        }
    }

    pub fn atoms(&self) -> u16 {
        self.atoms as u16
    }

    fn is_below(&self, earlier: &Rule, later: &Rule) -> bool {
        self.below[usize::from(earlier.layer)][usize::from(later.layer)]
    }

    /// Whether `later` displaces `earlier` where its body holds: it is of a later layer, has the
    /// opposite head, and does not lean on itself.
    fn may_reject(&self, later: &Rule, earlier: &Rule) -> bool {
        self.is_below(earlier, later)
            && later.head == earlier.head.opposite()
            && !leans_on_itself(later)
    }

    /// Document 01: displaced. Whether the displacing rule is itself displaced plays no part.
    pub fn rejected(&self, rule: &Rule, state: &[bool]) -> bool {
        self.rules
            .iter()
            .any(|other| self.may_reject(other, rule) && body_holds(other, state))
    }

    /// Whether "not f" is a default. Displaced rules count too.
    pub fn default(&self, atom: usize, state: &[bool]) -> bool {
        !self.rules.iter().any(|rule| {
            usize::from(rule.head.atom) == atom && !rule.head.negated && body_holds(rule, state)
        })
    }

    /// Document 01: the names reached.
    pub fn least(&self, state: &[bool]) -> Least {
        let mut least = Least {
            positive: vec![false; self.atoms],
            negative: vec![false; self.atoms],
        };
        for atom in 0..self.atoms {
            least.negative[atom] = self.default(atom, state);
        }
        let undisplaced: Vec<&Rule> = self
            .rules
            .iter()
            .filter(|rule| !self.rejected(rule, state))
            .collect();
        loop {
            let mut added = false;
            for rule in &undisplaced {
                if rule.body.iter().all(|literal| least.has(literal)) && !least.has(&rule.head) {
                    least.add(&rule.head);
                    added = true;
                }
            }
            if !added {
                return least;
            }
        }
    }

    /// Whether document 01 alone would have `state` stable: exactly its names are reached.
    fn settled(&self, state: &[bool]) -> bool {
        let least = self.least(state);
        (0..self.atoms)
            .all(|atom| least.positive[atom] == state[atom] && least.negative[atom] != state[atom])
    }

    /// Document 02, (c): whether the body of a relevant constraint holds in `state`.
    pub fn forbidden(&self, state: &[bool]) -> bool {
        let mut constraints = self.constraints.iter();
        constraints.any(|constraint| body_holds(constraint, state))
    }

    /// Whether `state` is a stable model (documents 01 and 02: a stable state).
    pub fn stable(&self, state: &[bool]) -> bool {
        self.settled(state) && !self.forbidden(state)
    }

    /// The first ground for branching: whether each atom is negated in some body.
    pub fn negated_in_a_body(&self) -> Vec<bool> {
        let mut negated = vec![false; self.atoms];
        for literal in self.rules.iter().flat_map(|rule| &rule.body) {
            if literal.negated {
                negated[usize::from(literal.atom)] = true;
            }
        }
        negated
    }

    /// The second ground: whether each atom stands, with either sign, in the body of a rule whose
    /// opposite head is the head of a rule of a layer below. A rule that leans on itself gives none.
    pub fn in_a_rejecting_body(&self) -> Vec<bool> {
        let mut rejecting = vec![false; self.atoms];
        for rule in &self.rules {
            if self.rules.iter().any(|lower| self.may_reject(rule, lower)) {
                for literal in &rule.body {
                    rejecting[usize::from(literal.atom)] = true;
                }
            }
        }
        rejecting
    }

    /// Whether each atom branches.
    pub fn branching(&self) -> Vec<bool> {
        let (first, second) = (self.negated_in_a_body(), self.in_a_rejecting_body());
        (0..self.atoms)
            .map(|atom| first[atom] || second[atom])
            .collect()
    }

    /// Document 01: g.
    pub fn branching_count(&self) -> usize {
        self.branching()
            .iter()
            .filter(|&&branches| branches)
            .count()
    }

    /// The stable models in the order of their records: all 2^n states are tried, those in which
    /// an earlier atom does not stand first.
    pub fn stable_models(&self) -> Vec<Vec<bool>> {
        assert!(self.atoms <= 20, "too many atoms to try every state");
        let state = |number: u32| -> Vec<bool> {
            (0..self.atoms)
                .map(|atom| number >> (self.atoms - 1 - atom) & 1 == 1)
                .collect()
        };
        (0..1 << self.atoms)
            .map(state)
            .filter(|state| self.stable(state))
            .collect()
    }

    /// The bytes of the whole listing.
    pub fn listing(&self) -> Vec<u8> {
        let models = self.stable_models();
        let records: Vec<Vec<u8>> = models.iter().map(|model| record(model)).collect();
        listing(self.atoms(), &records)
    }
}

/// Document 02, (j): in how many facts two states differ.
pub fn distance(state: &[bool], other: &[bool]) -> usize {
    let facts = state.iter().zip(other);
    facts.filter(|(stands, other)| stands != other).count()
}

/// Document 02, (j): of stable models in the order of the listing the one that differs from the
/// candidate in the fewest facts, among equals the first, and how many those facts are.
pub fn nearest<'a>(models: &'a [Vec<bool>], candidate: &[bool]) -> Option<(usize, &'a [bool])> {
    let distances = || models.iter().map(|model| distance(model, candidate));
    let fewest = distances().min()?;
    let first = distances().position(|facts| facts == fewest)?;
    Some((fewest, &models[first]))
}

/// The listing with these records, which are in their order.
pub fn listing(atoms: u16, records: &[Vec<u8>]) -> Vec<u8> {
    let length = 11 + records.iter().map(Vec::len).sum::<usize>();
    let mut listing = vec![1];
    listing.extend_from_slice(&(length as u32).to_be_bytes());
    listing.extend_from_slice(&atoms.to_be_bytes());
    listing.extend_from_slice(&(records.len() as u32).to_be_bytes());
    listing.extend(records.iter().flatten());
    listing
}

/// The number of states that a listing's head gives.
pub fn count(listing: &[u8]) -> usize {
    u32::from_be_bytes(listing[7..11].try_into().expect("four bytes")) as usize
}

/// The record of a state: fact f is bit 7 - (f mod 8) of byte f div 8.
pub fn record(state: &[bool]) -> Vec<u8> {
    let mut record = vec![0; state.len().div_ceil(8)];
    for (atom, _) in state.iter().enumerate().filter(|(_, &stands)| stands) {
        record[atom / 8] |= 1 << (7 - atom % 8);
    }
    record
}

/// The state that a record gives. `None` where its length is another, or a spare bit is set.
pub fn state(bytes: &[u8], atoms: u16) -> Option<Vec<bool>> {
    let bit = |atom: usize| {
        bytes
            .get(atom / 8)
            .is_some_and(|byte| byte >> (7 - atom % 8) & 1 == 1)
    };
    let state: Vec<bool> = (0..usize::from(atoms)).map(bit).collect();
    (record(&state) == bytes).then_some(state)
}

#[cfg(test)]
mod tests {
    use super::*;
    use crate::book::{hex, not, plain};
    use crate::drive::at;
    use crate::examples::{starred, Example};
    use crate::reader;
    use crate::rng::{seed, Rng};
    use crate::shapes;

    #[test]
    fn book_b_at_3_has_the_listing_of_document_01() {
        let driven = Driven::new(&reader::read(&shapes::B).unwrap(), at(3));
        assert_eq!(hex(&driven.listing()), "010000000C00030000000120");
        assert_eq!(driven.branching_count(), 2);
    }

    #[test]
    fn starred_examples_have_the_listings_of_documents_01_and_02() {
        for Example {
            book,
            layer,
            records,
            branching,
        } in starred()
        {
            assert_eq!(reader::read(&book.bytes()).as_ref(), Ok(&book));
            let driven = Driven::new(&book, layer.into());
            let mut listing = vec![1, 0, 0, 0, 11 + records.len() as u8, 0, book.atoms as u8];
            listing.extend_from_slice(&(records.len() as u32).to_be_bytes());
            listing.extend_from_slice(records);
            let what = format!("layer {layer}, book {}", hex(&book.bytes()));
            assert_eq!(hex(&driven.listing()), hex(&listing), "{what}");
            assert_eq!(driven.branching_count(), branching, "{what}");
        }
    }

    #[test]
    fn a_rule_leans_on_itself_by_the_same_fact_with_the_same_sign() {
        let leans = |head, body: &[Literal]| {
            leans_on_itself(&Rule {
                layer: 0,
                head,
                body: body.to_vec(),
            })
        };
        for (head, other) in [(plain(0), plain(1)), (not(0), not(1))] {
            assert!(leans(head, &[head]));
            assert!(leans(head, &[other, head]));
            assert!(leans(head, &[head, head.opposite()]));
            assert!(!leans(head, &[]));
            assert!(!leans(head, &[head.opposite()]));
            assert!(!leans(head, &[other, other.opposite()]));
        }
    }

    #[test]
    fn constraints_take_states_away_and_make_no_fact_branch() {
        let choice = Book::new(3, 1)
            .rule(0, plain(0), &[not(1)])
            .rule(0, plain(1), &[not(0)])
            .rule(0, plain(2), &[plain(0)]);
        let records = |book: &Book, off: u32| {
            let driven = Driven::new(book, at(0).off(off));
            let models = driven.stable_models();
            let records: Vec<u8> = models.iter().map(|model| record(model)[0]).collect();
            (records, driven.branching_count())
        };
        assert_eq!(records(&choice, 0), (vec![0x40, 0xA0], 2));
        for (body, left) in [
            (vec![], vec![]),
            (vec![plain(2)], vec![0x40]),
            (vec![not(2)], vec![0xA0]),
            (vec![plain(0), not(2)], vec![0x40, 0xA0]),
            (vec![plain(2), not(2)], vec![0x40, 0xA0]),
        ] {
            let book = choice.clone().never(0, &body);
            assert_eq!(records(&book, 0), (left, 2), "{body:?}");
            assert_eq!(records(&book, 1), (vec![0x00], 0), "{body:?}");
        }
    }

    /// Document 01's remark on branching facts, the rise of the records and k <= 2^g, which hold
    /// of every book, tried on many.
    #[test]
    fn stable_models_differ_on_branching_atoms_and_their_records_rise() {
        let seed = seed();
        let mut rng = Rng::named(seed, "branching");
        let mut several = 0;
        for turn in 0..1_000 {
            let book = match turn % 2 {
                0 => shapes::small(&mut rng),
                _ => shapes::choices(&mut rng),
            };
            for layer in 0..book.layers {
                let driven = Driven::new(&book, layer.into());
                let models = driven.stable_models();
                let told = format!("seed {seed}, layer {layer}, book {}", hex(&book.bytes()));
                for (i, model) in models.iter().enumerate() {
                    for earlier in &models[..i] {
                        assert!(record(earlier) < record(model), "{told}");
                        let differs = |atom| earlier[atom] != model[atom];
                        let branching = driven.branching();
                        assert!(
                            (0..driven.atoms).any(|f| branching[f] && differs(f)),
                            "{told}"
                        );
                    }
                }
                assert!(models.len() <= 1 << driven.branching_count(), "{told}");
                several += usize::from(models.len() > 1);
            }
        }
        assert!(several > 300, "only {several} books with several states");
    }
}
