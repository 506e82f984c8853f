//! Wrong readings of what a stable state is, document 01's traps among them. Books that cannot
//! tell them from the right one prove little: random tests count how often they do, and a test
//! of a trap shows that its book does.

use crate::book::{Arrow, Book, Rule};
use crate::drive::Drive;
use crate::oracle::{self, body_holds, leans_on_itself, Driven};

#[derive(Clone, Copy, Debug, PartialEq, Eq)]
pub enum Misreading {
    /// Rules of one layer displace each other.
    WithinALayer,
    /// Rules of unrelated layers displace each other.
    UnrelatedLayers,
    /// A layer with a smaller number is displaced by one with a larger.
    LayersByNumber,
    /// Earlier layers displace later ones.
    ArrowsBackwards,
    /// Only what one arrow joins counts, for relevance and for displacement.
    NoPaths,
    /// A displaced rule displaces nothing.
    DisplacedDisplaceNothing,
    /// Displaced rules are dropped before the defaults are taken.
    DefaultsWithoutDisplaced,
    /// A plain head takes the default away though its body does not hold.
    DefaultsWithoutBodies,
    /// A body that holds counts as reached, so that circles of plain bodies do.
    CirclesReach,
    /// The rules are gone through once.
    OnePass,
    /// "f" and "not f" may both be reached.
    BothSigns,
    /// Only the reached negations are compared.
    NegationsOnly,
    /// Rules of every layer count.
    AllLayersRelevant,
    /// Only the driven layer's rules count.
    DrivenLayerOnly,
    /// No layer is switched off.
    SetIgnored,
    /// The set names the layers that stay.
    SetOfThoseThatStay,
    /// The first layer has the highest bit, and the last one bit 0.
    SetTurnedRound,
    /// Paths through a layer that is switched off do not count.
    PathsCut,
    /// What lies below a layer that is switched off is off with it.
    OffWithAllBelow,
    /// The driven layer stays.
    DrivenLayerNeverOff,
    /// Rules of a layer that is switched off still displace.
    OffStillDisplace,
    /// They still count against defaults.
    OffAgainstDefaults,
    /// A rule that leans on itself displaces as any other.
    LeaningDisplaces,
    /// A rule leans on itself by its fact, whatever the sign.
    LeansByTheFact,
    /// It leans on itself only where its body says nothing else.
    LeansByTheWholeBody,
    /// No rule of a layer displaces where one of them leans on itself.
    LeaningShutsItsLayer,
    /// Constraints rule no state out.
    ConstraintsIgnored,
    /// A relevant rule of a later layer displaces a constraint where its body holds.
    ConstraintsDisplaced,
    /// Constraints of layers that are not relevant rule states out too.
    ConstraintsOfEveryLayer,
    /// Constraints of layers that are switched off do so too.
    ConstraintsOfOffLayers,
    /// Only the driven layer's constraints do.
    ConstraintsOfTheDrivenLayer,
    /// Constraints are tested on the setting of the branching facts, in which no other fact stands.
    ConstraintsOnTheSetting,
    /// A constraint's negated literals are passed over.
    ConstraintsByPlainLiterals,
    /// A constraint with an empty body rules nothing out.
    EmptyConstraintsIgnored,
}

pub use Misreading::*;

pub const EVERY: [Misreading; 34] = [
    WithinALayer,
    UnrelatedLayers,
    LayersByNumber,
    ArrowsBackwards,
    NoPaths,
    DisplacedDisplaceNothing,
    DefaultsWithoutDisplaced,
    DefaultsWithoutBodies,
    CirclesReach,
    OnePass,
    BothSigns,
    NegationsOnly,
    AllLayersRelevant,
    DrivenLayerOnly,
    SetIgnored,
    SetOfThoseThatStay,
    SetTurnedRound,
    PathsCut,
    OffWithAllBelow,
    DrivenLayerNeverOff,
    OffStillDisplace,
    OffAgainstDefaults,
    LeaningDisplaces,
    LeansByTheFact,
    LeansByTheWholeBody,
    LeaningShutsItsLayer,
    ConstraintsIgnored,
    ConstraintsDisplaced,
    ConstraintsOfEveryLayer,
    ConstraintsOfOffLayers,
    ConstraintsOfTheDrivenLayer,
    ConstraintsOnTheSetting,
    ConstraintsByPlainLiterals,
    EmptyConstraintsIgnored,
];

/// Those of the set of layers that are switched off.
pub const OF_THE_SET: &[Misreading] = EVERY.split_at(22).0.split_at(14).1;

/// Those of rules that lean on themselves.
pub const OF_LEANING: &[Misreading] = EVERY.split_at(26).0.split_at(22).1;

/// Those of constraints.
pub const OF_CONSTRAINTS: &[Misreading] = EVERY.split_at(26).1;

/// A drive of a book, misread.
pub struct Misread {
    misreading: Misreading,
    atoms: usize,
    /// `displaces[i][j]`: rules of layer j displace those of layer i.
    displaces: Vec<Vec<bool>>,
    rules: Vec<Rule>,
    /// Those that count but for the set.
    with_off: Vec<Rule>,
    /// The constraints that rule states out.
    constraints: Vec<Rule>,
    branching: Vec<bool>,
}

impl Misread {
    /// The set must be of the book's layers.
    pub fn new(book: &Book, drive: Drive, misreading: Misreading) -> Misread {
        let layers = usize::from(book.layers);
        let layer = drive.layer as usize;
        let mut below = oracle::below(book);
        if misreading == NoPaths {
            let arrow = |i, j| Arrow {
                earlier: i as u8,
                later: j as u8,
            };
            below = table(layers, |i, j| book.arrows.contains(&arrow(i, j)));
        }
        if misreading == PathsCut {
            below = uncut(book, drive);
        }
        let displaces = table(layers, |i, j| match misreading {
            WithinALayer => below[i][j] || i == j,
            UnrelatedLayers => i != j && !below[j][i],
            LayersByNumber => i < j,
            ArrowsBackwards => below[j][i],
            _ => below[i][j],
        });
        let mut with_off = book.rules.clone();
        with_off.retain(|rule| {
            let own = usize::from(rule.layer);
            match misreading {
                AllLayersRelevant => true,
                DrivenLayerOnly => own == layer,
                _ => own == layer || below[own][layer],
            }
        });
        let off = |rule: &Rule| {
            let own = usize::from(rule.layer);
            match misreading {
                SetIgnored => false,
                SetOfThoseThatStay => !drive.is_off(rule.layer),
                SetTurnedRound => drive.is_off(book.layers - 1 - rule.layer),
                OffWithAllBelow => (0..book.layers).any(|at| {
                    drive.is_off(at) && (at == rule.layer || below[own][usize::from(at)])
                }),
                DrivenLayerNeverOff => own != layer && drive.is_off(rule.layer),
                _ => drive.is_off(rule.layer),
            }
        };
        let mut rules = with_off.clone();
        rules.retain(|rule| !off(rule));
        let constraints = match misreading {
            ConstraintsIgnored => Vec::new(),
            ConstraintsOfEveryLayer => constraints(&book.rules, |rule| !off(rule)),
            ConstraintsOfOffLayers => constraints(&with_off, |_| true),
            ConstraintsOfTheDrivenLayer => {
                constraints(&rules, |rule| usize::from(rule.layer) == layer)
            }
            EmptyConstraintsIgnored => constraints(&rules, |rule| !rule.body.is_empty()),
            _ => constraints(&rules, |_| true),
        };
        rules.retain(|rule| !rule.is_constraint());
        with_off.retain(|rule| !rule.is_constraint());
        Misread {
            misreading,
            atoms: usize::from(book.atoms),
            displaces,
            rules,
            with_off,
            constraints,
            branching: Driven::new(book, drive).branching(),
        }
    }

    /// Whether a constraint passes for one whose body holds.
    fn bans(&self, constraint: &Rule, state: &[bool]) -> bool {
        let stands = |atom: u16| {
            let atom = usize::from(atom);
            state[atom] && (self.misreading != ConstraintsOnTheSetting || self.branching[atom])
        };
        let passed_over = |negated| negated && self.misreading == ConstraintsByPlainLiterals;
        let mut body = constraint.body.iter();
        body.all(|at| passed_over(at.negated) || stands(at.atom) != at.negated)
    }

    fn forbidden(&self, state: &[bool]) -> bool {
        let displaced = |constraint: &Rule| {
            let above = &self.displaces[usize::from(constraint.layer)];
            let mut above = self
                .rules
                .iter()
                .filter(|rule| above[usize::from(rule.layer)]);
            self.misreading == ConstraintsDisplaced && above.any(|rule| body_holds(rule, state))
        };
        let mut constraints = self.constraints.iter();
        constraints.any(|constraint| self.bans(constraint, state) && !displaced(constraint))
    }

    /// Whether a rule passes for one that leans on itself.
    fn leans(&self, rule: &Rule) -> bool {
        let body = &rule.body;
        match self.misreading {
            LeaningDisplaces => false,
            LeansByTheFact => body.iter().any(|literal| literal.atom == rule.head.atom),
            LeansByTheWholeBody => leans_on_itself(rule) && body.iter().all(|at| *at == rule.head),
            LeaningShutsItsLayer => {
                let mut leaning = self.rules.iter().filter(|other| leans_on_itself(other));
                leaning.any(|other| other.layer == rule.layer)
            }
            _ => leans_on_itself(rule),
        }
    }

    fn displaced(&self, rule: &Rule, state: &[bool]) -> bool {
        let displacing = match self.misreading {
            OffStillDisplace => &self.with_off,
            _ => &self.rules,
        };
        displacing.iter().any(|other| {
            self.displaces[usize::from(rule.layer)][usize::from(other.layer)]
                && other.head == rule.head.opposite()
                && body_holds(other, state)
                && !self.leans(other)
                && !(self.misreading == DisplacedDisplaceNothing && self.displaced(other, state))
        })
    }

    /// Whether `state` passes for stable.
    pub fn stable(&self, state: &[bool]) -> bool {
        !self.forbidden(state) && self.settled(state)
    }

    fn settled(&self, state: &[bool]) -> bool {
        let wrong = self.misreading;
        let live: Vec<&Rule> = self
            .rules
            .iter()
            .filter(|rule| !self.displaced(rule, state))
            .collect();
        // [plain, negated]
        let mut reached = vec![[false, true]; self.atoms];
        let counting = match wrong {
            DefaultsWithoutDisplaced => live.clone(),
            OffAgainstDefaults => self.with_off.iter().collect(),
            _ => self.rules.iter().collect(),
        };
        for rule in counting {
            if !rule.head.negated && (body_holds(rule, state) || wrong == DefaultsWithoutBodies) {
                reached[usize::from(rule.head.atom)][1] = false;
            }
        }
        loop {
            let before = reached.clone();
            for rule in &live {
                let has = |at: &crate::book::Literal| {
                    reached[usize::from(at.atom)][usize::from(at.negated)]
                };
                if rule.body.iter().all(has) || (wrong == CirclesReach && body_holds(rule, state)) {
                    reached[usize::from(rule.head.atom)][usize::from(rule.head.negated)] = true;
                }
            }
            if reached == before || wrong == OnePass {
                break;
            }
        }
        reached
            .iter()
            .zip(state)
            .all(|(name, &stands)| match wrong {
                BothSigns => name[usize::from(!stands)],
                NegationsOnly => name[1] != stands,
                _ => *name == [stands, !stands],
            })
    }
}

/// The constraints among the rules of which `counts` is true.
fn constraints(rules: &[Rule], counts: impl Fn(&Rule) -> bool) -> Vec<Rule> {
    let constraints = rules.iter().filter(|rule| rule.is_constraint());
    constraints.filter(|rule| counts(rule)).cloned().collect()
}

/// `below` over such paths alone as have no layer between their ends that is switched off.
fn uncut(book: &Book, drive: Drive) -> Vec<Vec<bool>> {
    let layers = usize::from(book.layers);
    let mut below = vec![vec![false; layers]; layers];
    for arrow in &book.arrows {
        below[usize::from(arrow.earlier)][usize::from(arrow.later)] = true;
    }
    for via in (0..layers).filter(|&via| !drive.is_off(via as u8)) {
        below = table(layers, |i, j| {
            below[i][j] || (below[i][via] && below[via][j])
        });
    }
    below
}

fn table(size: usize, entry: impl Fn(usize, usize) -> bool) -> Vec<Vec<bool>> {
    (0..size)
        .map(|i| (0..size).map(|j| entry(i, j)).collect())
        .collect()
}
