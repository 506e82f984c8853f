//! Books of any size whose stable states are known from how they are made: for listings that are
//! too large for the oracle, and for the benchmark.

use crate::book::{not, plain, Book, Literal, Rule, BYTE_ATOMS, FALSITY, MAX_ATOMS};
use crate::expected::{counts, place_of};
use crate::oracle::{self, body_holds, Driven};
use crate::rng::Rng;
use crate::shapes::{all_arrows, hidden_order, Planted};
use std::ops::Range;

/// A book at a driven layer, with what its listing has.
pub struct Known {
    pub book: Book,
    pub layer: u8,
    /// Document 01: g.
    pub branching: usize,
    /// Document 01: k.
    pub count: usize,
    /// The stable states in some order, by number.
    pub(crate) state: Box<dyn Fn(usize) -> Vec<bool>>,
}

impl Known {
    /// The first record of the listing, if there is one.
    pub fn first(&self) -> Option<Vec<u8>> {
        let records = (0..self.count).map(|number| oracle::record(&(self.state)(number)));
        records.min()
    }

    /// The record of the state closest to a candidate, if there is one, and in how many facts it differs:
    /// among equals the first of the listing.
    pub fn nearest(&self, candidate: &[bool]) -> Option<(usize, Vec<u8>)> {
        let states = (0..self.count).map(|number| (self.state)(number));
        let measured =
            |state: Vec<bool>| (oracle::distance(&state, candidate), oracle::record(&state));
        states.map(measured).min()
    }

    pub fn listing(&self) -> Vec<u8> {
        let mut records: Vec<Vec<u8>> = (0..self.count)
            .map(|number| oracle::record(&(self.state)(number)))
            .collect();
        records.sort();
        oracle::listing(self.book.atoms, &records)
    }

    /// The book with one of its stable states.
    pub fn planted(&self, number: usize) -> Planted {
        Planted {
            book: self.book.clone(),
            layer: self.layer,
            state: (self.state)(number),
        }
    }

    /// What `lesson_list` answers.
    pub fn answer(&self) -> u64 {
        counts(self.branching, self.count)
    }

    /// What `lesson_place` answers, for each fact.
    pub fn places(&self) -> Vec<u64> {
        let mut standing = vec![0; self.book.atoms.into()];
        for number in 0..self.count {
            for (standing, stands) in standing.iter_mut().zip((self.state)(number)) {
                *standing += usize::from(stands);
            }
        }
        let place = |standing| place_of(self.branching, standing, self.count);
        standing.into_iter().map(place).collect()
    }
}

/// The facts of a book with few, and of one with many each eleventh and the last.
pub fn some_facts(atoms: u16) -> Vec<u16> {
    let step = if atoms <= BYTE_ATOMS { 1 } else { 11 };
    let mut facts: Vec<u16> = (0..atoms - 1).step_by(step).collect();
    facts.push(atoms - 1);
    facts
}

pub(crate) fn bit(number: usize, at: usize) -> bool {
    number >> at & 1 == 1
}

/// "p if not q" and "q if not p" so many times, in one layer; and "p if not q" alone, `lone` times.
pub fn pairs(choices: u16, lone: u16) -> Known {
    let mut book = Book::new((2 * (choices + lone)).max(1), 1);
    for at in 0..choices + lone {
        let (p, q) = (2 * at, 2 * at + 1);
        book = book.rule(0, plain(p), &[not(q)]);
        if at < choices {
            book = book.rule(0, plain(q), &[not(p)]);
        }
    }
    let atoms = usize::from(book.atoms);
    Known {
        book,
        layer: 0,
        branching: usize::from(2 * choices + lone),
        count: 1 << choices,
        state: Box::new(move |number| {
            let mut state = vec![false; atoms];
            for at in 0..usize::from(choices) {
                state[2 * at + usize::from(bit(number, at))] = true;
            }
            for at in usize::from(choices)..usize::from(choices + lone) {
                state[2 * at] = true;
            }
            state
        }),
    }
}

/// The same states without a negated body: p and q, and above them "not p if q" and "not q if p";
/// or p, and above it "not p if q" alone.
pub fn displacing_pairs(choices: u16, lone: u16) -> Known {
    let Known { book, state, .. } = pairs(choices, lone);
    let mut displacing = Book::new(book.atoms, 2).arrow(1, 0);
    for at in 0..choices + lone {
        let (p, q) = (2 * at, 2 * at + 1);
        displacing = displacing
            .rule(1, plain(p), &[])
            .rule(0, not(p), &[plain(q)]);
        if at < choices {
            displacing = displacing
                .rule(1, plain(q), &[])
                .rule(0, not(q), &[plain(p)]);
        }
    }
    Known {
        book: displacing,
        layer: 0,
        branching: usize::from(2 * choices + lone),
        count: 1 << choices,
        state,
    }
}

/// A fact that may stand or not, `choice`, and a helper that stands with it: a quarrel about the helper
/// in layer 0, where the choice follows it, and above that the helper as it follows the choice. Only
/// the choice branches. No fact is free without a helper: its own rule would lean on itself, and such
/// a rule settles no quarrel.
pub(crate) fn free_fact(book: Book, choice: u16, helper: u16) -> Book {
    book.rule(0, plain(helper), &[])
        .rule(0, not(helper), &[])
        .rule(0, plain(choice), &[plain(helper)])
        .rule(1, plain(helper), &[plain(choice)])
        .rule(1, not(helper), &[not(choice)])
}

/// Three facts that may stand or not, from `choice` on, and two helpers, from `helper` on, that say in
/// binary how many of them stand: where a book has few facts, these choices take five and not six.
/// Only the three branch.
///
/// Nor can helpers be shared much further. Where every setting of the choices has a state and all that
/// stands in one stands in another, the helpers of the larger are not all in the smaller: its choices
/// are reached over helpers and over choices that do not stand, and would be reached there too. So in
/// states that grow by one choice at a time no two have the same helpers. With 20 choices these are
/// 21, and four helpers have 16 sets: 2^20 states need 25 facts, and do not go into 3 bytes.
pub(crate) fn free_three(book: Book, choice: u16, helper: u16) -> Book {
    let (ones, twos) = (helper, helper + 1);
    let choices = [choice, choice + 1, choice + 2];
    let mut book = book
        .rule(0, plain(ones), &[])
        .rule(0, plain(twos), &[])
        .rule(1, not(ones), &choices.map(not));
    for [one, a, b] in [0, 1, 2].map(|at| [0, 1, 2].map(|by| choices[(at + by) % 3])) {
        book = book
            .rule(1, not(ones), &[not(one), plain(a), plain(b)])
            .rule(1, not(twos), &[not(a), not(b)])
            // It stands with both others, with one of them, and alone.
            .rule(1, plain(one), &[plain(ones), plain(twos)])
            .rule(1, plain(one), &[plain(twos), not(a)])
            .rule(1, plain(one), &[plain(twos), not(b)])
            .rule(1, plain(one), &[plain(ones), not(a), not(b)]);
    }
    book
}

/// So many facts that may stand or not, behind as many helpers, the first of which is `first`; the
/// others do not stand.
pub fn free(choices: u16, first: u16, atoms: u16) -> Known {
    let mut book = Book::new(atoms, 2).arrow(0, 1);
    for helper in first..first + choices {
        book = free_fact(book, helper + choices, helper);
    }
    Known {
        book,
        layer: 1,
        branching: choices.into(),
        count: 1 << choices,
        state: Box::new(move |number| {
            let mut state = vec![false; usize::from(atoms)];
            let (first, choices) = (usize::from(first), usize::from(choices));
            for at in 0..choices {
                state[first + at] = bit(number, at);
                state[first + choices + at] = bit(number, at);
            }
            state
        }),
    }
}

/// Facts that may stand or not, behind their helpers; in front of these facts that say by which number each
/// setting is listed, and behind each other's opposites; and a last fact that stands at some settings.
/// Where the helpers stand alone in a candidate, as many facts differ from every state, and at those
/// settings one more.
pub fn tied(listed_as: &[usize], farther: &[usize]) -> Known {
    let choices = listed_as.len().ilog2() as u16;
    let (choice, opposite) = (2 * choices, 3 * choices);
    let more = 4 * choices;
    let known = free(choices, choices, more + 1);
    let (mut book, mut states) = (known.book, Vec::new());
    for (number, &listed) in listed_as.iter().enumerate() {
        let body: Vec<Literal> = (0..choices)
            .map(|at| Literal {
                atom: choice + at,
                negated: !bit(number, at.into()),
            })
            .collect();
        let says = (0..choices).map(|at| match bit(listed, (choices - 1 - at).into()) {
            true => at,
            false => opposite + at,
        });
        let mut state = (known.state)(number);
        for atom in says.chain(farther.contains(&number).then_some(more)) {
            book = book.rule(1, plain(atom), &body);
            state[usize::from(atom)] = true;
        }
        states.push(state);
    }
    Known {
        book,
        state: Box::new(move |number| states[number].clone()),
        ..known
    }
}

/// How the first facts follow the free ones, and so how the records' order lies to an order in
/// which a search may set these.
#[derive(Clone, Copy, Debug)]
pub struct Following {
    /// The first follows the last free fact, and so on.
    pub turned_round: bool,
    /// A follower stands where the fact does not.
    pub opposite: bool,
}

pub const EVERY_FOLLOWING: [Following; 4] = [
    Following {
        turned_round: false,
        opposite: false,
    },
    Following {
        turned_round: false,
        opposite: true,
    },
    Following {
        turned_round: true,
        opposite: false,
    },
    Following {
        turned_round: true,
        opposite: true,
    },
];

/// The last facts may stand or not, in front of these are their helpers, and the first facts,
/// `followers` of them, follow the last ones.
pub fn followed(choices: u16, followers: u16, atoms: u16, following: Following) -> Known {
    let first = atoms - choices;
    let Known {
        mut book,
        layer,
        branching,
        count,
        state,
    } = free(choices, first - choices, atoms);
    let followed = move |follower: u16| match following.turned_round {
        true => atoms - 1 - follower,
        false => first + follower,
    };
    for follower in 0..followers {
        let literal = Literal {
            atom: followed(follower),
            negated: following.opposite,
        };
        book = book.rule(1, plain(follower), &[literal]);
    }
    Known {
        book,
        layer,
        branching,
        count,
        state: Box::new(move |number| {
            let mut state = state(number);
            for follower in 0..followers {
                let stands = state[usize::from(followed(follower))];
                state[usize::from(follower)] = stands != following.opposite;
            }
            state
        }),
    }
}

/// The last facts may stand or not, behind their helpers, and the first ones follow them so that a search which sets these
/// one after the other, the last one fastest, comes to records before and after all others in turn.
pub fn front_and_end(choices: u16, atoms: u16) -> Known {
    let first = atoms - choices;
    let last = atoms - 1;
    let known = free(choices, first - choices, atoms);
    let mut book = known.book.rule(1, plain(0), &[plain(last)]);
    for atom in 1..choices {
        let choice = first + atom - 1;
        book = book
            .rule(1, plain(atom), &[plain(choice), plain(last)])
            .rule(1, plain(atom), &[not(choice), not(last)]);
    }
    let state = known.state;
    Known {
        book,
        state: Box::new(move |number| {
            let mut state = state(number);
            state[0] = state[usize::from(last)];
            for atom in 1..usize::from(choices) {
                state[atom] = state[usize::from(first) + atom - 1] == state[usize::from(last)];
            }
            state
        }),
        ..known
    }
}

/// Exactly `count` states, two at least: the first facts, read as a number, are below it. The next
/// fact stands in no state and rules the others out, and behind it are the helpers of the first.
pub fn counted(count: usize, atoms: u16) -> Known {
    let choices = (count - 1).ilog2() as u16 + 1;
    let stop = choices;
    let mut book = Book::new(atoms, 2).arrow(0, 1);
    for atom in 0..choices {
        book = free_fact(book, atom, stop + 1 + atom);
    }
    let at = move |atom: u16| usize::from(choices - 1 - atom);
    // A number is too large if it is equal to the largest one up to a fact that stands only in it.
    let too_large = |atom: u16| -> Vec<Literal> {
        let equal = (0..atom).map(|before| Literal {
            atom: before,
            negated: !bit(count - 1, at(before)),
        });
        equal.chain([plain(atom), not(stop)]).collect()
    };
    for atom in (0..choices).filter(|&atom| !bit(count - 1, at(atom))) {
        book = book.rule(1, plain(stop), &too_large(atom));
    }
    Known {
        book,
        layer: 1,
        branching: usize::from(choices) + usize::from(!count.is_power_of_two()),
        count,
        state: Box::new(move |number| {
            let mut state = vec![false; usize::from(atoms)];
            for atom in 0..choices {
                state[usize::from(atom)] = bit(number, at(atom));
                state[usize::from(stop + 1 + atom)] = bit(number, at(atom));
            }
            state
        }),
    }
}

/// So many branching facts, and one stable state: all of them stand, or none does. A search that
/// sets them one way first comes to one of the two at the very end.
pub fn single(branching: u16, stand: bool) -> Known {
    let mut book = Book::new(branching + 1, 1);
    for atom in 0..branching {
        book = book.rule(0, plain(branching), &[not(atom), plain(branching)]);
        if stand {
            book = book.rule(0, plain(atom), &[]);
        }
    }
    Known {
        book,
        layer: 0,
        branching: branching.into(),
        count: 1,
        state: Box::new(move |_| {
            (0..=branching)
                .map(|atom| stand && atom < branching)
                .collect()
        }),
    }
}

/// The same book with a quarrel about one fact more, and so without a stable state.
pub fn quarrelled(known: Known) -> Known {
    let (atom, layer) = (known.book.atoms, known.layer);
    let mut book = known
        .book
        .rule(layer, plain(atom), &[])
        .rule(layer, not(atom), &[]);
    book.atoms += 1;
    Known {
        book,
        count: 0,
        ..known
    }
}

/// Books with more than 20 branching facts, on both grounds, with states and without.
pub fn too_many_branching() -> [Known; 6] {
    [
        pairs(10, 1),
        displacing_pairs(10, 1),
        single(21, true),
        quarrelled(pairs(11, 0)),
        pairs(BYTE_ATOMS / 2, 0),
        pairs(MAX_ATOMS / 2, 0),
    ]
}

/// The same book with other numbers for its facts, taken at random among so many.
pub fn scattered(rng: &mut Rng, known: Known, atoms: u16) -> Known {
    let mut numbers: Vec<u16> = (0..atoms).collect();
    rng.shuffle(&mut numbers);
    numbers.truncate(known.book.atoms.into());
    let mut book = known.book;
    book.atoms = atoms;
    for rule in &mut book.rules {
        let heads = [&mut rule.head].into_iter();
        for literal in heads.chain(&mut rule.body) {
            if *literal != FALSITY {
                literal.atom = numbers[usize::from(literal.atom)];
            }
        }
    }
    let state = known.state;
    Known {
        book,
        state: Box::new(move |number| {
            let mut scattered = vec![false; atoms.into()];
            for (&number, stands) in numbers.iter().zip(state(number)) {
                scattered[usize::from(number)] = stands;
            }
            scattered
        }),
        ..known
    }
}

/// A junction: 1,024 rules and 20 branching facts, of which so many may stand or not, and the others never
/// do; all other facts but the last follow from these and from each other, and all of them are scattered.
pub fn junction(rng: &mut Rng, choices: u16, atoms: u16) -> Known {
    let known = chosen(choices, 20);
    let (first, branching) = (known.book.atoms, choices..choices + 20);
    let mut book = known.book;
    book.atoms = atoms;
    let mut follows: Vec<Rule> = Vec::new();
    for at in 0..1_024 - book.rules.len() {
        let atom = first + at as u16 % (atoms - 1 - first);
        let choice = Literal {
            atom: rng.range(branching.start.into(), usize::from(branching.end) - 1) as u16,
            negated: rng.chance(70),
        };
        follows.push(Rule {
            layer: known.layer,
            head: plain(atom),
            body: vec![plain(rng.below(atom.into()) as u16), choice],
        });
    }
    book.rules.extend(follows.iter().cloned());
    rng.shuffle(&mut book.rules);
    follows.sort_by_key(|rule| rule.head.atom);
    let state = known.state;
    let known = Known {
        book,
        state: Box::new(move |number| {
            let mut state = state(number);
            state.resize(atoms.into(), false);
            for rule in &follows {
                let stands = body_holds(rule, &state);
                state[usize::from(rule.head.atom)] |= stands;
            }
            state
        }),
        ..known
    };
    scattered(rng, known, atoms)
}

/// The same book with one fact more, which has no rule and stands in no state.
pub fn spared(known: Known) -> Known {
    let atoms = known.book.atoms + 1;
    widened(known, atoms)
}

/// The same book with so many facts: those behind its own have no rule and stand in no state.
pub fn widened(known: Known, atoms: u16) -> Known {
    let Known {
        mut book, state, ..
    } = known;
    book.atoms = atoms;
    Known {
        book,
        state: Box::new(move |number| {
            let mut state = state(number);
            state.resize(atoms.into(), false);
            state
        }),
        ..known
    }
}

/// So many branching facts behind the helpers of the first `choices`, which may stand or not; the
/// others never do.
pub fn chosen(choices: u16, branching: u16) -> Known {
    let last = choices + branching;
    let known = free(choices, 0, last + 1);
    let mut book = known.book;
    for atom in 2 * choices..last {
        book = book.rule(1, plain(last), &[not(atom), plain(last)]);
    }
    Known {
        book,
        branching: branching.into(),
        ..known
    }
}

/// Ten branching facts and so many rules, eight at least: four choices, and facts that follow from
/// these and from each other.
pub fn sized(rng: &mut Rng, rules: usize, atoms: u16) -> Known {
    const CHOICES: u16 = 4;
    const BRANCHING: u16 = 10;
    let mut book = Book::new(atoms, 1);
    for at in 0..CHOICES {
        let (p, q) = (2 * at, 2 * at + 1);
        // The last two have no rule and never stand.
        book = book
            .rule(0, plain(p), &[not(q), not(8)])
            .rule(0, plain(q), &[not(p), not(9)]);
    }
    while book.rules.len() < rules {
        let atom = rng.range(BRANCHING.into(), usize::from(atoms) - 1);
        let before = rng.below(atom) as u16;
        let choice = Literal {
            atom: rng.below(BRANCHING.into()) as u16,
            negated: rng.chance(70),
        };
        book = book.rule(0, plain(atom as u16), &[plain(before), choice]);
    }
    rng.shuffle(&mut book.rules);
    let rules = book.rules.clone();
    Known {
        book,
        layer: 0,
        branching: BRANCHING.into(),
        count: 1 << CHOICES,
        state: Box::new(move |number| {
            let mut state = vec![false; atoms.into()];
            for at in 0..usize::from(CHOICES) {
                state[2 * at + usize::from(bit(number, at))] = true;
            }
            for atom in BRANCHING..atoms {
                let mut about = rules.iter().filter(|rule| rule.head.atom == atom);
                state[usize::from(atom)] = about.any(|rule| body_holds(rule, &state));
            }
            state
        }),
    }
}

/// A small book's facts under other numbers among `atoms`, and facts that follow them over plain
/// bodies. The small book's states are the oracle's.
pub fn spread(rng: &mut Rng, small: &Book, layer: u8, atoms: u16) -> Known {
    let mut numbers: Vec<u16> = (0..atoms).collect();
    rng.shuffle(&mut numbers);
    placed(rng, small, layer, numbers)
}

/// The same among as many facts as there can be, with numbers for the small book's facts that agree in
/// their low bytes, four and four: cut to a byte they would be two facts.
pub fn colliding(rng: &mut Rng, small: &Book, layer: u8) -> Known {
    let low = [rng.below(BYTE_ATOMS.into()), rng.below(BYTE_ATOMS.into())];
    let mut numbers: Vec<u16> = (0..MAX_ATOMS).collect();
    rng.shuffle(&mut numbers);
    let collides = |number: &u16| low.contains(&usize::from(number % BYTE_ATOMS));
    numbers.sort_by_key(|number| !collides(number));
    placed(rng, small, layer, numbers)
}

/// The small book's facts under the first of these numbers, which are all numbers below their number, in
/// some order.
fn placed(rng: &mut Rng, small: &Book, layer: u8, numbers: Vec<u16>) -> Known {
    let atoms = numbers.len() as u16;
    let moved = |literal: &Literal| match *literal == FALSITY {
        true => FALSITY,
        false => Literal {
            atom: numbers[usize::from(literal.atom)],
            ..*literal
        },
    };
    let mut book = Book::new(atoms, small.layers);
    book.arrows = small.arrows.clone();
    for rule in &small.rules {
        let body: Vec<Literal> = rule.body.iter().map(moved).collect();
        book = book.rule(rule.layer, moved(&rule.head), &body);
    }
    // Each follows one that has a number already: a fact of the small book, or a follower.
    let mut follows = vec![None; usize::from(atoms)];
    for at in usize::from(small.atoms)..usize::from(atoms) {
        if rng.chance(50) {
            let before = rng.below(at);
            follows[at] = Some(before);
            book = book.rule(layer, plain(numbers[at]), &[plain(numbers[before])]);
        }
    }
    rng.shuffle(&mut book.rules);
    let driven = Driven::new(small, layer.into());
    let models = driven.stable_models();
    Known {
        book,
        layer,
        branching: driven.branching_count(),
        count: models.len(),
        state: Box::new(move |number| {
            let mut by_place = models[number].clone();
            for &follows in &follows[by_place.len()..] {
                by_place.push(follows.is_some_and(|before: usize| by_place[before]));
            }
            let mut state = vec![false; numbers.len()];
            for (&number, stands) in numbers.iter().zip(by_place) {
                state[usize::from(number)] = stands;
            }
            state
        }),
    }
}

/// A body of 16 literals that says the same.
fn sixteen(body: &[Literal]) -> Vec<Literal> {
    body.iter().copied().cycle().take(16).collect()
}

/// The largest lawful book, 1,024 rules of 16 literals in 32 layers, with `branching` branching
/// facts: choices between two; facts that always stand; facts about which the layers quarrel, over
/// the choices; and facts that follow from all these.
pub fn busy(rng: &mut Rng, branching: u16, atoms: u16) -> Known {
    const BASE: u16 = 15;
    const CONTESTED: u16 = 60;
    let choices = (branching - 1) / 2;
    let base = branching..branching + BASE;
    let contested = base.end..base.end + CONTESTED;
    let order = hidden_order(rng, 32);
    let mut book = Book::new(atoms, 32);
    book.arrows = all_arrows(&order);
    rng.shuffle(&mut book.arrows);
    // The last branching facts have no rule and never stand.
    let never = branching - 1;
    for at in 0..choices {
        let (p, q) = (2 * at, 2 * at + 1);
        let (one, two) = (rng.pick(&order), rng.pick(&order));
        book =
            book.rule(one, plain(p), &sixteen(&[not(q)]))
                .rule(two, plain(q), &sixteen(&[not(p)]));
    }
    for atom in base.clone() {
        let body = sixteen(&[not(never), not(2 * choices)]);
        book = book.rule(rng.pick(&order), plain(atom), &body);
    }
    for atom in contested.clone() {
        let mut layers = order.clone();
        rng.shuffle(&mut layers);
        for &layer in &layers[..8] {
            let mut literal = |atoms: u16| Literal {
                atom: rng.below(atoms.into()) as u16,
                negated: rng.chance(50),
            };
            let body = sixteen(&[literal(branching), literal(branching), literal(branching)]);
            let head = Literal { atom, ..literal(1) };
            book = book.rule(layer, head, &body);
        }
    }
    while book.rules.len() < 1024 {
        let atom = rng.range(contested.end.into(), usize::from(atoms) - 1) as u16;
        let mut body: Vec<Literal> = base.clone().map(plain).collect();
        body[0] = plain(rng.range(base.start.into(), usize::from(atom) - 1) as u16);
        body.push(Literal {
            atom: rng.below(branching.into()) as u16,
            negated: rng.chance(50),
        });
        book = book.rule(rng.pick(&order), plain(atom), &body);
    }
    rng.shuffle(&mut book.rules);
    let layer = order[31];
    let rank = move |layer: u8| order.iter().position(|&other| other == layer);
    let rules = book.rules.clone();
    Known {
        book,
        layer,
        branching: branching.into(),
        count: 1 << choices,
        state: Box::new(move |number| {
            let mut state = vec![false; atoms.into()];
            for at in 0..usize::from(choices) {
                state[2 * at + usize::from(bit(number, at))] = true;
            }
            for atom in base.clone() {
                state[usize::from(atom)] = true;
            }
            for atom in contested.clone() {
                let holding = |rule: &&_| body_holds(rule, &state);
                let about = rules.iter().filter(|rule| rule.head.atom == atom);
                let last = about.filter(holding).max_by_key(|rule| rank(rule.layer));
                state[usize::from(atom)] = last.is_some_and(|rule| !rule.head.negated);
            }
            for atom in contested.end..atoms {
                let mut about = rules.iter().filter(|rule| rule.head.atom == atom);
                state[usize::from(atom)] = about.any(|rule| body_holds(rule, &state));
            }
            state
        }),
    }
}

/// The first facts may stand or not, as `free_fact` has it, with their helpers behind them and bodies
/// of 16 literals: `body` makes those of the quarrel, which hold at every setting.
fn full_free_facts(mut book: Book, choices: u16, mut body: impl FnMut() -> Vec<Literal>) -> Book {
    for atom in 0..choices {
        let helper = choices + atom;
        book = book
            .rule(0, plain(helper), &body())
            .rule(0, not(helper), &body())
            .rule(0, plain(atom), &sixteen(&[plain(helper)]))
            .rule(1, plain(helper), &sixteen(&[plain(atom)]))
            .rule(1, not(helper), &sixteen(&[not(atom)]));
    }
    book
}

/// The state in which the first facts are like the bits of a number, their helpers with them, and of
/// the others those of `standing` stand.
fn chosen_state(atoms: u16, choices: u16, number: usize, standing: &Range<u16>) -> Vec<bool> {
    (0..atoms)
        .map(|atom| match atom < 2 * choices {
            true => bit(number, (atom % choices).into()),
            false => standing.contains(&atom),
        })
        .collect()
}

/// `shapes::worst_order` with choices: each setting in which the chain starts goes through 1,024
/// rules of 16 literals some 200 times, or as often as the facts allow.
pub fn chained(choices: u16, atoms: u16) -> Known {
    let last = atoms - 1;
    let full = |literal| {
        let mut body = vec![not(last); 15];
        body.push(literal);
        body
    };
    let book = Book::new(atoms, 2).arrow(0, 1);
    let mut chain = full_free_facts(book, choices, || full(not(last)));
    // The rules have room for a chain of so many facts.
    let room = 1_024 - chain.rules.len() as u16;
    let start = last.saturating_sub(room).max(2 * choices);
    let links = (start + 1..last).len();
    while chain.rules.len() + links + 1 < 1024 {
        chain = chain.rule(0, plain(last), &full(plain(last)));
    }
    for atom in (start + 1..last).rev() {
        chain = chain.rule(0, plain(atom), &full(plain(atom - 1)));
    }
    let book = chain.rule(0, plain(start), &full(not(last)));
    Known {
        book,
        layer: 1,
        branching: usize::from(choices) + 1,
        count: 1 << choices,
        state: Box::new(move |number| chosen_state(atoms, choices, number, &(start..last))),
    }
}

/// Facts that may stand or not behind their helpers, the first of which is `first`, and 1,024 rules, most
/// of which lean on themselves: they have 16 literals, and say the opposite of rules below them. They
/// change neither the states nor the branching facts.
pub fn leaning(rng: &mut Rng, choices: u16, first: u16, atoms: u16) -> Known {
    let known = free(choices, first, atoms);
    let mut book = known.book;
    let any = |rng: &mut Rng| plain(first + rng.below((2 * choices).into()) as u16);
    while book.rules.len() < 1024 {
        // "not helper" has a rule below, and so has "choice". A helper that is negated would branch.
        let fact = any(rng);
        let head = match fact.atom < first + choices {
            true => fact,
            false => fact.opposite(),
        };
        let mut body: Vec<Literal> = (0..16).map(|_| any(rng)).collect();
        for literal in &mut body {
            if literal.atom >= first + choices && rng.chance(50) {
                *literal = literal.opposite();
            }
        }
        body[rng.below(16)] = head;
        book = book.rule(1, head, &body);
    }
    rng.shuffle(&mut book.rules);
    Known { book, ..known }
}

/// What becomes of each setting of a slow book at its end, by the rules about `DOUBTED`.
#[derive(Clone, Copy, Debug, PartialEq, Eq)]
pub enum Ending {
    /// A stable state.
    Stable,
    /// A stable state, though displaced rules speak for two facts that do not stand: only a second
    /// filling shows that this is by default all the same.
    Doubtful,
    /// None: only the comparison after the last pass shows it.
    Unstable,
}

/// What the slow books have in common.
#[derive(Clone, Copy)]
pub struct Slow {
    /// Facts that may stand or not. They are the first ones.
    pub choices: u16,
    pub ending: Ending,
    pub atoms: u16,
}

impl Slow {
    /// The last three facts stand in no state. The very last does not branch.
    fn doubted(self) -> [u16; 2] {
        [self.atoms - 3, self.atoms - 2]
    }

    fn stop(self) -> u16 {
        self.atoms - 1
    }

    /// How many rules there can be beside those of the choices, of the base and of the ending.
    fn room(self) -> u16 {
        1_024 - 5 * self.choices - 1 - 5
    }
}

/// Adds the rules that end each setting so: each of two facts is denied where the other does not
/// stand, and their own rules are displaced with that.
fn ended(book: Book, slow: Slow) -> Book {
    let [one, other] = slow.doubted();
    let denied = |book: Book, body: &[Literal]| {
        book.rule(0, plain(one), body)
            .rule(0, plain(other), body)
            .rule(1, not(one), &[not(other)])
            .rule(1, not(other), &[not(one)])
    };
    match slow.ending {
        Ending::Stable => book,
        Ending::Doubtful => denied(book, &[plain(slow.stop())]),
        // Where neither stands this is not by default, and else the rule of one that stands is
        // displaced.
        Ending::Unstable => denied(book, &[]).rule(1, not(one), &[plain(one)]),
    }
}

/// A slow book: the first facts may stand or not, with their helpers behind them, one other branches,
/// and those of `standing` follow at every setting. The ending may take two branching facts more.
fn slow_book(book: Book, slow: Slow, standing: Range<u16>) -> Known {
    let Slow {
        choices,
        ending,
        atoms,
    } = slow;
    Known {
        book,
        layer: 1,
        branching: usize::from(choices) + 1 + 2 * usize::from(ending != Ending::Stable),
        count: match ending {
            Ending::Stable | Ending::Doubtful => 1 << choices,
            Ending::Unstable => 0,
        },
        state: Box::new(move |number| chosen_state(atoms, choices, number, &standing)),
    }
}

/// A rule with a plain head, by the last literals of its body.
type Link = (u16, Vec<Literal>);

/// 1,024 rules of 16 literals, of both signs in no order: the links, over which a range of `longest` facts
/// at most follows one by one, and rules about the last fact, which fail at their last literals.
fn linked(
    rng: &mut Rng,
    slow: Slow,
    longest: u16,
    failing: &[Literal],
    links: impl Fn(Range<u16>) -> Vec<Link>,
) -> Known {
    // One that has no rule at all, and before the range one that always stands.
    let (never, end) = (2 * slow.choices, slow.doubted()[0]);
    let base = (never + 1).max((end - 1).saturating_sub(longest));
    let links = links(base + 1..end);
    let mut full = |last: &[Literal]| -> Vec<Literal> {
        let mut body: Vec<Literal> = (last.len()..16)
            .map(|_| rng.pick(&[plain(base), not(never)]))
            .collect();
        body.extend(last);
        body
    };
    let book = Book::new(slow.atoms, 2)
        .arrow(0, 1)
        .rule(0, plain(base), &[]);
    let mut book = ended(full_free_facts(book, slow.choices, || full(&[])), slow);
    while book.rules.len() + links.len() < 1024 {
        book = book.rule(0, plain(slow.stop()), &full(failing));
    }
    for (atom, last) in links {
        book = book.rule(0, plain(atom), &full(&last));
    }
    slow_book(book, slow, base..end)
}

/// The slowest book that we know for an engine which makes passes over the rules: each setting adds
/// one fact a pass over a chain that stands in reverse.
pub fn slowest(rng: &mut Rng, slow: Slow) -> Known {
    linked(rng, slow, slow.room(), &[plain(slow.stop())], |chain| {
        let link = |atom| (atom, vec![plain(atom - 1)]);
        chain.rev().map(link).collect()
    })
}

/// The literals by which these facts tell a number.
fn telling_literals(telling: &Range<u16>, number: usize) -> Vec<Literal> {
    let literals = telling.clone().enumerate().map(|(at, atom)| Literal {
        atom,
        negated: !bit(number, at),
    });
    literals.collect()
}

/// A ring that stands in reverse, each fact following the one before it. The last choices say at
/// which of up to 16 places it is entered, so that no one order of the rules suits all settings.
pub fn ring(rng: &mut Rng, slow: Slow) -> Known {
    let telling = slow.choices.saturating_sub(4)..slow.choices;
    let longest = slow.room() - 16;
    linked(rng, slow, longest, &[plain(slow.stop())], |ring| {
        let before = |atom| match atom == ring.start {
            true => ring.end - 1,
            false => atom - 1,
        };
        let entrances = 1 << telling.len();
        let entrance = |number: usize| {
            let place = ring.start + (number * ring.len() / entrances) as u16;
            (place, telling_literals(&telling, number))
        };
        let links = ring
            .clone()
            .rev()
            .map(|atom| (atom, vec![plain(before(atom))]));
        links.chain((0..entrances).map(entrance)).collect()
    })
}

/// Two chains through the same facts in opposite directions, one for each value of the last choice:
/// an order of the rules that suits one setting is the worst for the next.
pub fn both_ways(rng: &mut Rng, slow: Slow) -> Known {
    let forward = slow.choices - 1;
    let longest = (slow.room() - 1) / 2;
    linked(rng, slow, longest, &[plain(slow.stop())], |chain| {
        let mut links = vec![(chain.end - 1, vec![not(forward)])];
        for atom in chain.rev() {
            links.push((atom, vec![plain(forward), plain(atom - 1)]));
            links.push((atom - 1, vec![not(forward), plain(atom)]));
        }
        links
    })
}

/// A chain of eight blocks, each in reverse, in one of up to 16 orders of these that the last choices
/// tell; and rules that fail late, at another literal at the next setting. Neither an order of the
/// rules nor the literal that a rule failed at serves for long.
pub fn blocks(rng: &mut Rng, slow: Slow) -> Known {
    const BLOCKS: u16 = 8;
    let telling = slow.choices.saturating_sub(4)..slow.choices;
    let last = slow.choices - 1;
    let orders: Vec<Vec<u8>> = (0..1 << telling.len())
        .map(|_| hidden_order(rng, BLOCKS.into()))
        .collect();
    let failing = [plain(last), not(last)];
    linked(rng, slow, slow.room() - 16 * BLOCKS, &failing, |chain| {
        let size = chain.len() as u16 / BLOCKS;
        let start = |block: u8| chain.start + size * u16::from(block);
        let end = |block: u8| match u16::from(block) == BLOCKS - 1 {
            true => chain.end,
            false => start(block + 1),
        };
        let mut links = Vec::new();
        for block in 0..BLOCKS as u8 {
            let inner = (start(block) + 1..end(block)).rev();
            links.extend(inner.map(|atom| (atom, vec![plain(atom - 1)])));
        }
        for (number, order) in orders.iter().enumerate() {
            for (at, &block) in order.iter().enumerate() {
                let mut body = telling_literals(&telling, number);
                body.extend(order[..at].last().map(|&before| plain(end(before) - 1)));
                links.push((start(block), body));
            }
        }
        links
    })
}

/// 1,024 rules, most of them displacing: their bodies of 16 literals hold to the last one at every
/// setting, and all of them displace the same rule. Beside them a chain of so many links in reverse.
pub fn displaced(slow: Slow, links: u16) -> Known {
    // One that has no rule, the one about which the rules quarrel, and the start of the chain, which is
    // as far behind as where there are few facts.
    let never = 2 * slow.choices + (slow.atoms - BYTE_ATOMS);
    let (denied, base) = (never + 1, never + 2);
    let full = sixteen(&[not(never)]);
    let book = Book::new(slow.atoms, 2)
        .arrow(0, 1)
        .rule(0, plain(base), &full)
        .rule(0, plain(denied), &full);
    let mut book = ended(full_free_facts(book, slow.choices, || full.clone()), slow);
    while book.rules.len() + usize::from(links) < 1024 {
        book = book.rule(1, not(denied), &full);
    }
    let end = base + links + 1;
    for atom in (base + 1..end).rev() {
        book = book.rule(0, plain(atom), &sixteen(&[not(never), plain(atom - 1)]));
    }
    slow_book(book, slow, base..end)
}

/// The slow books of every kind and ending, one choice at least, with words for messages.
pub fn every_slow(rng: &mut Rng, choices: u16, atoms: u16) -> Vec<(String, Known)> {
    let endings = [Ending::Stable, Ending::Doubtful, Ending::Unstable];
    let named = endings.map(|ending| {
        let slow = Slow {
            choices,
            ending,
            atoms,
        };
        [
            ("slowest", slowest(rng, slow)),
            ("ring", ring(rng, slow)),
            ("both ways", both_ways(rng, slow)),
            ("blocks", blocks(rng, slow)),
            ("displaced", displaced(slow, 0)),
            ("displaced, and a chain", displaced(slow, 200)),
        ]
        .map(|(kind, known)| (format!("{kind}, {ending:?}").to_lowercase(), known))
    });
    named.into_iter().flatten().collect()
}

/// The same book with one fact more, which always stands.
fn accompanied(known: Known) -> Known {
    let atom = known.book.atoms;
    let mut book = known.book.rule(known.layer, plain(atom), &[]);
    book.atoms += 1;
    let state = known.state;
    Known {
        book,
        state: Box::new(move |number| {
            let mut state = state(number);
            state.push(true);
            state
        }),
        ..known
    }
}

/// The same book with its facts under other numbers, each of which is taken once.
pub fn renumbered(known: Known, numbers: Vec<u16>) -> Known {
    let state = known.state;
    Known {
        book: known.book.renumbered(&numbers),
        state: Box::new(move |number| renumbered_state(&state(number), &numbers)),
        ..known
    }
}

/// A state of a book as it is where the facts have these numbers.
pub fn renumbered_state(state: &[bool], numbers: &[u16]) -> Vec<bool> {
    let mut renumbered = vec![false; state.len()];
    for (&number, &stands) in numbers.iter().zip(state) {
        renumbered[usize::from(number)] = stands;
    }
    renumbered
}

/// What facts do that come before all others of a book. None of them branches.
#[derive(Clone, Copy, Debug, PartialEq, Eq)]
pub enum Front {
    /// They have no rule, and never stand.
    Never,
    /// They are given.
    Given,
    /// The last is given, and each other follows the next one.
    Chain,
    /// They stand where a branching fact does, and where it does not.
    Either,
    /// Each follows a branching fact, in turn.
    Follow,
    /// Each stands where a branching fact does not.
    Oppose,
}

impl Front {
    pub const ALL: [Front; 6] = [
        Front::Never,
        Front::Given,
        Front::Chain,
        Front::Either,
        Front::Follow,
        Front::Oppose,
    ];

    /// The bodies of a fact's rules; `end` is the fact past the last of its kind.
    fn bodies(self, atom: u16, end: u16, branching: u16) -> Vec<Vec<Literal>> {
        match self {
            Front::Never => vec![],
            Front::Chain if atom + 1 < end => vec![vec![plain(atom + 1)]],
            Front::Given | Front::Chain => vec![vec![]],
            Front::Either => vec![vec![plain(branching)], vec![not(branching)]],
            Front::Follow => vec![vec![plain(branching)]],
            Front::Oppose => vec![vec![not(branching)]],
        }
    }

    fn stands(self, branching: bool) -> bool {
        match self {
            Front::Never => false,
            Front::Given | Front::Chain | Front::Either => true,
            Front::Follow => branching,
            Front::Oppose => !branching,
        }
    }
}

/// The same book, which has a branching fact, behind so many facts of a kind.
pub fn behind(known: Known, front: Front, count: u16) -> Known {
    let branches = Driven::new(&known.book, known.layer.into()).branching();
    let branching = (0..known.book.atoms).filter(|&atom| branches[usize::from(atom)]);
    let branching: Vec<u16> = branching.cycle().take(count.into()).collect();
    // All facts get their numbers at the end.
    let Known {
        mut book, state, ..
    } = known;
    let (first, end) = (book.atoms, book.atoms + count);
    book.atoms = end;
    for (atom, &branching) in (first..end).zip(&branching) {
        for body in front.bodies(atom, end, branching) {
            book = book.rule(known.layer, plain(atom), &body);
        }
    }
    let state = move |number| {
        let mut state: Vec<bool> = state(number);
        for &atom in &branching {
            state.push(front.stands(state[usize::from(atom)]));
        }
        state
    };
    let behind = Known {
        book,
        state: Box::new(state),
        ..known
    };
    renumbered(behind, (count..end).chain(0..count).collect())
}

/// Small books of several kinds, with words for messages: with several states, one and none.
pub fn several() -> Vec<(&'static str, Known)> {
    vec![
        ("pairs", pairs(3, 1)),
        ("displacing pairs", displacing_pairs(3, 1)),
        ("free", free(4, 0, 9)),
        ("chosen", chosen(2, 6)),
        ("counted", counted(5, 9)),
        ("single, standing", single(5, true)),
        ("single, not standing", single(5, false)),
        ("a quarrel", quarrelled(pairs(3, 0))),
    ]
}

/// The same book with constraints in its driven layer: of its states those are left in which no body
/// of them holds.
pub fn constrained(known: Known, bodies: &[Vec<Literal>]) -> Known {
    let mut book = known.book;
    for body in bodies {
        book = book.never(known.layer, body);
    }
    let state = known.state;
    let allowed = |number: &usize| {
        let state = state(*number);
        let holds = |literal: &Literal| state[usize::from(literal.atom)] != literal.negated;
        !bodies.iter().any(|body| body.iter().all(holds))
    };
    let left: Vec<usize> = (0..known.count).filter(allowed).collect();
    Known {
        book,
        count: left.len(),
        state: Box::new(move |number| state(left[number])),
        ..known
    }
}

/// The first facts follow the last ones, of which so many may stand or not; and there are so many
/// constraints over all these and over the helpers, with bodies of up to 16 literals. Each holds in some of
/// the states at most, and none of the facts but the last branches.
pub fn randomly_constrained(rng: &mut Rng, choices: u16, constraints: usize, atoms: u16) -> Known {
    let following = rng.pick(&EVERY_FOLLOWING);
    let known = followed(choices, choices, atoms, following);
    let facts: Vec<u16> = (0..choices).chain(atoms - 2 * choices..atoms).collect();
    let body = |_| -> Vec<Literal> {
        let literals = 0..rng.range(2, 16);
        literals
            .map(|_| Literal {
                atom: rng.pick(&facts),
                negated: rng.chance(50),
            })
            .collect()
    };
    let bodies: Vec<Vec<Literal>> = (0..constraints).map(body).collect();
    let mut known = constrained(known, &bodies);
    rng.shuffle(&mut known.book.rules);
    known
}

/// What constraints leave of facts that may stand or not.
#[derive(Clone, Copy, Debug)]
pub enum Left {
    /// All stand, or none does.
    AllAlike,
    /// At most one stands.
    AtMostOne,
    /// The second half is like the first, of which a search that sets the facts in turn learns late.
    HalvesAlike,
}

impl Left {
    /// The bodies of the constraints over so many facts from `first` on.
    fn bodies(self, first: u16, choices: u16) -> Vec<Vec<Literal>> {
        let (end, half) = (first + choices, choices / 2);
        let alike = |one, other| [[plain(one), not(other)], [not(one), plain(other)]];
        let bodies: Vec<[Literal; 2]> = match self {
            Left::AllAlike => (first + 1..end)
                .flat_map(|fact| alike(fact - 1, fact))
                .collect(),
            Left::AtMostOne => (first..end)
                .flat_map(|one| (one + 1..end).map(move |other| [plain(one), plain(other)]))
                .collect(),
            Left::HalvesAlike => (first..first + half)
                .flat_map(|fact| alike(fact, fact + half))
                .collect(),
        };
        bodies.iter().map(|body| body.to_vec()).collect()
    }
}

/// So many facts that may stand or not, and constraints over these, or over their helpers, which
/// stand with them and do not branch.
pub fn few_left(choices: u16, left: Left, over_helpers: bool) -> Known {
    let first = if over_helpers { 0 } else { choices };
    let bodies = left.bodies(first, choices);
    constrained(free(choices, 0, 2 * choices), &bodies)
}

/// By which constraints every state is banned.
#[derive(Clone, Copy, Debug)]
pub enum Ban {
    /// One whose body is empty.
    Empty,
    /// Two by which the last branching fact may neither stand nor not.
    Branching,
    /// One over a fact that always stands and does not branch.
    Standing,
}

/// So many facts that may stand or not, and no state.
pub fn banned(choices: u16, ban: Ban) -> Known {
    let (last, standing) = (2 * choices - 1, 2 * choices);
    let bodies = match ban {
        Ban::Empty => vec![vec![]],
        Ban::Branching => vec![vec![plain(last)], vec![not(last)]],
        Ban::Standing => vec![vec![plain(standing)]],
    };
    constrained(accompanied(free(choices, 0, 2 * choices)), &bodies)
}

/// The same book with constraints whose bodies hold in no state: a thousand, or as many as there is
/// room for.
fn idle(known: Known, mut body: impl FnMut() -> Vec<Literal>) -> Known {
    let mut book = known.book;
    for _ in 0..1_000.min(1_024 - book.rules.len()) {
        book = book.never(known.layer, &body());
    }
    Known { book, ..known }
}

/// `pairs` with idle constraints of 16 literals, all of whose facts branch: each asks for both facts
/// of a pair.
pub fn idle_branching(rng: &mut Rng, choices: u16) -> Known {
    let body = || {
        let mut body: Vec<Literal> = (0..14)
            .map(|_| Literal {
                atom: rng.below((2 * choices).into()) as u16,
                negated: rng.chance(50),
            })
            .collect();
        let p = 2 * rng.below(choices.into()) as u16;
        body.extend([plain(p), plain(p + 1)]);
        body
    };
    idle(pairs(choices, 0), body)
}

/// A book with two facts more and idle constraints of 16 literals over these, which do not branch:
/// all but the last literal hold in every state.
pub fn idle_standing(rng: &mut Rng, known: Known) -> Known {
    let known = spared(accompanied(known));
    let (standing, never) = (known.book.atoms - 2, known.book.atoms - 1);
    let body = || {
        let mut body: Vec<Literal> = (0..15)
            .map(|_| rng.pick(&[plain(standing), not(never)]))
            .collect();
        body.push(plain(never));
        body
    };
    idle(known, body)
}

#[cfg(test)]
pub(crate) mod tests {
    use super::*;
    use crate::book::hex;
    use crate::rng::seed;
    use crate::shapes::{self, Layering};

    /// The book is lawful, and of the small ones the oracle says the same.
    pub(crate) fn assert_known(what: &str, known: &Known) {
        let bytes = known.book.bytes();
        assert_eq!(crate::reader::first_cause(&bytes), 0, "{what}");
        let driven = Driven::new(&known.book, known.layer.into());
        assert_eq!(driven.branching_count(), known.branching, "{what}");
        if known.book.atoms <= 14 {
            assert_eq!(hex(&driven.listing()), hex(&known.listing()), "{what}");
        } else {
            for number in 0..known.count.min(8) {
                assert!(driven.stable(&(known.state)(number)), "{what}");
            }
        }
    }

    #[test]
    fn oracle_confirms_what_is_known() {
        let seed = seed();
        let mut rng = Rng::named(seed, "known");
        for choices in 0..4 {
            for lone in 0..3 {
                assert_known("pairs", &pairs(choices, lone));
                assert_known("displacing pairs", &displacing_pairs(choices, lone));
            }
            assert_known("free", &free(choices, 3, 12));
            for following in EVERY_FOLLOWING {
                let what = format!("{following:?}");
                assert_known(&what, &followed(choices, choices, 9, following));
            }
        }
        for count in 2..40 {
            assert_known("counted", &counted(count, 13));
        }
        for stand in [true, false] {
            assert_known("single", &single(5, stand));
            assert_known("quarrelled", &quarrelled(single(5, stand)));
        }
        assert_known("quarrelled", &quarrelled(free(3, 0, 7)));
        for turn in 0..300 {
            let small = shapes::layered(&mut rng, Layering::Any);
            let layer = rng.below(small.layers.into()) as u8;
            let atoms = small.atoms + turn % 5;
            let what = format!("seed {seed}, spread {}", hex(&small.bytes()));
            assert_known(&what, &spread(&mut rng, &small, layer, atoms));
        }
        assert_known("front and end", &front_and_end(4, 12));
        assert_known("spared", &spared(pairs(3, 1)));
        assert_known("tied", &tied(&[2, 0, 3, 1], &[1, 2]));
        assert_known("tied", &tied(&[3, 0, 5, 7, 2, 6, 1, 4], &[]));
        for choices in 0..5 {
            assert_known("chosen", &chosen(choices, 6));
        }
        for _ in 0..20 {
            let small = shapes::crowded(&mut rng, Layering::Any);
            let what = format!("seed {seed}, colliding {}", hex(&small.bytes()));
            assert_known(&what, &colliding(&mut rng, &small, 0));
            let scattered = scattered(&mut rng, pairs(3, 1), 14);
            assert_known(&format!("seed {seed}, scattered"), &scattered);
        }
    }

    /// The oracle is asked about as many states as it has time for.
    #[test]
    fn oracle_confirms_what_is_known_of_1_024_rules() {
        let seed = seed();
        let mut rng = Rng::named(seed, "known, many facts");
        for atoms in [BYTE_ATOMS, MAX_ATOMS] {
            for branching in [1, 11, 20] {
                let busy = busy(&mut rng, branching, atoms);
                assert_eq!(busy.book.bytes().len(), 38_372);
                assert_known(&format!("seed {seed}, busy"), &busy);
            }
            for choices in [1, 5] {
                let leaning = leaning(&mut rng, choices, atoms - 2 * choices, atoms);
                assert_known(&format!("seed {seed}, leaning"), &leaning);
            }
            let chained = chained(3, atoms);
            assert_eq!(chained.book.rules.len(), 1_024);
            assert_known("chained", &chained);
            for rules in [8, 128, 1_024] {
                let sized = sized(&mut rng, rules, atoms);
                assert_eq!(sized.book.rules.len(), rules);
                assert_known(&format!("seed {seed}, sized"), &sized);
            }
            for choices in [1, 5] {
                for (what, known) in every_slow(&mut rng, choices, atoms) {
                    assert_eq!(known.book.rules.len(), 1_024);
                    assert_known(&format!("seed {seed}, {what}"), &known);
                }
            }
            for choices in [0, 3] {
                let junction = junction(&mut rng, choices, atoms);
                assert_eq!(junction.book.rules.len(), 1_024);
                assert_eq!(junction.branching, 20);
                assert_known(&format!("seed {seed}, junction"), &junction);
            }
            let random = randomly_constrained(&mut rng, 6, 120, atoms);
            assert_known(&format!("seed {seed}, random constraints"), &random);
        }
    }

    #[test]
    fn oracle_confirms_books_behind_facts_of_every_kind() {
        let seed = seed();
        let mut rng = Rng::named(seed, "known, front");
        for front in Front::ALL {
            for known in [pairs(2, 1), free(3, 0, 6), chosen(1, 3), single(3, true)] {
                let mut known = behind(known, front, 4);
                assert_known(&format!("behind {front:?}"), &known);
                let mut numbers: Vec<u16> = (0..known.book.atoms).collect();
                rng.shuffle(&mut numbers);
                known = renumbered(known, numbers);
                assert_known(&format!("seed {seed}, {front:?}, renumbered"), &known);
            }
        }
    }

    #[test]
    fn oracle_confirms_what_constraints_leave() {
        let seed = seed();
        let mut rng = Rng::named(seed, "known, constraints");
        for choices in 2..7 {
            for over_helpers in [true, false] {
                let left = |left| {
                    let known = few_left(choices, left, over_helpers);
                    assert_known(&format!("{left:?}, {choices} choices"), &known);
                    known.count
                };
                assert_eq!(left(Left::AllAlike), 2);
                assert_eq!(left(Left::AtMostOne), usize::from(choices) + 1);
                // The last of an odd number is in no half.
                assert_eq!(left(Left::HalvesAlike), 1 << choices.div_ceil(2));
            }
            for ban in [Ban::Empty, Ban::Branching, Ban::Standing] {
                let known = banned(choices, ban);
                assert_known(&format!("{ban:?}, {choices} choices"), &known);
                assert_eq!(known.count, 0);
            }
        }
        for count in 2..10 {
            let bodies = [
                vec![plain(0), not(1)],
                vec![plain(9)],
                vec![not(3), plain(2)],
            ];
            assert_known("constrained", &constrained(counted(count, 13), &bodies));
        }
        for choices in [1, 4, 6] {
            let number = 20 * usize::from(choices);
            let random = randomly_constrained(&mut rng, choices, number, 40);
            assert_known(&format!("seed {seed}, random constraints"), &random);
        }
        for choices in [1, 2, 5] {
            let branching = idle_branching(&mut rng, choices);
            assert_known(&format!("seed {seed}, idle, branching"), &branching);
            let standing = idle_standing(&mut rng, pairs(choices, 0));
            assert_known(&format!("seed {seed}, idle, standing"), &standing);
            for known in [branching, standing] {
                let constraints = known.book.rules.iter().filter(|rule| rule.is_constraint());
                assert_eq!(constraints.count(), 1_000);
            }
            let free = idle_standing(&mut rng, free(choices, 0, 2 * choices));
            assert_known(&format!("seed {seed}, idle, free"), &free);
        }
    }
}
