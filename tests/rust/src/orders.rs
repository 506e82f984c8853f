//! Books whose records come to a search in a given order. It sets the branching facts one after the
//! other, rising, each as not standing first, so that the settings come as numbers that rise. Facts
//! in front of these, which follow from them, say where in the listing the record of a setting is.

use crate::book::{not, plain, Book, Literal, Rule};
use crate::known::{bit, free_fact, free_three, Known};
use crate::oracle::body_holds;
use crate::rng::Rng;
use std::ops::Range;

/// How the records come. Where a book has too few facts for a whole order, the first bits of the
/// records have it, and records that agree in these rise.
#[derive(Clone, Copy, Debug, PartialEq, Eq)]
pub enum Order {
    Rising,
    Falling,
    /// Before all others and after all others in turn.
    FrontAndEnd,
    /// By the setting's number with its bits turned round.
    BitReversed,
    /// Those of an even number of standing choices are listed before the others.
    ParityFirst,
    /// By functions of three choices each, taken at random.
    Shuffled,
}

impl Order {
    pub const ALL: [Order; 6] = [
        Order::Rising,
        Order::Falling,
        Order::FrontAndEnd,
        Order::BitReversed,
        Order::ParityFirst,
        Order::Shuffled,
    ];

    pub fn name(self) -> &'static str {
        match self {
            Order::Rising => "rising",
            Order::Falling => "falling",
            Order::FrontAndEnd => "front and end in turn",
            Order::BitReversed => "bit-reversed",
            Order::ParityFirst => "parity first",
            Order::Shuffled => "shuffled",
        }
    }
}

/// The fewest facts that so many choices take: every three of them have two helpers, as `free_three`
/// has it, and those that are left one each. With a helper for each, 20 choices would fill 5 bytes, and
/// no fact would be left to order the records by.
pub const fn fewest_facts(choices: u16) -> u16 {
    2 * choices - choices / 3
}

/// What a book is to have.
#[derive(Clone, Copy, Debug)]
pub struct Ordered {
    pub order: Order,
    /// Facts that may stand or not.
    pub choices: u16,
    /// Branching facts behind these that never stand.
    pub idle: u16,
    /// Bodies over the choices, taken at random: a setting in which one holds has no state. They
    /// take one branching fact more.
    pub cuts: u16,
    pub atoms: u16,
    /// The facts that are left over stand before all others, and so records differ at their ends.
    pub at_the_end: bool,
}

/// The facts that follow from the choices, by number.
struct Followers {
    /// Those by which the records are ordered.
    front: u16,
    helpers: u16,
    /// How many choices the helpers take at once.
    chunk: u16,
    /// Of how many choices they tell, the last ones for a parity.
    told: u16,
}

/// Where the facts of a book begin.
struct Places {
    front: u16,
    choices: u16,
    idle: u16,
    stop: u16,
    helpers: u16,
    /// The helpers of the choices.
    free: u16,
}

/// A rule by which a fact follows from the choices.
fn follows(head: u16, body: &[Literal]) -> Rule {
    Rule {
        layer: 1,
        head: plain(head),
        body: body.to_vec(),
    }
}

fn literal(atom: u16, stands: bool) -> Literal {
    match stands {
        true => plain(atom),
        false => not(atom),
    }
}

impl Ordered {
    /// A book in which every setting has a state.
    pub fn new(order: Order, choices: u16, atoms: u16) -> Ordered {
        Ordered {
            order,
            choices,
            idle: 0,
            cuts: 0,
            atoms,
            at_the_end: false,
        }
    }

    fn stops(self) -> u16 {
        u16::from(self.cuts > 0)
    }

    /// Document 01: g.
    pub fn branching(self) -> u16 {
        self.choices + self.idle + self.stops()
    }

    /// The fewest facts that it can have: then none tells of a choice.
    pub fn fewest_atoms(self) -> u16 {
        fewest_facts(self.choices) + self.idle + self.stops()
    }

    /// How often three choices share two helpers: only as often as a whole order has no room else.
    fn threes(self) -> u16 {
        let telling = match self.order {
            Order::Rising => 0,
            Order::ParityFirst => (2 * self.choices.div_ceil(4)).saturating_sub(1),
            _ => self.choices,
        };
        let facts = 2 * self.choices + self.idle + self.stops() + telling;
        facts.saturating_sub(self.atoms).min(self.choices / 3)
    }

    /// The helpers of the choices.
    fn free_helpers(self) -> u16 {
        self.choices - self.threes()
    }

    /// The facts that are left beside the branching ones and the helpers of the choices.
    fn room(self) -> u16 {
        self.atoms - self.branching() - self.free_helpers()
    }

    fn followers(self) -> Followers {
        let room = self.room();
        let front = match self.order {
            Order::Rising => 0,
            Order::ParityFirst => room.min(self.choices).min(1),
            _ => room.min(self.choices),
        };
        if self.order != Order::ParityFirst || front == 0 {
            return Followers {
                front,
                helpers: 0,
                chunk: 0,
                told: front,
            };
        }
        // Two helpers for each chunk but the last, whose parity is the fact in front.
        let most = 1 + (room - 1) / 2;
        let chunk = (2..4).find(|chunk| chunk * most >= self.choices);
        let chunk = chunk.unwrap_or(4);
        let chunks = self.choices.div_ceil(chunk).min(most);
        Followers {
            front,
            helpers: 2 * (chunks - 1),
            chunk,
            told: self.choices.min(chunk * chunks),
        }
    }

    /// Of how many choices the facts in front tell; of a parity, of how many it is one.
    pub fn told(self) -> u16 {
        self.followers().told
    }

    fn places(self) -> Places {
        let Followers { front, helpers, .. } = self.followers();
        let spare = self.room() - front - helpers;
        let choices = spare + front;
        let behind = choices + self.branching();
        Places {
            front: if self.at_the_end { spare } else { 0 },
            choices,
            idle: choices + self.choices,
            stop: choices + self.choices + self.idle,
            helpers: behind,
            free: behind + helpers,
        }
    }

    /// The choices with their helpers: three with two, and then one with one.
    fn free(self) -> Vec<[Range<u16>; 2]> {
        let threes = self.threes();
        let ones = self.choices - 3 * threes;
        let sizes = (0..threes).map(|_| [3, 2]).chain((0..ones).map(|_| [1, 1]));
        let Places { choices, free, .. } = self.places();
        let mut starts = [choices, free];
        let ranges = sizes.map(|sizes| {
            let from = starts;
            starts = [from[0] + sizes[0], from[1] + sizes[1]];
            [from[0]..starts[0], from[1]..starts[1]]
        });
        ranges.collect()
    }

    /// The rules of the facts that follow, in an order in which none needs a later one.
    fn following(self, rng: &mut Rng) -> Vec<Rule> {
        let front = 0..self.followers().front;
        match self.order {
            Order::ParityFirst if front.is_empty() => Vec::new(),
            Order::ParityFirst => self.parity(),
            _ => front.flat_map(|at| self.in_front(rng, at)).collect(),
        }
    }

    /// The rules of one of the facts in front.
    fn in_front(self, rng: &mut Rng, at: u16) -> Vec<Rule> {
        let Places { front, choices, .. } = self.places();
        let (head, last) = (front + at, choices + self.choices - 1);
        match self.order {
            Order::Rising | Order::ParityFirst => Vec::new(),
            Order::Falling => vec![follows(head, &[not(choices + at)])],
            Order::BitReversed => vec![follows(head, &[plain(last - at)])],
            Order::FrontAndEnd if at == 0 => vec![follows(head, &[plain(last)])],
            Order::FrontAndEnd => {
                let choice = choices + at - 1;
                vec![
                    follows(head, &[plain(choice), plain(last)]),
                    follows(head, &[not(choice), not(last)]),
                ]
            }
            Order::Shuffled => {
                let mut three: Vec<u16> = (choices..=last).collect();
                rng.shuffle(&mut three);
                let mut three = three.into_iter().cycle();
                let mut next = || three.next().expect("there is a choice");
                let (which, one, other) = (next(), next(), next());
                let one = literal(one, rng.chance(50));
                let other = literal(other, rng.chance(50));
                vec![
                    follows(head, &[plain(which), one]),
                    follows(head, &[not(which), other]),
                ]
            }
        }
    }

    /// The fact in front stands where an odd number of the last choices do. Of one chunk after the
    /// other, two helpers say whether it is odd so far, and whether it is even: a negated helper
    /// would branch.
    fn parity(self) -> Vec<Rule> {
        let Followers {
            helpers,
            chunk,
            told,
            ..
        } = self.followers();
        let places = self.places();
        let helper = |at: u16, odd: bool| places.helpers + 2 * at + u16::from(odd);
        let told: Vec<u16> = (places.idle - told..places.idle).rev().collect();
        let mut rules = Vec::new();
        for (at, choices) in (0..).zip(told.chunks(chunk.into())) {
            let last = at == helpers / 2;
            for setting in 0..1usize << choices.len() {
                let literals = choices.iter().enumerate();
                let body: Vec<Literal> = literals
                    .map(|(at, &choice)| literal(choice, bit(setting, at)))
                    .collect();
                let odd = setting.count_ones() % 2 == 1;
                let so_far: &[bool] = if at == 0 { &[false] } else { &[false, true] };
                for &before in so_far {
                    let mut body = body.clone();
                    if at > 0 {
                        body.push(plain(helper(at - 1, before)));
                    }
                    match last {
                        true if odd == before => {}
                        true => rules.push(follows(places.front, &body)),
                        false => rules.push(follows(helper(at, odd != before), &body)),
                    }
                }
            }
        }
        rules
    }

    /// The bodies that rule settings out.
    fn cutting(self, rng: &mut Rng) -> Vec<Vec<Literal>> {
        let first = self.places().choices;
        let body = |_| {
            let literals = 0..rng.range(1, 4).min(self.choices.into());
            literals
                .map(|_| {
                    let choice = first + rng.below(self.choices.into()) as u16;
                    literal(choice, rng.chance(50))
                })
                .collect()
        };
        (0..self.cuts).map(body).collect()
    }

    /// The book. Its states come in the order in which the search comes to them.
    pub fn known(self, rng: &mut Rng) -> Known {
        let places = self.places();
        let following = self.following(rng);
        let stop = places.stop;
        let cutting: Vec<Rule> = self
            .cutting(rng)
            .iter()
            .map(|body| follows(stop, &[&body[..], &[not(stop)]].concat()))
            .collect();
        let mut book = Book::new(self.atoms, 2).arrow(0, 1);
        let free = self.free();
        for [choices, helpers] in &free {
            book = match choices.len() {
                1 => free_fact(book, choices.start, helpers.start),
                _ => free_three(book, choices.start, helpers.start),
            };
        }
        for atom in places.idle..places.stop {
            book = book.rule(1, plain(atom), &[plain(atom), not(atom)]);
        }
        book.rules.extend(following.iter().chain(&cutting).cloned());
        let Ordered { choices, atoms, .. } = self;
        let state = move |setting: usize| {
            let mut state = vec![false; atoms.into()];
            for at in 0..choices {
                let stands = bit(setting, (choices - 1 - at).into());
                state[usize::from(places.choices + at)] = stands;
            }
            for [choices, helpers] in &free {
                let standing = choices.clone().filter(|&choice| state[usize::from(choice)]);
                let standing = standing.count();
                for (at, helper) in helpers.clone().enumerate() {
                    state[usize::from(helper)] = bit(standing, at);
                }
            }
            for rule in &following {
                state[usize::from(rule.head.atom)] |= body_holds(rule, &state);
            }
            state
        };
        let mut settings: Vec<usize> = (0..1 << choices).collect();
        if !cutting.is_empty() {
            settings.retain(|&setting| {
                let state = state(setting);
                !cutting.iter().any(|rule| body_holds(rule, &state))
            });
        }
        Known {
            book,
            layer: 1,
            branching: self.branching().into(),
            count: settings.len(),
            state: Box::new(move |number| state(settings[number])),
        }
    }
}

#[cfg(test)]
mod tests {
    use super::*;
    use crate::known::tests::assert_known;
    use crate::oracle;
    use crate::rng::seed;

    /// The records in the order in which the search comes to them.
    fn records(known: &Known) -> Vec<Vec<u8>> {
        (0..known.count)
            .map(|number| oracle::record(&known.planted(number).state))
            .collect()
    }

    fn whole(order: Order, choices: u16) -> Known {
        let ordered = Ordered::new(order, choices, 40);
        assert!([0, choices].contains(&ordered.told()), "{order:?}");
        ordered.known(&mut Rng::new(0))
    }

    #[test]
    fn oracle_confirms_what_is_known() {
        let seed = seed();
        let mut rng = Rng::named(seed, "orders");
        for order in Order::ALL {
            for turn in 0..16 {
                let mut ordered = Ordered {
                    order,
                    choices: turn % 6,
                    idle: rng.below(3) as u16,
                    cuts: rng.below(4) as u16,
                    atoms: 0,
                    at_the_end: rng.chance(50),
                };
                let fewest = ordered.fewest_atoms().max(1);
                let most = rng.pick(&[fewest, 13]);
                ordered.atoms = rng.range(fewest.into(), most.into()) as u16;
                let known = ordered.known(&mut rng);
                assert_known(&format!("seed {seed}, {ordered:?}"), &known);
            }
        }
    }

    #[test]
    fn rising_and_falling_records() {
        for choices in 0..10 {
            let rising = records(&whole(Order::Rising, choices));
            assert!(rising.is_sorted(), "{choices}");
            let falling = records(&whole(Order::Falling, choices));
            assert!(falling.is_sorted_by(|one, next| one > next), "{choices}");
        }
    }

    #[test]
    fn records_before_and_after_all_others_in_turn() {
        for choices in 1..10 {
            let records = records(&whole(Order::FrontAndEnd, choices));
            for (at, record) in records.iter().enumerate().skip(1) {
                let before = &records[..at];
                let right = match at % 2 {
                    0 => before.iter().all(|other| record < other),
                    _ => before.iter().all(|other| record > other),
                };
                assert!(right, "{choices} choices, record {at}");
            }
        }
    }

    #[test]
    fn bit_reversed_records() {
        for choices in 1..10 {
            let records = records(&whole(Order::BitReversed, choices));
            let mut reversed: Vec<usize> = (0..records.len()).collect();
            reversed.sort_by_key(|at| at.reverse_bits());
            assert!(reversed.is_sorted_by_key(|&at| &records[at]), "{choices}");
        }
    }

    #[test]
    fn records_by_parity_first() {
        for choices in 1..12 {
            let records = records(&whole(Order::ParityFirst, choices));
            for (at, record) in records.iter().enumerate() {
                let odd = at.count_ones() % 2 == 1;
                assert_eq!(record[0] >= 0x80, odd, "{choices} choices, record {at}");
            }
        }
    }

    /// As far from rising as from falling: of all pairs some quarter at least is in either order.
    #[test]
    fn shuffled_records() {
        let records = records(&whole(Order::Shuffled, 10));
        let earlier = |at: usize| records[..at].iter();
        let falling: usize = (0..records.len())
            .map(|at| earlier(at).filter(|one| **one > records[at]).count())
            .sum();
        let quarter = records.len() * records.len() / 8;
        println!("{falling} of {} pairs fall", 4 * quarter);
        assert!((quarter..3 * quarter).contains(&falling), "{falling}");
    }
}
