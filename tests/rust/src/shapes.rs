//! Books of every shape, lawful and not. The same generator state gives the same book.

use crate::book::{
    framed, not, plain, set_length, width, Arrow, Book, Draft, Literal, Rule, Section, BYTE_ATOMS,
    FALSITY, MAX_ATOMS, WIDE,
};
use crate::drive::{all_layers, at, Drive};
use crate::reader;
use crate::rng::Rng;

/// Book B, byte by byte as document 01 has it.
pub const B: [u8; 48] = [
    0x01, 0x00, 0x00, 0x00, 0x30, 0x00, 0x03, 0x04, // version, length, facts, layers
    0x00, 0x00, 0x00, 0x0C, 0x00, 0x04, // arrow section
    0x02, 0x00, 0x01, 0x02, 0x00, 0x02, 0x02, 0x01, 0x03, 0x02, 0x02, 0x03, //
    0x00, 0x00, 0x00, 0x10, 0x00, 0x03, // rule section
    0x05, 0x00, 0x00, 0x00, 0x80, 0x01, // a if not b
    0x03, 0x01, 0x00, 0x02, // c
    0x05, 0x02, 0x80, 0x00, 0x00, 0x02, // not a if c
];

/// Book B as a value: a, b, c are 0, 1, 2; t, u, v, w are layers 0 to 3.
pub fn book_b() -> Book {
    Book::new(3, 4)
        .arrow(0, 1)
        .arrow(0, 2)
        .arrow(1, 3)
        .arrow(2, 3)
        .rule(0, plain(0), &[not(1)])
        .rule(1, plain(2), &[])
        .rule(2, not(0), &[plain(2)])
}

/// Driven layers that no book has, and that only an engine which takes a part of the number would
/// find.
pub const NO_LAYERS: [u32; 8] = [32, 255, 256, 257, 65_536, 1 << 31, u32::MAX - 255, u32::MAX];

/// A book of at most 32 unrelated layers in each of which another state is stable.
pub fn state_in_each_layer(atoms: u16, layers: u8) -> Book {
    let mut book = Book::new(atoms, layers);
    for layer in 0..layers {
        for atom in (0..5).filter(|&atom| stands_in_layer(layer, atom)) {
            book = book.rule(layer, plain(atom), &[]);
        }
    }
    book
}

/// That state of a layer, in a book of so many facts.
pub fn state_of_layer(atoms: u16, layer: u8) -> Vec<bool> {
    (0..atoms)
        .map(|atom| stands_in_layer(layer, atom))
        .collect()
}

/// Whether a fact stands in it: the first five facts are the layer's number.
pub fn stands_in_layer(layer: u8, atom: u16) -> bool {
    atom < 5 && layer >> atom & 1 == 1
}

/// One fact, one layer, no records: 20 bytes.
pub fn smallest() -> Book {
    Book::new(1, 1)
}

/// What a lawful book is to have.
struct Sizes {
    atoms: usize,
    layers: usize,
    arrows: usize,
    rules: usize,
    /// The fewest and the most body literals.
    body: (usize, usize),
    /// How many heads of a hundred are negated.
    negated_heads: usize,
    /// How many rules of a hundred are constraints.
    constraints: usize,
}

/// A lawful book. The layers stand in a hidden order, and all arrows follow it. Equal rules and
/// repeated body literals come up.
fn lawful(rng: &mut Rng, sizes: Sizes) -> Book {
    let mut book = Book::new(sizes.atoms as u16, sizes.layers as u8);
    book.arrows = all_arrows(&hidden_order(rng, sizes.layers));
    rng.shuffle(&mut book.arrows);
    book.arrows.truncate(sizes.arrows);
    for _ in 0..sizes.rules {
        let rule = match book.rules.is_empty() || rng.chance(95) {
            true => rule(rng, &sizes),
            false => book.rules[rng.below(book.rules.len())].clone(),
        };
        book.rules.push(rule);
    }
    book
}

pub(crate) fn hidden_order(rng: &mut Rng, layers: usize) -> Vec<u8> {
    let mut order: Vec<u8> = (0..layers as u8).collect();
    rng.shuffle(&mut order);
    order
}

/// Every arrow that leads forward in `order`.
pub(crate) fn all_arrows(order: &[u8]) -> Vec<Arrow> {
    let mut arrows = Vec::new();
    for (at, &later) in order.iter().enumerate() {
        arrows.extend(order[..at].iter().map(|&earlier| Arrow { earlier, later }));
    }
    arrows
}

fn rule(rng: &mut Rng, sizes: &Sizes) -> Rule {
    let (fewest, most) = sizes.body;
    Rule {
        layer: rng.below(sizes.layers) as u8,
        head: match rng.chance(sizes.constraints) {
            true => FALSITY,
            false => literal(rng, sizes.atoms, sizes.negated_heads),
        },
        body: (0..rng.range(fewest, most))
            .map(|_| literal(rng, sizes.atoms, 50))
            .collect(),
    }
}

fn literal(rng: &mut Rng, atoms: usize, negated: usize) -> Literal {
    Literal {
        atom: rng.below(atoms) as u16,
        negated: rng.chance(negated),
    }
}

/// Any number of facts: as many as a byte has numbers for at most, more, or one of the edges.
fn any_atoms(rng: &mut Rng) -> usize {
    let (byte, most) = (usize::from(BYTE_ATOMS), usize::from(MAX_ATOMS));
    match rng.below(3) {
        0 => rng.range(1, byte),
        1 => rng.range(byte + 1, most),
        _ => rng.pick(&WIDE).into(),
    }
}

fn pairs(layers: usize) -> usize {
    layers * (layers - 1) / 2
}

/// A lawful book that an oracle can try every state of.
pub fn small(rng: &mut Rng) -> Book {
    let layers = rng.range(1, 6);
    let sizes = Sizes {
        atoms: rng.range(1, 8),
        layers,
        arrows: rng.range(0, pairs(layers)),
        rules: rng.range(0, 12),
        body: rng.pick(&[(0, 0), (0, 1), (0, 2), (0, 4), (1, 1), (1, 2), (1, 3)]),
        negated_heads: rng.pick(&[0, 10, 30, 50]),
        constraints: rng.pick(&[0, 0, 10, 25]),
    };
    lawful(rng, sizes)
}

/// A small lawful book with choices in it, so that several stable states are common.
pub fn choices(rng: &mut Rng) -> Book {
    let layers = rng.range(1, 4);
    let sizes = Sizes {
        atoms: rng.range(2, 8),
        layers,
        arrows: rng.range(0, pairs(layers)),
        rules: rng.range(0, 5),
        body: (1, 3),
        negated_heads: rng.pick(&[0, 20, 50]),
        constraints: rng.pick(&[0, 0, 40]),
    };
    let mut book = lawful(rng, sizes);
    for _ in 0..rng.range(1, 4) {
        let a = rng.below(usize::from(book.atoms)) as u16;
        let b = (a + 1) % book.atoms;
        let layer = rng.below(layers) as u8;
        book = match (rng.below(3), book.arrows.first().copied()) {
            (1, Some(arrow)) => book
                .rule(arrow.earlier, plain(a), &[])
                .rule(arrow.earlier, plain(b), &[])
                .rule(arrow.later, not(a), &[plain(b)])
                .rule(arrow.later, not(b), &[plain(a)]),
            (2, Some(arrow)) => free(book, arrow, a, b),
            _ => book
                .rule(layer, plain(a), &[not(b)])
                .rule(layer, plain(b), &[not(a)]),
        };
    }
    rng.shuffle(&mut book.rules);
    book
}

/// How the layers of a small book lie.
#[derive(Clone, Copy, Debug, PartialEq, Eq)]
pub enum Layering {
    Chain,
    /// One layer below two unrelated ones, these below a fourth; a fifth below or above them all.
    Diamond,
    /// Chains that no arrow joins, or only the arrows to a last layer above them all.
    Branches,
    /// Any arrows that lead forward.
    Any,
}

/// The layers' number, and their arrows as if each layer came before those with larger numbers.
fn lie(rng: &mut Rng, layering: Layering) -> (usize, Vec<(usize, usize)>) {
    match layering {
        Layering::Chain => {
            let layers = rng.range(1, 4);
            (layers, (1..layers).map(|at| (at - 1, at)).collect())
        }
        Layering::Diamond => {
            let mut arrows = vec![(0, 1), (0, 2), (1, 3), (2, 3)];
            let layers = rng.range(4, 5);
            if layers == 5 {
                arrows.push(rng.pick(&[(3, 4), (4, 0)]));
            }
            (layers, arrows)
        }
        Layering::Branches => {
            let mut arrows = Vec::new();
            let mut layers = 0;
            let mut ends = Vec::new();
            for _ in 0..rng.range(2, 3) {
                let length = rng.range(1, 2);
                arrows.extend((1..length).map(|at| (layers + at - 1, layers + at)));
                layers += length;
                ends.push(layers - 1);
            }
            if rng.chance(70) {
                arrows.extend(ends.iter().map(|&end| (end, layers)));
                layers += 1;
            }
            (layers, arrows)
        }
        Layering::Any => {
            let layers = rng.range(1, 5);
            let mut arrows: Vec<(usize, usize)> = (0..layers)
                .flat_map(|later| (0..later).map(move |earlier| (earlier, later)))
                .collect();
            rng.shuffle(&mut arrows);
            arrows.truncate(rng.range(0, arrows.len()));
            (layers, arrows)
        }
    }
}

/// A small lawful book whose layers lie as asked, under numbers that do not give the order away.
/// It is made of what the definition of a stable state is about: conflicts in one layer and
/// across layers, rules that lean on themselves or on each other, and choices; and in two of five
/// books, constraints.
pub fn layered(rng: &mut Rng, layering: Layering) -> Book {
    let (layers, arrows) = lie(rng, layering);
    let order = hidden_order(rng, layers);
    let most = rng.pick(&[3, 4, 8]);
    let fewest = rng.pick(&[1, 2, 2, 2]);
    let mut book = Book::new(rng.range(fewest, most) as u16, layers as u8);
    for (earlier, later) in arrows {
        book = book.arrow(order[earlier], order[later]);
    }
    rng.shuffle(&mut book.arrows);
    for _ in 0..rng.range(1, 4) {
        book = with_motif(rng, book);
    }
    let sizes = Sizes {
        atoms: usize::from(book.atoms),
        layers,
        arrows: 0,
        rules: 0,
        body: (0, 3),
        negated_heads: rng.pick(&[10, 30, 50]),
        constraints: 0,
    };
    for _ in 0..rng.range(0, 4) {
        let rule = rule(rng, &sizes);
        book.rules.push(rule);
    }
    let constraints = rng.pick(&[0, 0, 0, 1, 2]);
    with_constraints(rng, book, constraints)
}

/// The same with a raised share of rules that lean on themselves. Each says what some rule of the book
/// says, or more often the opposite, and this mostly in a layer right above it. Its head stands in its
/// body once or twice, at any place. Some have beside them the same rule without its head in the body,
/// or with the opposite of its head there: these do displace. For a quarter of them there comes what
/// tells the latter from a rule that leans on itself.
pub fn leaning(rng: &mut Rng, layering: Layering) -> Book {
    let mut book = layered(rng, layering);
    let atoms = usize::from(book.atoms);
    for _ in 0..rng.range(1, 5) {
        let about = any_rule(rng, &book);
        let head = match rng.chance(75) {
            true => about.head.opposite(),
            false => about.head,
        };
        let above = book.arrows.iter().filter(|up| up.earlier == about.layer);
        let above: Vec<u8> = above.map(|up| up.later).collect();
        let layer = match above.is_empty() || rng.chance(25) {
            true => rng.below(book.layers.into()) as u8,
            false => rng.pick(&above),
        };
        let mut others = Vec::new();
        for _ in 0..rng.below(3) {
            others.push(match rng.chance(50) {
                true => literal(rng, atoms, 50),
                false => any_rule(rng, &book).head,
            });
        }
        let mut body = others.clone();
        for _ in 0..rng.range(1, 2) {
            body.insert(rng.range(0, body.len()), head);
        }
        book = book.rule(layer, head, &body);
        book = match rng.below(4) {
            0 => book.rule(layer, head, &others),
            1 => book.rule(layer, head, &[&others[..], &[head.opposite()]].concat()),
            2 => leans_on_the_opposite(rng, book, head),
            _ => book,
        };
    }
    rng.shuffle(&mut book.rules);
    book
}

/// Along two arrows: the opposite of a head, and a fact that follows it; the head if its opposite; and
/// the opposite again if that fact stands. The first rule is displaced where the last two hold, though
/// the second is displaced too; then nothing reaches the fact that the last one leans on.
fn leans_on_the_opposite(rng: &mut Rng, book: Book, head: Literal) -> Book {
    let opposite = head.opposite();
    let follower = plain(rng.below(book.atoms.into()) as u16);
    let arrows = book.arrows.iter();
    let mut two = arrows.flat_map(|up| book.arrows.iter().map(move |next| (*up, *next)));
    match two.find(|(up, next)| up.later == next.earlier) {
        Some((up, next)) => book
            .rule(up.earlier, opposite, &[])
            .rule(up.earlier, follower, &[opposite])
            .rule(up.later, head, &[opposite])
            .rule(next.later, opposite, &[follower]),
        None => book,
    }
}

/// A small lawful book with several choices that are free of each other, in all forms, and a little
/// beside them: up to 16 stable states are common.
pub fn crowded(rng: &mut Rng, layering: Layering) -> Book {
    let mut book = loop {
        let book = layered(rng, layering);
        if !book.arrows.is_empty() {
            break book;
        }
    };
    book.atoms = book.atoms.max(rng.range(5, 8) as u16);
    book.rules.truncate(rng.below(3));
    let mut atoms: Vec<u16> = (0..book.atoms).collect();
    rng.shuffle(&mut atoms);
    for two in atoms.chunks_exact(2) {
        let (f, h) = (two[0], two[1]);
        let up = rng.pick(&book.arrows);
        book = match rng.below(4) {
            0 => choice(book, up.earlier, f, h),
            1 => each_displaces_the_other(book, up, f, h),
            2 => free(book, up, f, h),
            // The same, and beside the rules that displace one that leans on itself.
            _ => {
                let head = rng.pick(&[plain(f), not(f)]);
                free(book, up, f, h).rule(up.later, head, &[head])
            }
        };
    }
    let constraints = rng.pick(&[0, 0, 0, 1, 2]);
    with_constraints(rng, book, constraints)
}

/// A small lawful book with constraints. In many of them one is about a fact that follows another, and
/// so need not branch.
pub fn constrained(rng: &mut Rng, layering: Layering) -> Book {
    let mut book = match rng.chance(50) {
        true => layered(rng, layering),
        false => crowded(rng, layering),
    };
    if book.atoms < 8 && rng.chance(70) {
        let followed = any_rule(rng, &book);
        let follower = Literal {
            atom: book.atoms,
            negated: rng.chance(50),
        };
        book.atoms += 1;
        book = book
            .rule(followed.layer, plain(follower.atom), &[followed.head])
            .never(followed.layer, &[follower]);
    }
    let number = rng.range(1, 3);
    with_constraints(rng, book, number)
}

/// The same book with so many constraints more, of any layers, and its rules in another order. It must
/// have a rule that is no constraint. The bodies are about what the rules say; some are empty, some hold
/// nowhere, and some are those of the constraint before.
fn with_constraints(rng: &mut Rng, mut book: Book, number: usize) -> Book {
    let mut body: Vec<Literal> = Vec::new();
    for _ in 0..number {
        if body.is_empty() || rng.chance(90) {
            body = (0..rng.range(1, 3))
                .map(|_| match rng.chance(60) {
                    true => any_rule(rng, &book).head,
                    false => literal(rng, book.atoms.into(), 50),
                })
                .collect();
        }
        match rng.below(20) {
            0 => body.clear(),
            1 => body.extend(body.first().map(|literal| literal.opposite())),
            _ => {}
        }
        let layer = rng.below(book.layers.into()) as u8;
        book = book.never(layer, &body);
    }
    rng.shuffle(&mut book.rules);
    book
}

/// A rule that is no constraint. The book must have one.
fn any_rule(rng: &mut Rng, book: &Book) -> Rule {
    loop {
        let rule = &book.rules[rng.below(book.rules.len())];
        if !rule.is_constraint() {
            return rule.clone();
        }
    }
}

/// A fact that may stand or not, h, and one that stands with it: a quarrel about f, h as it follows f,
/// and above them f as it follows h.
fn free(book: Book, up: Arrow, f: u16, h: u16) -> Book {
    conflict(book, up.earlier, plain(f), &[])
        .rule(up.earlier, plain(h), &[plain(f)])
        .rule(up.later, plain(f), &[plain(h)])
        .rule(up.later, not(f), &[not(h)])
}

/// Each of two rules displaces what the other leans on.
fn each_displaces_the_other(book: Book, up: Arrow, f: u16, h: u16) -> Book {
    book.rule(up.earlier, plain(f), &[])
        .rule(up.earlier, plain(h), &[])
        .rule(up.later, not(f), &[plain(h)])
        .rule(up.later, not(h), &[plain(f)])
}

/// A few rules more that belong together.
fn with_motif(rng: &mut Rng, book: Book) -> Book {
    let atoms = usize::from(book.atoms);
    let f = rng.below(atoms) as u16;
    // Mostly another one.
    let h = match rng.chance(90) {
        true => (f + rng.range(1, atoms.max(2) - 1) as u16) % book.atoms,
        false => f,
    };
    let layer = rng.below(usize::from(book.layers)) as u8;
    let mut sign = |atom| Literal {
        atom,
        negated: rng.chance(50),
    };
    let (head, other) = (sign(f), sign(h));
    let body: &[Literal] = match rng.chance(40) {
        true => &[other],
        false => &[],
    };
    // A rule of a layer above that leans on itself, or on a fact that follows its head below.
    let leaning = rng.chance(25);
    let leans = |book: Book, below: u8, above: u8| match leaning {
        true => book.rule(above, head, &[head]),
        false => book
            .rule(below, plain(h), &[head])
            .rule(above, head, &[plain(h)]),
    };
    let Some(&up) = book.arrows.get(rng.below(book.arrows.len().max(1))) else {
        return match rng.below(4) {
            0 => conflict(book, layer, head, body),
            1 => book.rule(layer, head, &[head]),
            2 => circle(book, layer, f, h),
            _ => choice(book, layer, f, h),
        };
    };
    let further = book.arrows.iter().find(|next| next.earlier == up.later);
    let beside = book
        .arrows
        .iter()
        .find(|other| other.later == up.later && other.earlier != up.earlier);
    match (rng.below(16), further.copied(), beside.copied()) {
        (0, ..) => conflict(book, layer, head, body),
        (1, ..) => book.rule(layer, head, &[head]),
        (2, ..) => circle(book, layer, f, h),
        (3, ..) => choice(book, layer, f, h),
        // A quarrel, and a rule above it.
        (4, ..) => leans(conflict(book, up.earlier, head, body), up.earlier, up.later),
        (5, ..) => each_displaces_the_other(book, up, f, h),
        // Displaced where both do not stand, but with no other rules for the opposite.
        (6, ..) => book
            .rule(up.earlier, plain(f), body)
            .rule(up.earlier, plain(h), &[])
            .rule(up.later, not(f), &[not(h)])
            .rule(up.later, not(h), &[not(f)]),
        // The displacing rule is itself displaced.
        (7..=10, Some(further), _) => {
            let book = book
                .rule(up.earlier, head, &[])
                .rule(up.later, head.opposite(), body);
            leans(book, up.earlier, further.later)
        }
        // A quarrel between two layers side by side, and one above both.
        (7..=14, _, Some(beside)) => {
            let book = book
                .rule(up.earlier, head, &[])
                .rule(beside.earlier, head.opposite(), body);
            leans(book, up.earlier, up.later)
        }
        _ => book
            .rule(up.earlier, head, body)
            .rule(up.later, head.opposite(), &[other]),
    }
}

fn conflict(book: Book, layer: u8, head: Literal, body: &[Literal]) -> Book {
    book.rule(layer, head, body)
        .rule(layer, head.opposite(), &[])
}

fn circle(book: Book, layer: u8, f: u16, h: u16) -> Book {
    book.rule(layer, plain(f), &[plain(h)])
        .rule(layer, plain(h), &[plain(f)])
}

/// "f if not h" and "h if not f" in a layer.
pub fn choice(book: Book, layer: u8, f: u16, h: u16) -> Book {
    book.rule(layer, plain(f), &[not(h)])
        .rule(layer, plain(h), &[not(f)])
}

/// A lawful book of any size and a state that is stable at `layer`.
pub struct Planted {
    pub book: Book,
    pub layer: u8,
    pub state: Vec<bool>,
}

pub fn planted(rng: &mut Rng) -> Planted {
    let sizes = Sizes {
        atoms: any_atoms(rng),
        layers: rng.range(2, 32),
        arrows: 0,
        rules: rng.range(0, 1024),
        body: (0, rng.pick(&[1, 3, 16])),
        negated_heads: 50,
        constraints: rng.pick(&[0, 10, 50]),
    };
    plant(rng, &sizes)
}

/// The same in the largest lawful book, with 1,024 rules of 16 literals.
pub fn planted_largest(rng: &mut Rng, atoms: u16) -> Planted {
    plant_largest(rng, atoms, 0)
}

/// The same with constraints for most of the rules that the state does not need.
pub fn planted_constrained(rng: &mut Rng, atoms: u16) -> Planted {
    plant_largest(rng, atoms, 80)
}

fn plant_largest(rng: &mut Rng, atoms: u16, constraints: usize) -> Planted {
    let sizes = Sizes {
        atoms: atoms.into(),
        layers: 32,
        arrows: 0,
        rules: 1024,
        body: (16, 16),
        negated_heads: 50,
        constraints,
    };
    plant(rng, &sizes)
}

/// Each fact that stands has a rule over facts that come before it in a hidden order. Some rules
/// say the opposite of the state, under a layer that displaces them; and the body of every other
/// rule that could contradict the state, or rule it out, does not hold in it. There are no more rules
/// than asked for, but for those that the state needs.
fn plant(rng: &mut Rng, sizes: &Sizes) -> Planted {
    let order = hidden_order(rng, sizes.layers);
    let mut book = Book::new(sizes.atoms as u16, sizes.layers as u8);
    book.arrows = all_arrows(&order);
    rng.shuffle(&mut book.arrows);
    let mut hidden: Vec<u16> = (0..book.atoms).collect();
    rng.shuffle(&mut hidden);
    // Of many facts fewer stand and are contested, so that half of the rules need not speak of these.
    let share = |percent: usize| percent * 512 / sizes.atoms.max(512);
    let mut state: Vec<bool> = (0..sizes.atoms).map(|_| rng.chance(share(50))).collect();
    // The first one has nothing to lean on but its default.
    state[usize::from(hidden[0])] = false;
    let right = |atom: u16| Literal {
        atom,
        negated: !state[usize::from(atom)],
    };
    let (fewest, most) = sizes.body;
    for (at, &atom) in hidden.iter().enumerate().skip(1) {
        let before = |rng: &mut Rng| -> Vec<Literal> {
            (0..rng.range(fewest, most))
                .map(|_| right(hidden[rng.below(at)]))
                .collect()
        };
        let contested = rng.chance(share(30));
        let upper = rng.range(1, sizes.layers - 1);
        if contested || state[usize::from(atom)] {
            let body = before(rng);
            book = book.rule(order[upper], right(atom), &body);
        }
        if contested {
            let body = before(rng);
            let lower = order[rng.below(upper)];
            book = book.rule(lower, right(atom).opposite(), &body);
        }
    }
    while book.rules.len() < sizes.rules {
        let mut rule = rule(rng, sizes);
        if rule.is_constraint() || rule.head != right(rule.head.atom) {
            if rule.body.is_empty() {
                continue;
            }
            let at = rng.below(rule.body.len());
            rule.body[at] = right(rule.body[at].atom).opposite();
        }
        book.rules.push(rule);
    }
    rng.shuffle(&mut book.rules);
    Planted {
        book,
        layer: order[sizes.layers - 1],
        state,
    }
}

/// 1,024 rules of 16 literals in the worst order for filling: each pass goes through nearly all of
/// them to their last literals and reaches one fact more. In its one stable state, at layer 0, all
/// facts stand but the last.
pub fn worst_order(atoms: u16) -> Planted {
    let last = atoms - 1;
    let body = |literal| {
        let mut body = vec![not(last); 15];
        body.push(literal);
        body
    };
    let mut book = Book::new(atoms, 1);
    for _ in 0..1024 - last {
        book = book.rule(0, plain(last), &body(plain(last)));
    }
    for atom in (1..last).rev() {
        book = book.rule(0, plain(atom), &body(plain(atom - 1)));
    }
    let book = book.rule(0, plain(0), &body(not(last)));
    let mut state = vec![true; atoms.into()];
    state[usize::from(last)] = false;
    Planted {
        book,
        layer: 0,
        state,
    }
}

/// A lawful book with something in it to damage: an arrow and a rule at least.
fn eventful(rng: &mut Rng) -> Book {
    loop {
        let book = small(rng);
        if !book.arrows.is_empty() && !book.rules.is_empty() {
            return book;
        }
    }
}

/// A lawful book of any size.
pub fn large(rng: &mut Rng) -> Book {
    let layers = rng.range(1, 32);
    let sizes = Sizes {
        atoms: any_atoms(rng),
        layers,
        arrows: rng.range(0, pairs(layers)),
        rules: rng.range(0, 1024),
        body: (0, 16),
        negated_heads: 50,
        constraints: rng.pick(&[0, 10, 50]),
    };
    lawful(rng, sizes)
}

/// The largest lawful book: 38,372 bytes. Its arrows are those of a line of 32 layers, all of
/// them, and the first of its arrows leads from the line's first layer to its last.
pub fn largest(rng: &mut Rng, atoms: u16) -> Book {
    let sizes = Sizes {
        atoms: atoms.into(),
        layers: 32,
        arrows: 0,
        rules: 1024,
        body: (16, 16),
        negated_heads: 50,
        constraints: 0,
    };
    let mut book = lawful(rng, sizes);
    let order = hidden_order(rng, 32);
    let ends = Arrow {
        earlier: order[0],
        later: order[31],
    };
    let mut others = all_arrows(&order);
    others.retain(|&arrow| arrow != ends);
    rng.shuffle(&mut others);
    book.arrows = vec![ends];
    book.arrows.extend(others);
    book
}

/// Few layers and arrows between any two of them: equal arrows, self-arrows and cycles come up.
pub fn arrow_graph(rng: &mut Rng) -> Book {
    let layers = rng.pick(&[1, 2, 3, 4, 6, 9, 16, 32]);
    let mut book = Book::new(1, layers as u8);
    let number = rng.range(0, layers + 1);
    let forward = rng.chance(50);
    for _ in 0..number {
        let (a, b) = (rng.below(layers) as u8, rng.below(layers) as u8);
        let turned = forward && a > b;
        book = book.arrow(if turned { b } else { a }, if turned { a } else { b });
    }
    book
}

/// A line of layers through a hidden order, closed to a circle half of the time.
pub fn line_or_circle(rng: &mut Rng) -> Book {
    let layers = rng.range(1, 32);
    let order = hidden_order(rng, layers);
    let mut book = Book::new(1, layers as u8);
    for two in order.windows(2) {
        book = book.arrow(two[0], two[1]);
    }
    if rng.chance(50) {
        book = book.arrow(order[layers - 1], order[0]);
    }
    rng.shuffle(&mut book.arrows);
    book
}

pub fn small_lawful(rng: &mut Rng) -> Vec<u8> {
    small(rng).bytes()
}

pub fn large_lawful(rng: &mut Rng) -> Vec<u8> {
    large(rng).bytes()
}

pub fn arrow_graphs(rng: &mut Rng) -> Vec<u8> {
    match rng.chance(70) {
        true => arrow_graph(rng).bytes(),
        false => line_or_circle(rng).bytes(),
    }
}

/// A lawful book cut off, with the length field as it was or as it would have to be.
pub fn truncated(rng: &mut Rng) -> Vec<u8> {
    let mut bytes = small(rng).bytes();
    bytes.truncate(rng.below(bytes.len()));
    if rng.chance(60) {
        repair_length(&mut bytes);
    }
    bytes
}

/// B or a lawful book with one byte changed.
pub fn damaged_once(rng: &mut Rng) -> Vec<u8> {
    damaged(rng, 1)
}

/// B or a lawful book with two bytes changed.
pub fn damaged_twice(rng: &mut Rng) -> Vec<u8> {
    damaged(rng, 2)
}

fn damaged(rng: &mut Rng, times: usize) -> Vec<u8> {
    let mut bytes = match rng.chance(30) {
        true => B.to_vec(),
        false => small(rng).bytes(),
    };
    for _ in 0..times {
        // Small values keep records and sections close to lawful ones.
        let value = match rng.chance(50) {
            true => rng.below(8) as u8,
            false => rng.byte(),
        };
        let at = rng.below(bytes.len());
        bytes[at] = if bytes[at] == value { !value } else { value };
    }
    bytes
}

/// A large lawful book with one or two bytes changed, the length field left alone.
pub fn large_damaged(rng: &mut Rng) -> Vec<u8> {
    let mut bytes = large(rng).bytes();
    for _ in 0..rng.range(1, 2) {
        let at = rng.range(5, bytes.len() - 1);
        bytes[at] ^= 1 << rng.below(8);
    }
    bytes
}

/// Bytes put in or taken out somewhere, with the length field repaired.
pub fn resized(rng: &mut Rng) -> Vec<u8> {
    let mut bytes = small(rng).bytes();
    for _ in 0..rng.range(1, 3) {
        let at = rng.range(5, bytes.len() - 1);
        match rng.chance(50) {
            true => bytes.insert(at, rng.below(4) as u8),
            false => drop(bytes.remove(at)),
        }
    }
    repair_length(&mut bytes);
    bytes
}

/// A section's size field that misses the end of its records, or bytes behind the rule section.
pub fn missed_ends(rng: &mut Rng) -> Vec<u8> {
    let mut draft = small(rng).draft();
    miss_an_end(rng, &mut draft);
    draft.bytes()
}

/// A count that is not the number of records.
pub fn wrong_counts(rng: &mut Rng) -> Vec<u8> {
    let mut draft = small(rng).draft();
    miscount(rng, &mut draft);
    draft.bytes()
}

/// Facts, layers and counts around their bounds.
pub fn odd_ranges(rng: &mut Rng) -> Vec<u8> {
    let mut draft = small(rng).draft();
    if rng.chance(70) {
        draft.atoms = rng.pick(&[
            0,
            1,
            2,
            BYTE_ATOMS - 1,
            BYTE_ATOMS,
            BYTE_ATOMS + 1,
            MAX_ATOMS - 1,
            MAX_ATOMS,
            MAX_ATOMS + 1,
            MAX_ATOMS + BYTE_ATOMS,
            2 * MAX_ATOMS,
            0x8000,
            0x8001,
            0xFFFF,
        ]);
    }
    if rng.chance(70) {
        draft.layers = rng.pick(&[0, 1, 2, 31, 32, 33, 34, 64, 128, 255]);
    }
    if rng.chance(5) {
        draft.rules.records = vec![framed(&[0, 0, 0]); rng.range(1020, 1028)];
    }
    if rng.chance(5) {
        draft.layers = 32;
        let arrows = all_arrows(&hidden_order(rng, 32));
        let records = arrows
            .iter()
            .map(|arrow| framed(&[arrow.earlier, arrow.later]));
        draft.arrows.records = records.collect();
        let spare = framed(&[0, rng.below(32) as u8]);
        draft.arrows.records.resize(rng.range(494, 499), spare);
    }
    draft.bytes()
}

/// A well-framed record whose length is not of its kind, or with a layer or a fact too high.
pub fn unlawful_records(rng: &mut Rng) -> Vec<u8> {
    let book = eventful(rng);
    let mut draft = book.draft();
    break_a_record(rng, &book, &mut draft);
    draft.bytes()
}

/// Heads and body literals around the last numbers, of which one is a lawful head.
pub fn odd_literals(rng: &mut Rng) -> Vec<u8> {
    let book = eventful(rng);
    let mut draft = book.draft();
    for _ in 0..rng.range(1, 2) {
        let at = rng.below(draft.rules.records.len());
        let record = &mut draft.rules.records[at];
        let number = match rng.chance(50) {
            true => 0x7FFF,
            false => rng.pick(&[book.atoms - 1, book.atoms, 0x7FFE, 0xFFFE, 0xFFFF]),
        };
        // Mostly the head.
        let literals = (record.len() - 2) / 2;
        let place = rng.below(literals) * rng.below(2);
        put_literal(record, place, number);
    }
    draft.bytes()
}

/// Puts a literal into a rule's record: 0 is the head's place.
fn put_literal(record: &mut [u8], place: usize, number: u16) {
    let at = 2 + 2 * place;
    record[at..at + 2].copy_from_slice(&number.to_be_bytes());
}

/// Sections of random records behind a lawful or nearly lawful head.
pub fn random_records(rng: &mut Rng) -> Vec<u8> {
    let mut section = |lengths: &[usize]| {
        let mut records = Vec::new();
        for _ in 0..rng.range(0, 3) {
            let length = rng.pick(lengths);
            let contents: Vec<u8> = (0..length).map(|_| rng.below(3) as u8).collect();
            records.push(framed(&contents));
        }
        Section::new(records)
    };
    let arrows = section(&[2, 2, 2, 2, 2, 2, 0, 1, 3]);
    let rules = section(&[3, 3, 5, 5, 7, 35, 0, 1, 2, 4, 37, 255]);
    let facts = rng.range(1, usize::from(MAX_ATOMS) + 200) as u16;
    let mut draft = Book::new(facts, rng.range(1, 6) as u8).draft();
    draft.arrows = arrows;
    draft.rules = rules;
    draft.bytes()
}

/// Random bytes, most of them with a lawful version and length.
pub fn noise(rng: &mut Rng) -> Vec<u8> {
    let number = rng.below(120);
    let mut bytes: Vec<u8> = (0..number)
        .map(|_| match rng.chance(60) {
            true => rng.below(4) as u8,
            false => rng.byte(),
        })
        .collect();
    if number > 8 && rng.chance(80) {
        bytes[0] = 1;
        repair_length(&mut bytes);
    }
    if number > 14 && rng.chance(80) {
        let size = rng.below(number) as u8;
        bytes[8..14].copy_from_slice(&[0, 0, 0, size, 0, size / 3]);
    }
    bytes
}

/// Some of the causes at once, any of them.
pub fn several_causes(rng: &mut Rng) -> Vec<u8> {
    let causes = rng.below(256) & rng.below(256) & rng.below(256);
    with_causes(rng, causes as u8)
}

/// A name for messages, and a generator.
pub type Shape = (&'static str, fn(&mut Rng) -> Vec<u8>);

pub const EVERY_SHAPE: [Shape; 16] = [
    ("small lawful", small_lawful),
    ("large lawful", large_lawful),
    ("arrow graphs", arrow_graphs),
    ("truncated", truncated),
    ("damaged once", damaged_once),
    ("damaged twice", damaged_twice),
    ("large damaged", large_damaged),
    ("resized", resized),
    ("missed ends", missed_ends),
    ("wrong counts", wrong_counts),
    ("odd ranges", odd_ranges),
    ("unlawful records", unlawful_records),
    ("odd literals", odd_literals),
    ("random records", random_records),
    ("noise", noise),
    ("several causes", several_causes),
];

/// A book of the shape that is refused, or whose search is short: of few facts, or of so many that
/// where there are many rules, too many facts branch.
pub fn quick(rng: &mut Rng, generate: fn(&mut Rng) -> Vec<u8>) -> Vec<u8> {
    loop {
        let bytes = generate(rng);
        match reader::read(&bytes) {
            Ok(book) if (13..40).contains(&book.atoms) && book.rules.len() > 20 => continue,
            _ => return bytes,
        }
    }
}

/// A set of layers to switch off in a book with so many: none of them half of the time.
pub fn some_layers(rng: &mut Rng, layers: u8) -> u32 {
    let all = all_layers(layers);
    let one = 1 << rng.below(layers.into());
    match rng.below(8) {
        0..=3 => 0,
        4 => one,
        5 => all & !one,
        _ => all & rng.word() as u32,
    }
}

/// A set with a layer that a book with so many, fewer than 32, does not have.
pub fn absent_layers(rng: &mut Rng, layers: u8) -> u32 {
    let any = rng.range(layers.into(), 31) as u8;
    let absent = rng.pick(&[layers, any, 31]);
    let any = rng.word() as u32;
    1 << absent | rng.pick(&[0, any & all_layers(layers), any, u32::MAX])
}

/// A drive: a layer and a set that the bytes' field for layers allows, most of the time.
pub fn any_drive(rng: &mut Rng, book: &[u8]) -> Drive {
    let layers = book.get(7).copied().unwrap_or(1).clamp(1, 32);
    let off = match rng.below(20) {
        0..=1 if layers < 32 => absent_layers(rng, layers),
        2 => rng.word() as u32,
        _ => some_layers(rng, layers),
    };
    at(any_layer(rng, book)).off(off)
}

/// A driven layer: one that the bytes' field for layers allows, most of the time.
fn any_layer(rng: &mut Rng, book: &[u8]) -> u32 {
    let layers = usize::from(book.get(7).copied().unwrap_or(1));
    match rng.below(20) {
        0 => layers as u32,
        1 => layers as u32 + rng.below(3) as u32,
        2 => rng.pick(&NO_LAYERS),
        _ => rng.below(layers.max(1)) as u32,
    }
}

/// The same book with two facts more that follow others, and then all under random numbers: facts that
/// do not branch come before branching ones more often so.
pub fn with_followers(rng: &mut Rng, mut book: Book) -> Book {
    for _ in 0..2 {
        let follower = book.atoms;
        book.atoms += 1;
        for _ in 0..rng.range(1, 2) {
            let followed = Literal {
                atom: rng.below(follower.into()) as u16,
                negated: rng.chance(60),
            };
            let layer = rng.below(book.layers.into()) as u8;
            book = book.rule(layer, plain(follower), &[followed]);
        }
    }
    let mut numbers: Vec<u16> = (0..book.atoms).collect();
    rng.shuffle(&mut numbers);
    book.renumbered(&numbers)
}

/// Every order of so many things.
pub fn permutations(number: u16) -> Vec<Vec<u16>> {
    let Some(last) = number.checked_sub(1) else {
        return vec![Vec::new()];
    };
    let with_last = |shorter: Vec<u16>| {
        (0..number).map(move |place| {
            let mut longer = shorter.clone();
            longer.insert(place.into(), last);
            longer
        })
    };
    permutations(last).into_iter().flat_map(with_last).collect()
}

/// Candidates for a book of so many facts that are no record of it: of other lengths, and with a spare
/// bit set, alone and beside all facts.
pub fn wrong_candidates(atoms: u16) -> Vec<Vec<u8>> {
    let right = width(atoms);
    let longer = [right + 1, 2 * right, 256 + right, 65_536 + right];
    let lengths = (0..right).chain(longer);
    let mut wrong: Vec<Vec<u8>> = lengths.map(|length| vec![0; length]).collect();
    let spare = 8 * right - usize::from(atoms);
    for bit in 0..spare {
        for others in [0x00, 0xFF] {
            let mut candidate = vec![others; right];
            candidate[right - 1] &= 0xFF << spare;
            candidate[right - 1] |= 1 << bit;
            wrong.push(candidate);
        }
    }
    wrong
}

/// A candidate for a book of so many facts: a fitting one half of the time.
pub fn any_candidate(rng: &mut Rng, atoms: usize) -> Vec<u8> {
    let mut candidate = rng.bytes(atoms.div_ceil(8));
    let spare = candidate.len() * 8 - atoms;
    if let Some(last) = candidate.last_mut() {
        *last &= 0xFF << spare;
        if rng.chance(15) {
            *last |= rng.byte();
        }
    }
    match rng.below(10) {
        0 => candidate.push(0),
        1 => drop(candidate.pop()),
        _ => (),
    }
    candidate
}

/// A book to which each cause of `causes` applies (bit c - 1 for cause c), and none smaller than
/// the smallest of them. With no cause the book is lawful.
pub fn with_causes(rng: &mut Rng, causes: u8) -> Vec<u8> {
    let lawful = eventful(rng);
    broken(rng, &lawful, causes)
}

/// The same, made from a lawful book with an arrow and a rule at least.
pub fn broken(rng: &mut Rng, lawful: &Book, causes: u8) -> Vec<u8> {
    let wanted = |cause: u8| causes >> (cause - 1) & 1 == 1;
    let mut book = lawful.clone();
    if wanted(8) {
        close_a_cycle(rng, &mut book);
    }
    if wanted(7) {
        let arrow = rng.pick(&lawful.arrows);
        book.arrows.push(arrow);
    }
    rng.shuffle(&mut book.arrows);
    let mut draft = book.draft();
    if wanted(6) {
        break_a_record(rng, lawful, &mut draft);
    }
    if wanted(5) {
        leave_a_range(rng, &mut draft);
    }
    if wanted(4) {
        match rng.chance(50) {
            true => miss_an_end(rng, &mut draft),
            false => miscount(rng, &mut draft),
        }
    }
    if wanted(3) {
        let right = draft.bytes().len() as u32;
        let wrong = [right - 1, right + 1, right << 8, 0, u32::MAX, !right];
        draft.length = Some(rng.pick(&wrong));
    }
    if wanted(2) {
        draft.version = rng.pick(&[0, 2, 3, 129, 255]);
    }
    let mut bytes = draft.bytes();
    if wanted(1) {
        bytes.truncate(rng.below(20));
    }
    bytes
}

fn repair_length(bytes: &mut [u8]) {
    let length = bytes.len() as u32;
    set_length(bytes, length);
}

/// Adds an arrow that closes a cycle and equals no other: a self-arrow, or an arrow turned round.
fn close_a_cycle(rng: &mut Rng, book: &mut Book) {
    let Arrow { earlier, later } = rng.pick(&book.arrows);
    book.arrows.push(match rng.chance(50) {
        true => Arrow {
            earlier: later,
            later: earlier,
        },
        false => Arrow {
            earlier,
            later: earlier,
        },
    });
}

fn any_section<'a>(rng: &mut Rng, draft: &'a mut Draft) -> &'a mut Section {
    match rng.chance(50) {
        true => &mut draft.arrows,
        false => &mut draft.rules,
    }
}

/// Cause 4 by a size field that is not the size, or by bytes behind the rule section.
fn miss_an_end(rng: &mut Rng, draft: &mut Draft) {
    if rng.chance(15) {
        draft.tail = vec![0; rng.range(1, 8)];
        return;
    }
    let section = any_section(rng, draft);
    let size = section.true_size();
    let delta = rng.range(1, 8) as u32;
    let wrong = match rng.below(6) {
        0 => size.wrapping_sub(delta),
        1 => size + delta,
        2 => size + 6, // up to the end of the next section's fields
        3 => u32::MAX,
        4 => u32::MAX - rng.below(40) as u32, // sums with an offset wrap round
        _ => size | 1 << rng.range(16, 31),
    };
    section.size = Some(wrong);
}

/// Cause 4 by a count that is not the number of records.
fn miscount(rng: &mut Rng, draft: &mut Draft) {
    let section = any_section(rng, draft);
    let number = section.records.len() as u16;
    let wrong = [number + 1, number + 256, number.wrapping_sub(1), u16::MAX];
    section.count = Some(rng.pick(&wrong));
}

/// Cause 5 by one of the four ranges.
fn leave_a_range(rng: &mut Rng, draft: &mut Draft) {
    match rng.below(10) {
        0..=3 => draft.atoms = rng.pick(&[0, MAX_ATOMS + 1, 2 * MAX_ATOMS, 0x8000, 0xFFFF]),
        4..=7 => draft.layers = rng.pick(&[0, 33, 64, 255]),
        8 => draft
            .arrows
            .records
            .resize(rng.range(497, 520), framed(&[0, 0])),
        _ => draft
            .rules
            .records
            .resize(rng.range(1025, 1040), framed(&[0, 0, 0])),
    }
}

/// Cause 6 by one record that a book with the facts and layers of `book` cannot have.
fn break_a_record(rng: &mut Rng, book: &Book, draft: &mut Draft) {
    let layer = rng.pick(&[book.layers, book.layers + 1, 32, 255]);
    if rng.chance(40) {
        let at = rng.below(draft.arrows.records.len());
        let record = &mut draft.arrows.records[at];
        match rng.below(3) {
            0 => record[1] = layer,
            1 => record[2] = layer,
            _ => *record = framed(&vec![0; rng.pick(&[0, 1, 3, 5, 255])]),
        }
        return;
    }
    let at = rng.below(draft.rules.records.len());
    let record = &mut draft.rules.records[at];
    match rng.below(3) {
        0 => record[1] = layer,
        1 => {
            let atom = rng.pick(&[book.atoms, book.atoms + 1, MAX_ATOMS, 0x7FFE, 0x7FFF]);
            let place = rng.below((record.len() - 2) / 2);
            // Of these, the plain 32,767 alone is a lawful head.
            let negated = rng.chance(50) || (place == 0 && atom == 0x7FFF);
            put_literal(record, place, atom | u16::from(negated) << 15);
        }
        _ => {
            *record = framed(&vec![
                0;
                rng.pick(&[0, 1, 2, 4, 6, 34, 36, 37, 39, 254, 255])
            ])
        }
    }
}
