//! `lesson_count` of the compiled archive against every state tried, with the tree that a condition was
//! written from, with a reader of another kind, and against counts that are known.

use lesson_tests::book::{hex, not, plain, Book, BYTE_ATOMS, MAX_ATOMS, WIDE};
use lesson_tests::causes::{every_set, fields, AnyBytes};
use lesson_tests::conditions::{self, nested, Hand, Tree, ALPHABET, DEEPEST, LONGEST};
use lesson_tests::drive::{all_layers, at, Drive};
use lesson_tests::expected::{
    fit_counts, Asked, BAD_CONDITION, NO_SUCH_FACT, TOO_DEEP, TOO_MANY_BRANCHING,
};
use lesson_tests::ffi;
use lesson_tests::known;
use lesson_tests::rng::{seed, Rng};
use lesson_tests::shapes::{self, Layering, B, NO_LAYERS};
use lesson_tests::sweep;
use lesson_tests::truth::Truth;
use std::thread;

/// For messages: as text, and in hexadecimal.
fn told(condition: &[u8]) -> String {
    let text = String::from_utf8_lossy(condition);
    format!("condition {text} ({})", hex(condition))
}

/// The engine's answer on fenced copies is the one expected.
fn assert_answer(what: &str, book: &[u8], drive: Drive, condition: &[u8], expected: u64) {
    let engine = ffi::count(book, drive, condition);
    assert!(
        engine == expected,
        "{what}, {drive}, {}: engine {engine:#X}, expected {expected:#X}\n{}",
        told(condition),
        hex(book)
    );
}

/// The states in which a condition holds, by the answer.
fn fitting(answer: u64) -> u64 {
    answer >> 40
}

/// The states, by the answer.
fn states(answer: u64) -> u64 {
    answer >> 16 & 0xFF_FFFF
}

/// So many facts that may stand or not: every state is stable.
fn every_state(choices: u16) -> (Vec<u8>, Drive, Vec<u16>) {
    let known = known::free(choices, 0, 2 * choices);
    let facts = (choices..2 * choices).collect();
    (known.book.bytes(), known.layer.into(), facts)
}

/// A book with all states of the facts 0, 1 and 2, each of which has a helper, fact 3, 4 or 5.
struct Three {
    bytes: Vec<u8>,
    drive: Drive,
    asked: Asked,
}

impl Three {
    fn new() -> Three {
        let (bytes, drive, facts) = every_state(3);
        assert_eq!(facts, [3, 4, 5], "a helper stands with its fact");
        let asked = Asked::new(&bytes, drive);
        Three {
            bytes,
            drive,
            asked,
        }
    }

    fn count(&self, condition: &str) -> u64 {
        let condition = condition.as_bytes();
        let expected = self.asked.count(condition);
        assert_answer("three facts", &self.bytes, self.drive, condition, expected);
        expected
    }

    /// The condition holds in so many of the eight states.
    fn assert_count(&self, condition: &str, count: usize) {
        assert_eq!(
            self.count(condition),
            fit_counts(3, 8, count),
            "{condition}"
        );
    }

    /// The condition is counted as the right reading is, which is fully bracketed, and the wrong reading
    /// would have another count.
    fn assert_trap(&self, condition: &str, right: &str, wrong: &str) {
        let counts = [condition, right, wrong].map(|text| fitting(self.count(text)));
        assert_eq!(counts[0], counts[1], "{condition} is not {right}");
        assert_ne!(counts[0], counts[2], "{condition} does not show {wrong}");
    }
}

#[test]
fn trap_and_binds_tighter_than_or() {
    let three = Three::new();
    three.assert_trap("0|1&2", "0|(1&2)", "(0|1)&2");
    three.assert_trap("0&1|2", "(0&1)|2", "0&(1|2)");
    three.assert_trap("0&1|!0&2", "(0&1)|((!0)&2)", "(0&(1|(!0)))&2");
    three.assert_count("0|1&2", 5);
    three.assert_count("0&1|2", 5);
}

#[test]
fn trap_and_is_not_or() {
    let three = Three::new();
    three.assert_count("0&1", 2);
    three.assert_count("0|1", 6);
    three.assert_count("0&1&2", 1);
    three.assert_count("0|1|2", 7);
    three.assert_count("0&!0", 0);
    three.assert_count("0|!0", 8);
}

#[test]
fn trap_not_is_about_the_next_part_alone() {
    let three = Three::new();
    three.assert_trap("!0&1", "(!0)&1", "!(0&1)");
    three.assert_trap("!0|1", "(!0)|1", "!(0|1)");
    three.assert_trap("!0&1|2", "((!0)&1)|2", "!((0&1)|2)");
    three.assert_trap("!(0)&1", "(!0)&1", "!(0&1)");
    three.assert_trap("!(0&1)|2", "(!(0&1))|2", "!((0&1)|2)");
    three.assert_count("!0&1", 2);
    three.assert_count("!0|1", 6);
}

#[test]
fn not_may_be_repeated_and_an_even_number_of_them_says_nothing() {
    let three = Three::new();
    three.assert_trap("!!(0&1)", "0&1", "!(0&1)");
    three.assert_trap("!!!(0&1)", "!(0&1)", "0&1");
    three.assert_trap("!!0|1&2", "0|(1&2)", "!(!(0|(1&2)&0))");
    three.assert_trap("!(!0&1)", "0|!1", "!!(0&1)");
    three.assert_trap("!!(0|1)", "0|1", "!(0|1)");
    three.assert_count("!(!(!(0)))&!!1", 2);
}

#[test]
fn brackets_override() {
    let three = Three::new();
    three.assert_count("(0|1)&2", 3);
    three.assert_count("0&(1|2)", 3);
    three.assert_count("!(0&1)", 6);
    three.assert_count("!(0|1)", 2);
    three.assert_count("(((0)))", 4);
    three.assert_count("(0)|(1)&(2)", 5);
}

/// Of a chain from the left and one from the right the counts are the same, and so is that of a mixed one
/// only where `&` is settled before `|` goes on.
#[test]
fn long_chains_go_on_to_their_end() {
    let three = Three::new();
    three.assert_count("0|1|2|0|1|2", 7);
    three.assert_count("0&1&2&0&1&2", 1);
    three.assert_count("0&1|0&2|1&2", 4);
    three.assert_count("(0|1)&(0|2)&(1|2)", 4);
    three.assert_count("0&!1|!0&1", 4);
    three.assert_count("0&!1&!2|!0&1&!2|!0&!1&2", 3);
    three.assert_count("(0|1&2|!0&1)&(2|!(1&0))", 5);
}

#[test]
fn the_desks_condition_is_counted() {
    let (bytes, drive, facts) = every_state(8);
    assert_eq!(facts, [8, 9, 10, 11, 12, 13, 14, 15]);
    // Fact 14 stands with its helper, 6; facts 2, 3 and 5 are helpers of other facts.
    let expected = fit_counts(8, 256, 64 + 64 - 16);
    assert_answer("desk", &bytes, drive, b"3&!14|(2&5)", expected);
    assert_answer("desk", &bytes, drive, b"03&!0014|(002&5)", expected);
    let asked = Asked::new(&bytes, drive);
    assert_eq!(asked.count(b"3&!14|(2&5)"), expected);
}

#[test]
fn book_b_at_its_layers() {
    for (layer, record, g) in [
        (1, [true, false, true], 1),
        (2, [true, false, false], 2),
        (3, [false, false, true], 2),
    ] {
        for (fact, stands) in ["0", "1", "2"].into_iter().zip(record) {
            let answer = fit_counts(g, 1, stands.into());
            assert_answer("B", &B, at(layer), fact.as_bytes(), answer);
            let answer = fit_counts(g, 1, (!stands).into());
            assert_answer("B", &B, at(layer), format!("!{fact}").as_bytes(), answer);
        }
    }
}

/// What a sweep has come to: counts of none, some and all of the states, and books without a state.
#[derive(Default, Debug)]
struct Swept {
    none: usize,
    some: usize,
    every: usize,
    stateless: usize,
}

impl Swept {
    fn tally(&mut self, answer: u64) {
        let of = match (fitting(answer), states(answer)) {
            (_, 0) => &mut self.stateless,
            (0, _) => &mut self.none,
            (some, states) if some < states => &mut self.some,
            _ => &mut self.every,
        };
        *of += 1;
    }

    fn assert_each(&self, least: usize) {
        let each = [self.none, self.some, self.every, self.stateless];
        assert!(each.iter().all(|&times| times > least), "{self:?}");
    }
}

/// Compares engine and oracle for random trees, written with random brackets, at every layer of `number`
/// books. What is expected is the number of states in which the tree holds: no reader has a part in it.
fn sweep(shape: &str, number: usize, generate: impl Fn(&mut Rng) -> Book) {
    let mut swept = Swept::default();
    let tried = sweep::layers(shape, number, generate, |at, rng| {
        let (models, branching) = (at.driven.stable_models(), at.driven.branching_count());
        for _ in 0..4 {
            let (condition, tree) = conditions::lawful(rng, at.book.atoms);
            let expected = fit_counts(branching, models.len(), tree.fitting(&models));
            assert_answer(at.what, at.bytes, at.drive, &condition, expected);
            swept.tally(expected);
        }
    });
    println!("{tried}, {swept:?}");
    swept.assert_each(100);
}

#[test]
fn counts_in_books_in_chains_are_the_oracles() {
    sweep("count, chains", 2_000, |rng| {
        shapes::layered(rng, Layering::Chain)
    });
}

#[test]
fn counts_in_books_in_diamonds_are_the_oracles() {
    sweep("count, diamonds", 2_000, |rng| {
        shapes::layered(rng, Layering::Diamond)
    });
}

#[test]
fn counts_in_books_with_any_arrows_are_the_oracles() {
    sweep("count, any arrows", 2_000, |rng| {
        shapes::layered(rng, Layering::Any)
    });
}

#[test]
fn counts_in_books_with_constraints_are_the_oracles() {
    sweep("count, constraints", 2_000, |rng| {
        shapes::constrained(rng, Layering::Any)
    });
}

#[test]
fn counts_in_books_with_many_states_are_the_oracles() {
    sweep("count, many states", 1_000, |rng| {
        shapes::crowded(rng, Layering::Diamond)
    });
}

/// The tree of every text, by the engine: in each of the 64 states of six facts alone, where the other
/// states are forbidden, it must say what the tree says.
#[test]
fn random_trees_hold_in_the_states_that_they_hold_in() {
    let seed = seed();
    let mut rng = Rng::named(seed, "count, trees");
    let (bytes, drive, facts) = every_state(6);
    let states: Vec<Vec<bool>> = (0..64u32)
        .map(|number| (0..12).map(|fact| number >> (fact % 6) & 1 == 1).collect())
        .collect();
    assert_eq!(facts[0], 6, "a helper stands with its fact");
    for index in 0..30_000 {
        let (condition, tree) = conditions::lawful(&mut rng, 12);
        let expected = fit_counts(6, 64, tree.fitting(&states));
        let what = format!("seed {seed}, tree {index}");
        assert_answer(&what, &bytes, drive, &condition, expected);
    }
}

/// One state alone is left by a constraint on each fact: the count says where the tree holds.
#[test]
fn a_tree_is_tried_on_each_state_by_itself() {
    let seed = seed();
    let mut rng = Rng::named(seed, "count, one state");
    for number in 0..8u32 {
        let stands = |fact: u16| number >> fact & 1 == 1;
        let mut book = known::free(3, 0, 6).book;
        for fact in 0..3 {
            let other = if stands(fact) { not(fact) } else { plain(fact) };
            book = book.never(1, &[other]);
        }
        let state: Vec<bool> = (0..6).map(|fact| stands(fact % 3)).collect();
        for _ in 0..400 {
            let (condition, tree) = conditions::lawful(&mut rng, 6);
            let expected = fit_counts(3, 1, tree.holds(&state).into());
            let what = format!("seed {seed}, state {number}");
            assert_answer(&what, &book.bytes(), at(1), &condition, expected);
        }
    }
}

/// Books for texts of any kind: of one fact, which stands, and of two, one of which stands.
fn small_books() -> [Book; 2] {
    [
        Book::new(1, 1).rule(0, plain(0), &[]),
        known::pairs(1, 0).book,
    ]
}

/// Strangers: what lies beside the digits, letters, blanks, other signs, and bytes above 127 that are
/// digits and signs but for their highest bit.
const STRANGERS: [u8; 14] = [
    b'/',
    b':',
    b'~',
    b'a',
    b' ',
    b'\n',
    b'-',
    0,
    b'^',
    b'[',
    b'0' | 0x80,
    b'&' | 0x80,
    b'(' | 0x80,
    0xFF,
];

/// Every text of so many bytes over an alphabet.
fn every_text(alphabet: &[u8], length: u32) -> impl Iterator<Item = Vec<u8>> + '_ {
    let base = alphabet.len();
    (0..base.pow(length)).map(move |mut number| {
        let mut digit = || {
            let digit = number % base;
            number /= base;
            alphabet[digit]
        };
        (0..length).map(|_| digit()).collect()
    })
}

#[test]
fn every_text_of_up_to_five_bytes_is_read_as_by_the_yard() {
    let seed = seed();
    let stranger = Rng::named(seed, "count, stranger").pick(&STRANGERS);
    let alphabet: Vec<u8> = ALPHABET.into_iter().chain([stranger]).collect();
    let (mut read, mut tried) = (0, 0);
    for book in small_books() {
        let (bytes, drive) = (book.bytes(), at(0));
        let asked = Asked::new(&bytes, drive);
        for length in 0..=5 {
            for condition in every_text(&alphabet, length) {
                let expected = asked.count(&condition);
                let what = format!("seed {seed}, {} facts", book.atoms);
                assert_answer(&what, &bytes, drive, &condition, expected);
                read += usize::from(expected & 0xFF == 0);
                tried += 1;
            }
        }
    }
    assert_eq!(tried, 2 * (1 + 8 + 64 + 512 + 4_096 + 32_768));
    println!("seed {seed}, count, short texts: {tried} texts, {read} counted");
    assert!(read > 200, "only {read} counted");
}

#[test]
fn every_stranger_is_outside_the_grammar_wherever_it_stands() {
    let (bytes, drive, _) = every_state(2);
    for stranger in 0..=255u8 {
        let known = stranger.is_ascii_digit() || ALPHABET.contains(&stranger);
        for lawful in ["0", "!1", "0&1", "(0|1)", "!(0)&1", "0123"] {
            for place in 0..=lawful.len() {
                let mut condition = lawful.as_bytes().to_vec();
                condition.insert(place, stranger);
                let expected = Truth::new(&bytes, drive).count(&condition);
                assert!(known || expected == BAD_CONDITION, "{}", told(&condition));
                assert_answer("a stranger", &bytes, drive, &condition, expected);
            }
        }
    }
}

/// Conditions to damage: each kind of part beside each other, and long ones.
fn to_damage(rng: &mut Rng) -> Vec<Vec<u8>> {
    let known = [
        "3&!1|(2&0)",
        "0",
        "!!0",
        "0003",
        "(0|1)&(2|3)",
        "!(!(0)&!1)",
        "0|1|2|3",
        "0&1&2&3",
        "((((0))))",
        "0&1|2&3",
    ];
    let known = known.map(|text| text.as_bytes().to_vec());
    let random = (0..40).map(|_| loop {
        let (text, _) = conditions::lawful(rng, 4);
        if text.len() <= 40 {
            return text;
        }
    });
    let random: Vec<Vec<u8>> = random.collect();
    let deep = [DEEPEST, DEEPEST + 1].map(|depth| nested(depth, b"1"));
    known.into_iter().chain(random).chain(deep).collect()
}

#[test]
fn every_damage_of_one_byte_is_read_as_by_the_yard() {
    let seed = seed();
    let mut rng = Rng::named(seed, "count, damage");
    let known = known::pairs(2, 0);
    let (bytes, drive) = (known.book.bytes(), known.layer.into());
    let asked = Asked::new(&bytes, drive);
    let (mut tried, mut read) = (0, 0);
    let mut compare = |condition: &[u8]| {
        let expected = asked.count(condition);
        let what = format!("seed {seed}, damaged");
        assert_answer(&what, &bytes, drive, condition, expected);
        tried += 1;
        read += usize::from(expected & 0xFF == 0);
    };
    for condition in to_damage(&mut rng) {
        for at in 0..condition.len() {
            for byte in 0..=255 {
                let mut damaged = condition.clone();
                damaged[at] = byte;
                compare(&damaged);
            }
            compare(&condition[..at]);
            compare(&condition[at..]);
            compare(&[&condition[..at], &condition[at + 1..]].concat());
            compare(&[&condition[..=at], &condition[at..]].concat());
        }
    }
    println!("seed {seed}, count, damaged: {tried} texts, {read} counted");
    assert!(read > 1_000 && tried > 50_000, "{read} of {tried}");
}

/// Every damage of conditions as long as they may be, by the bytes that occur in conditions.
#[test]
fn damaged_conditions_of_255_bytes_are_read_as_by_the_yard() {
    let seed = seed();
    let mut rng = Rng::named(seed, "count, long damage");
    let (bytes, drive, _) = every_state(2);
    let asked = Asked::new(&bytes, drive);
    for index in 0..6 {
        let condition = of_length(&mut rng, LONGEST, 4);
        for at in 0..condition.len() {
            for byte in ALPHABET.into_iter().chain([b'9', b' ']) {
                let mut damaged = condition.clone();
                damaged[at] = byte;
                let expected = asked.count(&damaged);
                let what = format!("seed {seed}, damaged {index}");
                assert_answer(&what, &bytes, drive, &damaged, expected);
            }
        }
    }
}

/// A lawful condition of so many bytes: one that is shorter, with `!` in front of some parts.
fn of_length(rng: &mut Rng, length: usize, atoms: u16) -> Vec<u8> {
    loop {
        let tree = conditions::any_tree(rng, length / 5, atoms);
        let hand = Hand {
            brackets: rng.pick(&[0, 5]),
            zeros: rng.pick(&[0, 10]),
        };
        let mut text = hand.text(rng, &tree);
        if text.len() > length || conditions::read_for(&text, atoms).is_err() {
            continue;
        }
        while text.len() < length {
            let at = rng.below(text.len());
            if at == 0 || b"!&|(".contains(&text[at - 1]) {
                text.insert(at, b'!');
            }
        }
        return text;
    }
}

#[test]
fn conditions_of_up_to_255_bytes_are_lawful_and_longer_ones_are_refused_16() {
    let seed = seed();
    let mut rng = Rng::named(seed, "count, lengths");
    let (bytes, drive, _) = every_state(3);
    let asked = Asked::new(&bytes, drive);
    for length in 250..=260 {
        for index in 0..40 {
            let condition = of_length(&mut rng, length.min(LONGEST), 6);
            let more = b"!".repeat(length - condition.len());
            let condition = [more, condition].concat();
            assert!(
                conditions::read(&condition).is_some(),
                "{}",
                told(&condition)
            );
            let expected = asked.count(&condition);
            assert_eq!(expected == BAD_CONDITION, length > LONGEST, "{length}");
            let what = format!("seed {seed}, {length} bytes, {index}");
            assert_answer(&what, &bytes, drive, &condition, expected);
        }
    }
}

/// The text of so many bytes that repeats a part, and then has a name.
fn repeated(part: &str, length: usize) -> String {
    let mut text = part.repeat((length - 1) / part.len());
    while text.len() < length - 1 {
        text.insert(0, '!');
    }
    text + "0"
}

#[test]
fn lengths_254_to_256_of_each_kind() {
    let three = Three::new();
    for (part, fits) in [
        ("0|", 4),
        ("0&", 4),
        ("0&1|", 4),
        ("0|1&", 4),
        ("000|", 4),
        ("0|2|", 6),
    ] {
        for length in [254, 255] {
            let condition = repeated(part, length);
            let (asked, front) = (three.count(&condition), condition.find(|c| c != '!'));
            assert_eq!(asked & 0xFF, 0, "{condition}");
            if front == Some(0) {
                assert_eq!(fitting(asked), fits, "{condition}");
            }
        }
        for length in [256, 257, 300, 510, 511, 512, 65_536 + 7] {
            assert_eq!(three.count(&repeated(part, length)), BAD_CONDITION);
        }
    }
    for length in 1..=300 {
        let digits = three.count(&"0".repeat(length));
        let lawful = if length <= 4 {
            fit_counts(3, 8, 4)
        } else {
            BAD_CONDITION
        };
        assert_eq!(digits, lawful, "{length} digits");
    }
}

/// A length is compared in full, and not by its low bits.
#[test]
fn a_length_of_a_multiple_of_256_and_a_few_bytes_is_refused_16() {
    let three = Three::new();
    for high in [1 << 8, 1 << 16, 1 << 20] {
        for low in [0, 1, 3, 255] {
            let condition = "0&".repeat(high / 2) + &"0".repeat(low);
            assert_eq!(three.count(&condition), BAD_CONDITION, "{high} + {low}");
        }
    }
}

#[test]
fn an_empty_condition_is_refused_16() {
    let three = Three::new();
    assert_eq!(three.count(""), BAD_CONDITION);
    let null = ffi::answer(Some(&three.bytes), three.drive, ffi::Call::Count(None));
    assert_eq!(null, BAD_CONDITION);
}

#[test]
fn before_a_digit_254_nots_are_lawful() {
    let three = Three::new();
    for nots in 0..=254 {
        let condition = "!".repeat(nots) + "0";
        three.assert_count(&condition, 4);
        let condition = "!".repeat(nots.min(252)) + "0&1";
        three.assert_count(&condition, 2);
    }
    three.assert_count(&("!".repeat(252) + "0|1"), 6);
    three.assert_count(&("!".repeat(251) + "0|1"), 6);
    three.assert_count(&("!".repeat(250) + "(0|1)"), 6);
    three.assert_count(&("!".repeat(249) + "(0|1)"), 2);
    for nots in [1, 2, 253, 254, 255, 256] {
        assert_eq!(three.count(&"!".repeat(nots)), BAD_CONDITION);
    }
    assert_eq!(three.count(&("!".repeat(255) + "0")), BAD_CONDITION);
}

#[test]
fn brackets_16_deep_are_lawful_and_17_deep_are_refused_17() {
    let three = Three::new();
    for depth in 0..=127 {
        let condition = String::from_utf8(nested(depth, b"0")).unwrap();
        let expected = match depth {
            0..=16 => fit_counts(3, 8, 4),
            _ => TOO_DEEP,
        };
        assert_eq!(three.count(&condition), expected, "{depth} deep");
    }
}

/// The deepest brackets may stand anywhere, with others beside them.
#[test]
fn depth_15_to_18_of_each_kind() {
    let three = Three::new();
    let deep = |depth: usize, part: &str| "(".repeat(depth) + part + &")".repeat(depth);
    for depth in 15..=18 {
        let expected = |fits| match depth {
            ..=16 => fit_counts(3, 8, fits),
            _ => TOO_DEEP,
        };
        for (condition, fits) in [
            (deep(depth, "0|1"), 6),
            (deep(depth, "!0") + "&1", 2),
            ("1&".to_string() + &deep(depth, "0"), 2),
            ("(0)|".to_string() + &deep(depth, "1") + "|(2)", 7),
            (deep(depth, "0") + "&" + &deep(depth, "1"), 2),
            ("!(".repeat(depth) + "0" + &")".repeat(depth), 4),
            ("(0&".repeat(depth) + "1" + &")".repeat(depth), 2),
            ("(".repeat(depth) + "0" + &"|1)".repeat(depth), 6),
            (deep(depth - 3, &deep(3, "0")), 4),
            (deep(depth - 1, "(0)&(1)"), 2),
        ] {
            assert_eq!(three.count(&condition), expected(fits), "{condition}");
        }
    }
}

/// What closes no longer counts: many brackets beside each other are not deep.
#[test]
fn many_brackets_beside_each_other_are_lawful() {
    let three = Three::new();
    let one_by_one = ["(0)"; 64].join("|");
    assert_eq!(one_by_one.len(), LONGEST);
    three.assert_count(&one_by_one, 4);
    let sixteen = String::from_utf8(nested(DEEPEST, b"1")).unwrap();
    let side_by_side = [sixteen.as_str(); 7].join("&");
    three.assert_count(&side_by_side, 4);
    let deeper = side_by_side.replacen('1', "(1)", 1);
    assert_eq!(three.count(&deeper), TOO_DEEP, "the first is 17 deep");
}

#[test]
fn outside_the_grammar_is_16_however_deep_the_brackets_are() {
    let three = Three::new();
    for depth in [15, 16, 17, 18, 100, 126, 127, 128, 200, 254, 255] {
        let open = "(".repeat(depth);
        for condition in [
            open.clone(),
            open.clone() + "0",
            open.clone() + "0" + &")".repeat(depth - 1),
            open.clone() + "0" + &")".repeat(depth + 1),
            open.clone() + &")".repeat(depth),
            open.clone() + "0&" + &")".repeat(depth),
            open.clone() + "00012" + &")".repeat(depth),
            open.clone() + "0 " + &")".repeat(depth),
            open.clone() + "0" + &")".repeat(depth) + "0",
            "0".to_string() + &open + "0" + &")".repeat(depth),
            ")".repeat(depth) + "0" + &open,
        ] {
            assert_eq!(three.count(&condition), BAD_CONDITION, "{condition}");
        }
    }
}

#[test]
fn names_have_one_to_four_digits() {
    let three = Three::new();
    for zeros in 0..=6 {
        for name in ["0", "2", "5"] {
            let condition = "0".repeat(zeros) + name;
            let expected = match zeros {
                0..=3 => fit_counts(3, 8, 4),
                _ => BAD_CONDITION,
            };
            assert_eq!(three.count(&condition), expected, "{condition}");
            let condition = format!("!({condition}&1)|{condition}");
            let granted = expected != BAD_CONDITION;
            assert_eq!(three.count(&condition) & 0xFF == 0, granted, "{condition}");
        }
    }
    for name in ["00012", "00000", "10000", "65536", "99999", "4294967296"] {
        assert_eq!(three.count(name), BAD_CONDITION, "{name}");
    }
}

/// The last fact of a book is named in each way, and the number behind it is refused 11.
fn assert_last_name(atoms: u16) {
    let known = known::free(1, atoms - 2, atoms);
    let (bytes, drive) = (known.book.bytes(), known.layer.into());
    let what = format!("{atoms} facts");
    let asked = |condition: String, expected: u64| {
        assert_answer(&what, &bytes, drive, condition.as_bytes(), expected);
    };
    let last = atoms - 1;
    let mut name = last.to_string();
    while name.len() <= 4 {
        asked(name.clone(), fit_counts(1, 2, 1));
        asked(format!("!{name}"), fit_counts(1, 2, 1));
        asked(format!("{name}&!{name}"), fit_counts(1, 2, 0));
        asked(format!("{name}|!{name}"), fit_counts(1, 2, 2));
        name.insert(0, '0');
    }
    asked(name, BAD_CONDITION);
    for other in [atoms, atoms + 1, 9_998, 9_999] {
        let cause = if other < 10_000 {
            NO_SUCH_FACT
        } else {
            BAD_CONDITION
        };
        asked(other.to_string(), cause);
        asked(format!("{last}|{other}"), cause);
        asked(format!("!({other})&{last}"), cause);
        asked(format!("{last}|{last}|{last}&{other}"), cause);
    }
    if atoms > 2 {
        asked("0000".into(), fit_counts(1, 2, (atoms == 2).into()));
    }
}

#[test]
fn the_last_fact_is_named_and_the_number_behind_it_is_refused_11() {
    for atoms in [2, 3, 9, 10, 11, 99, 100, 101, BYTE_ATOMS - 1, BYTE_ATOMS] {
        assert_last_name(atoms);
    }
}

#[test]
fn the_last_fact_of_many_is_named_and_the_number_behind_it_is_refused_11() {
    for atoms in [999, 1_000, 1_001].into_iter().chain(WIDE) {
        assert_last_name(atoms);
    }
}

/// Facts whose numbers agree in their low bytes, or have digits in common, are other facts.
#[test]
fn each_fact_is_named_by_its_own_number() {
    let seed = seed();
    let mut rng = Rng::named(seed, "count, names");
    for atoms in [12, 120, BYTE_ATOMS, 1_000, MAX_ATOMS] {
        let known = known::scattered(&mut rng, known::pairs(3, 0), atoms);
        let (bytes, drive) = (known.book.bytes(), known.layer.into());
        for fact in 0..atoms {
            let count = Tree::Name(fact).fitting_of(&known);
            let what = format!("seed {seed}, {atoms} facts");
            let expected = fit_counts(6, 8, count);
            let condition = fact.to_string();
            assert_answer(&what, &bytes, drive, condition.as_bytes(), expected);
        }
    }
}

#[test]
fn no_state_is_no_refusal_but_0_of_0() {
    let book = Book::new(3, 1)
        .rule(0, plain(0), &[not(0)])
        .rule(0, plain(1), &[]);
    for condition in ["0", "!0", "1", "0|!0", "!(1&2)"] {
        let expected = fit_counts(1, 0, 0);
        assert_answer(
            "p if not p",
            &book.bytes(),
            at(0),
            condition.as_bytes(),
            expected,
        );
    }
    let never = Book::new(2, 1).never(0, &[]);
    assert_answer("never", &never.bytes(), at(0), b"!0", fit_counts(0, 0, 0));
    let none = known::quarrelled(known::pairs(10, 0));
    assert_answer(
        "a quarrel",
        &none.book.bytes(),
        at(0),
        b"0|!0",
        fit_counts(20, 0, 0),
    );
    for (condition, cause) in [("", 16), ("0&", 16), ("9999", 11)] {
        let bytes = book.bytes();
        assert_answer("no state", &bytes, at(0), condition.as_bytes(), cause);
    }
}

/// In each layer other facts stand.
#[test]
fn layers_of_the_book_are_driven_and_all_others_are_refused_9() {
    for layers in [1, 2, 31, 32] {
        let bytes = shapes::state_in_each_layer(5, layers).bytes();
        for layer in 0..layers {
            for fact in 0..5u16 {
                let stands = shapes::stands_in_layer(layer, fact);
                let condition = fact.to_string();
                let expected = fit_counts(0, 1, stands.into());
                assert_answer(
                    "a layer",
                    &bytes,
                    layer.into(),
                    condition.as_bytes(),
                    expected,
                );
            }
        }
        for layer in NO_LAYERS.into_iter().chain([layers.into()]) {
            for condition in ["0", "", "0&", "7777"] {
                assert_answer("no layer", &bytes, at(layer), condition.as_bytes(), 9);
            }
        }
    }
}

/// A layer that is off says nothing, also about which facts branch; a set with another one is refused 19.
#[test]
fn layers_are_switched_off() {
    let book = Book::new(3, 2)
        .arrow(0, 1)
        .rule(0, plain(0), &[not(1)])
        .rule(0, plain(1), &[not(0)])
        .rule(1, plain(2), &[plain(0)]);
    let bytes = book.bytes();
    for (off, condition, expected) in [
        (0, "2", fit_counts(2, 2, 1)),
        (0, "0&2|1&!2", fit_counts(2, 2, 2)),
        (2, "2", fit_counts(2, 2, 0)),
        (2, "0", fit_counts(2, 2, 1)),
        (1, "0|1|2", fit_counts(0, 1, 0)),
        (3, "!0&!1&!2", fit_counts(0, 1, 1)),
        (4, "0", 19),
        (1 << 31, "", 19),
        (u32::MAX, "9999", 19),
    ] {
        assert_answer(
            "off",
            &bytes,
            at(1).off(off),
            condition.as_bytes(),
            expected,
        );
    }
}

/// Every set of the layers of small books.
#[test]
fn counts_under_every_set_are_the_oracles() {
    let seed = seed();
    let mut rng = Rng::named(seed, "count, sets");
    for index in 0..200 {
        let book = shapes::layered(&mut rng, Layering::Chain);
        let bytes = book.bytes();
        for off in 0..=all_layers(book.layers.min(5)) {
            let drive = Drive::from(book.layers - 1).off(off);
            let (condition, _) = conditions::lawful(&mut rng, book.atoms);
            let expected = Truth::new(&bytes, drive).count(&condition);
            let what = format!("seed {seed}, book {index}");
            assert_answer(&what, &bytes, drive, &condition, expected);
        }
    }
}

#[test]
fn more_than_twenty_branching_facts_are_refused_12_and_what_the_condition_is_before() {
    for known in known::too_many_branching() {
        let (bytes, drive) = (known.book.bytes(), known.layer.into());
        let atoms = known.book.atoms;
        let what = format!("g = {}", known.branching);
        let deep = String::from_utf8(nested(17, b"0")).unwrap();
        for (condition, cause) in [
            ("0".to_string(), TOO_MANY_BRANCHING),
            (format!("!0|{}", atoms - 1), TOO_MANY_BRANCHING),
            (atoms.to_string(), NO_SUCH_FACT),
            (format!("0&{atoms}"), NO_SUCH_FACT),
            (deep.clone(), TOO_DEEP),
            (format!("{deep}&{atoms}"), TOO_DEEP),
            (format!("{deep}&"), BAD_CONDITION),
            (format!("{atoms}&"), BAD_CONDITION),
            (String::new(), BAD_CONDITION),
        ] {
            assert_answer(&what, &bytes, drive, condition.as_bytes(), cause);
        }
    }
}

/// A condition to which each of the causes 16, 17 and 11 applies that the set has, and no other.
fn refused(rng: &mut Rng, causes: [bool; 3], atoms: u16) -> Vec<u8> {
    let [outside, deep, no_fact] = causes;
    let name = match no_fact {
        true => rng.pick(&[atoms, atoms + 1, 9_999]),
        false => rng.below(atoms.into()) as u16,
    };
    let part = match deep {
        true => nested(rng.range(DEEPEST + 1, 100), name.to_string().as_bytes()),
        false => nested(rng.below(DEEPEST + 1), name.to_string().as_bytes()),
    };
    let wrong: &[u8] = match (outside, rng.below(5)) {
        (false, _) => b"",
        (_, 0) => b")",
        (_, 1) => b"&",
        (_, 2) => b"()",
        (_, 3) => b" ",
        _ => b"&00012",
    };
    [&part, wrong].concat()
}

#[test]
fn of_several_causes_the_first_tested_is_given() {
    let seed = seed();
    let mut rng = Rng::named(seed, "count, first cause");
    for causes in every_set(&[1, 2, 3, 4, 5, 6, 7, 8, 9, 19, 16, 17, 11, 12]) {
        let known = match causes.has(12) {
            true => known::displacing_pairs(10, 1),
            false => known::displacing_pairs(2, 0),
        };
        let bytes = shapes::broken(&mut rng, &known.book, causes.of_the_book());
        let drive = causes.drive(&mut rng, known.book.layers, known.layer);
        let of_the_condition = [16, 17, 11].map(|cause| causes.has(cause));
        let condition = refused(&mut rng, of_the_condition, known.book.atoms);
        let granted = || {
            let tree = conditions::read_for(&condition, known.book.atoms).expect("a condition");
            fit_counts(known.branching, known.count, tree.fitting_of(&known))
        };
        let expected = causes.first().unwrap_or_else(granted);
        let what = format!("seed {seed}, {causes}");
        assert_answer(&what, &bytes, drive, &condition, expected);
    }
}

#[test]
fn any_bytes_are_answered_as_by_reader_and_oracle() {
    let any_bytes = AnyBytes {
        name: "count, any call",
        large: 250,
        other: 1_500,
        given: &[0, 1, 2, 3, 4, 5, 6, 7, 8, 9, 11, 12, 16, 17, 19],
        least: 50,
    };
    any_bytes.ask(shapes::quick, |rng, what, bytes| {
        let drive = shapes::any_drive(rng, bytes);
        let (facts, _) = fields(bytes);
        let condition = conditions::any_bytes(rng, (facts as u16).max(1));
        let expected = Truth::new(bytes, drive).count(&condition);
        assert_answer(what, bytes, drive, &condition, expected);
        expected & 0xFF
    });
}

/// A condition ends where its slice does, and begins where that begins: every part of a long text is read
/// by itself, whatever stands beside it.
#[test]
fn a_part_of_a_text_is_read_by_itself() {
    let (bytes, drive, _) = every_state(2);
    let asked = Asked::new(&bytes, drive);
    let text = b"3&!01|((2&0003)|!!1)&(!(0|02))|3&1";
    for from in 0..text.len() {
        for to in from..=text.len() {
            let condition = &text[from..to];
            let expected = asked.count(condition);
            let engine = ffi::count_in_place(&bytes, drive, condition);
            assert_eq!(engine, expected, "{}", told(condition));
        }
    }
}

/// Slices that are only read may overlap: fact 48 has the digit 0 for its low byte.
#[test]
fn the_condition_may_lie_in_the_book() {
    let book = Book::new(60, 1)
        .rule(0, plain(0), &[])
        .rule(0, plain(u16::from(b'0')), &[]);
    let bytes = book.bytes();
    let condition = &bytes[bytes.len() - 1..];
    assert_eq!(condition, b"0");
    let answer = ffi::count_in_place(&bytes, at(0), condition);
    assert_eq!(answer, fit_counts(0, 1, 1));
    assert_eq!(ffi::count_in_place(&bytes, at(0), &bytes), BAD_CONDITION);
}

/// Conditions on books of any size whose states are known.
#[test]
fn conditions_on_many_facts_are_counted() {
    let seed = seed();
    let mut rng = Rng::named(seed, "count, many facts");
    let few = [9, 16, 17, 64, 65, BYTE_ATOMS - 1, BYTE_ATOMS];
    let mut fits = [0; 3];
    for atoms in few.into_iter().chain(WIDE) {
        for index in 0..6 {
            let small = shapes::crowded(&mut rng, Layering::Chain);
            let layer = rng.below(small.layers.into()) as u8;
            let known = known::spread(&mut rng, &small, layer, atoms);
            let (bytes, drive) = (known.book.bytes(), known.layer.into());
            for _ in 0..8 {
                let (condition, tree) = conditions::lawful(&mut rng, atoms);
                let count = tree.fitting_of(&known);
                let expected = fit_counts(known.branching, known.count, count);
                let what = format!("seed {seed}, {atoms} facts, book {index}");
                assert_answer(&what, &bytes, drive, &condition, expected);
                fits[usize::from(count > 0) + usize::from(count > 0 && count < known.count)] += 1;
            }
        }
    }
    println!("seed {seed}, count, many facts, in none, every, some: {fits:?}");
    assert!(fits.iter().all(|&times| times > 20), "{fits:?}");
}

#[test]
fn conditions_on_the_largest_lawful_books_are_counted() {
    let seed = seed();
    let mut rng = Rng::named(seed, "count, busy");
    for atoms in [BYTE_ATOMS, 700, MAX_ATOMS] {
        for branching in [1, 8] {
            let known = known::busy(&mut rng, branching, atoms);
            let known = known::scattered(&mut rng, known, atoms);
            let bytes = known.book.bytes();
            for _ in 0..20 {
                let (condition, tree) = conditions::lawful(&mut rng, atoms);
                let count = tree.fitting_of(&known);
                let expected = fit_counts(known.branching, known.count, count);
                let what = format!("seed {seed}, {atoms} facts, g = {branching}");
                assert_answer(&what, &bytes, known.layer.into(), &condition, expected);
            }
        }
    }
}

/// As many states as there can be: the count and k keep to their bits.
#[test]
fn of_2_to_the_20_states_each_is_tried() {
    let known = known::free(20, 0, 40);
    let (bytes, drive) = (known.book.bytes(), known.layer.into());
    let all = 1 << 20;
    for (condition, count) in [
        ("0", all / 2),
        ("0|!0", all),
        ("0&!0", 0),
        ("0&!1|(2&3)", all / 4 + all / 4 - all / 16),
        ("!(0|1|2|3|4|5|6|7|8|9|10|11|12|13|14|15|16|17|18|19)", 1),
        ("0|1|2|3|4|5|6|7|8|9|10|11|12|13|14|15|16|17|18|19", all - 1),
    ] {
        let answer = ffi::count_in_place(&bytes, drive, condition.as_bytes());
        assert_eq!(answer, fit_counts(20, all, count), "{condition}");
    }
}

#[test]
fn books_of_any_number_of_states_are_counted_to_the_last() {
    for count in [2, 3, 5, 9, 16, 17, 33] {
        let known = known::counted(count, 13);
        let (bytes, drive) = (known.book.bytes(), known.layer.into());
        for fact in 0..13 {
            let standing = Tree::Name(fact).fitting_of(&known);
            let what = format!("{count} states");
            let (stands, not) = (fact.to_string(), format!("!{fact}"));
            let expected = fit_counts(known.branching, count, standing);
            assert_answer(&what, &bytes, drive, stands.as_bytes(), expected);
            let expected = fit_counts(known.branching, count, count - standing);
            assert_answer(&what, &bytes, drive, not.as_bytes(), expected);
        }
    }
}

#[test]
fn four_threads_on_one_book_get_the_same_answers() {
    let seed = seed();
    let mut rng = Rng::named(seed, "count, threads");
    let known = known::busy(&mut rng, 8, BYTE_ATOMS);
    let bytes = known.book.bytes();
    let asked: Vec<(Vec<u8>, u64)> = (0..8)
        .map(|_| {
            let (condition, tree) = conditions::lawful(&mut rng, BYTE_ATOMS);
            let count = tree.fitting_of(&known);
            (condition, fit_counts(known.branching, known.count, count))
        })
        .collect();
    thread::scope(|scope| {
        for _ in 0..4 {
            scope.spawn(|| {
                for (condition, expected) in &asked {
                    let answer = ffi::count_in_place(&bytes, known.layer.into(), condition);
                    assert_eq!(answer, *expected, "seed {seed}, {}", told(condition));
                }
            });
        }
    });
}
