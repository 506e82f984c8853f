//! Listings whose records come to the search in every order, at sizes that the plain program cannot
//! follow: the engine and the archive before beside the bit sets, which sort at the end.

use crate::{before, best_rounds, rng, shown, Program, FEWEST, MOST, SEED};
use lesson_tests::book::{self, BYTE_ATOMS};
use lesson_tests::ffi::Call;
use lesson_tests::orders::{Order, Ordered};
use std::hint::black_box;

/// What a buffer has before a call.
const FILLER: u8 = 0xA5;

/// The bytes of a listing's head.
const HEAD: usize = 11;

/// No more facts than this branch.
const MAX_BRANCHING: u16 = 20;

/// The seconds that an archive may take for a call where none are given.
pub const LIMIT: f64 = 20.0;

/// The aim: no more than so many times the bit sets' time, and no more than so many seconds.
const AIM: (f64, f64) = (2.0, 5.0);

/// The programs, each in its column.
const PROGRAMS: [Program; 3] = [Program::Engine, Program::Before, Program::Bits];

/// The seconds of each program that was run.
type Times = [Option<f64>; 3];

#[derive(Clone, Copy, PartialEq, Eq)]
enum Room {
    /// For a record of every setting.
    Settings,
    /// For the stable states and no record more.
    States,
}

/// The sizes of records.
#[derive(Clone, Copy)]
struct Records {
    facts: u16,
    /// Whether they differ in their last bytes alone.
    at_the_end: bool,
    /// The numbers of choices at which they are tried, rising: k is a power of 2.
    choices: &'static [u16],
}

/// 24 facts have room for 13 choices, with their helpers and one branching fact more.
const RECORDS: [Records; 4] = [
    Records {
        facts: 24,
        at_the_end: false,
        choices: &[10, 12, 13],
    },
    Records {
        facts: 40,
        at_the_end: false,
        choices: &[14, 18, 20],
    },
    Records {
        facts: BYTE_ATOMS,
        at_the_end: false,
        choices: &[14, 18, 20],
    },
    Records {
        facts: BYTE_ATOMS,
        at_the_end: true,
        choices: &[14, 18],
    },
];

/// The rows as they come.
struct Table {
    word: String,
    limit: f64,
    /// The rows that miss the aim, or whose engine was not called.
    missed: Vec<String>,
}

/// Seconds that a call takes at most if it took so many at fewer states: insertion one by one grows
/// with their square.
fn foreseen(seconds: f64, states: usize, now: usize) -> f64 {
    seconds * (now as f64 / states as f64).powi(2)
}

impl Table {
    /// The rows of an order with so much room, from few states to many, up to the last one that is
    /// asked for. An archive that would take too long is not called.
    fn rows(&mut self, order: Order, records: Records, room: Room) {
        let asked = |&ordered: &Ordered| named(ordered, room).contains(&self.word);
        let books = books(order, records, room);
        let end = books.iter().rposition(asked).map_or(0, |last| last + 1);
        let mut fewer: Option<(usize, Times)> = None;
        for &ordered in &books[..end] {
            let states = 1 << ordered.choices;
            let runs = |at: usize| match (PROGRAMS[at], fewer) {
                (Program::Bits, _) => true,
                (Program::Before, _) if !before::LINKED => false,
                (_, None) => true,
                (_, Some((fewer, times))) => {
                    times[at].is_some_and(|time| foreseen(time, fewer, states) <= self.limit)
                }
            };
            let times = timed(ordered, room, [0, 1, 2].map(runs));
            fewer = Some((states, times));
            let name = named(ordered, room);
            if name.contains(&self.word) {
                self.row(name, times);
            }
        }
    }

    /// Prints a row.
    fn row(&mut self, name: String, [engine, before, bits]: Times) {
        let time = |seconds: Option<f64>| seconds.map_or("-".into(), shown);
        let ratio = |other: Option<f64>| match engine.zip(other) {
            Some((engine, other)) => format!("{:.2}", engine / other),
            None => "-".into(),
        };
        let columns = [
            time(engine),
            time(before),
            ratio(before),
            time(bits),
            ratio(bits),
        ];
        println!("| {name} | {} |", columns.join(" | "));
        let reached = engine
            .zip(bits)
            .is_some_and(|(engine, bits)| engine <= AIM.0 * bits && engine <= AIM.1);
        if !reached {
            self.missed.push(name.replace(" | ", ", "));
        }
    }
}

/// The books of an order, by their numbers of states. One branching fact more never stands, so that
/// the two rooms differ; where no more facts can branch, every setting has a state, and with room
/// for these alone half as many take their place.
fn books(order: Order, records: Records, room: Room) -> Vec<Ordered> {
    let ordered = |&choices: &u16| {
        let idle = u16::from(room == Room::States || choices < MAX_BRANCHING);
        Ordered {
            idle,
            at_the_end: records.at_the_end,
            ..Ordered::new(order, choices.min(MAX_BRANCHING - idle), records.facts)
        }
    };
    records.choices.iter().map(ordered).collect()
}

/// The first columns of a row.
fn named(ordered: Ordered, room: Room) -> String {
    let Ordered { order, choices, .. } = ordered;
    let (branching, told) = (ordered.branching(), ordered.told());
    let bytes = ordered.atoms.div_ceil(8);
    let bytes = match ordered.at_the_end {
        true => format!("{bytes}, at the end"),
        false => bytes.to_string(),
    };
    let room = match room {
        Room::Settings if branching == choices => "2^g = k",
        Room::Settings => "2^g",
        Room::States => "k",
    };
    let order = order.name();
    format!("{order} | {told} | 2^{choices} | {branching} | {bytes} | {room}")
}

/// Seconds for a listing by each program that runs. All write the same bytes and none past them.
fn timed(ordered: Ordered, room: Room, runs: [bool; 3]) -> Times {
    let known = ordered.known(&mut rng("orders"));
    let (bytes, layer) = (known.book.bytes(), known.layer.into());
    let width = book::width(known.book.atoms);
    let records = match room {
        Room::Settings => 1 << known.branching,
        Room::States => known.count,
    };
    let running: Vec<usize> = (0..3).filter(|&at| runs[at]).collect();
    let mut buffers = vec![vec![FILLER; HEAD + records * width]; running.len()];
    let best = best_rounds(running.len(), &mut |at| {
        let call = Call::List(Some(&mut buffers[at]));
        let given = PROGRAMS[running[at]].answer(black_box(&bytes), layer, call);
        assert_eq!(given, known.answer(), "{ordered:?}");
    });
    let same = buffers.windows(2).all(|two| two[0] == two[1]);
    assert!(same, "{ordered:?}: the listings differ");
    let (listing, rest) = buffers[0].split_at(HEAD + known.count * width);
    let rising = listing[HEAD..]
        .chunks(width)
        .is_sorted_by(|one, next| one < next);
    assert!(rising, "{ordered:?}: the records do not rise");
    let untouched = rest.iter().all(|&byte| byte == FILLER);
    assert!(untouched, "{ordered:?}: bytes past the listing are written");
    let mut times = [None; 3];
    for (at, seconds) in running.into_iter().zip(best) {
        times[at] = Some(seconds);
    }
    times
}

/// The table of all orders, or of the rows that have a word in their name.
pub fn table(word: String, limit: f64) {
    println!("Time of a listing, best of {FEWEST} to {MOST} rounds, seed {SEED}.");
    println!(
        "The facts in front tell of as many choices as `told` says: in short records not of all."
    );
    println!(
        "Where k is less than 2^g, one branching fact never stands. An archive is not called, `-`,"
    );
    println!("where it would take over {limit} s if its time grew with the square of k.\n");
    print!("| order | told | k | g | bytes | room for |");
    println!(" engine | before | ratio | bit sets | ratio |");
    println!("{}|", "|---".repeat(11));
    let mut table = Table {
        word,
        limit,
        missed: Vec::new(),
    };
    for order in Order::ALL {
        for records in RECORDS {
            for room in [Room::Settings, Room::States] {
                table.rows(order, records, room);
            }
        }
    }
    let (times, seconds) = AIM;
    let missed = table.missed.len();
    println!("\nOver {times} times the bit sets, over {seconds} s or not called: {missed} rows.");
    for name in table.missed {
        println!("- {name}");
    }
}
