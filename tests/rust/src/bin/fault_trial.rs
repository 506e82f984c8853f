//! Runs all calls on random, damaged and hostile inputs against the oracle, with every slice
//! against an unreadable page on either side, misaligned, and in a heap block of its own; and from
//! four threads at once on shared books.
//!
//! `fault_trial SECONDS [SEED]` is the trial, `fault_trial valgrind SECONDS [SEED]` a smaller one
//! for valgrind with --error-exitcode=99, and `fault_trial only NUMBER [SEED]` tries one input
//! again.

use lesson_tests::book::hex;
use lesson_tests::child::{in_child, End, SEGMENTATION_FAULT};
use lesson_tests::drive::Drive;
use lesson_tests::ffi::{self, Call};
use lesson_tests::guarded::{shared_numbers, Access, Lender, Placement};
use lesson_tests::inputs::{Input, Question, Wanted};
use lesson_tests::rng;
use lesson_tests::tally::{Check, Tally};
use std::env;
use std::ops::Range;
use std::panic;
use std::process;
use std::sync::atomic::{AtomicU64, Ordering::Relaxed};
use std::thread;
use std::time::{Duration, Instant};

/// Inputs that the four threads go through at once.
const ROUND: u64 = 32;
const THREADS: usize = 4;

/// What valgrind is told to end with after an error.
const VALGRIND: End = End::Exited(99);

/// Seconds more than a trial takes, on any machine: a call that does not return ends it then.
const PATIENCE: u32 = 600;

/// What each worker is at: an input's number + 1, or 0 for none; a question; a placement. In
/// memory shared with the parent, which reports from it when a call ended the process.
type Notes = &'static [AtomicU64; 3 * (THREADS + 1)];

/// Everything that a call of a worker needs.
struct Worker {
    notes: Notes,
    /// 0 for the one that works alone, 1 to 4 for the threads.
    number: usize,
    /// For the candidate or the condition.
    read: Lender,
    buffer: Lender,
    calls: u64,
}

fn placements(input: &Input, question: usize) -> [Placement; 4] {
    let by = (input.number as usize + 3 * question) % 8;
    [
        Placement::AfterGuard,
        Placement::BeforeGuard,
        Placement::Misaligned(by),
        Placement::Heap,
    ]
}

/// The input, the call, where its slices lie, and what must come of it, for messages.
fn told(seed: u64, input: &Input, question: usize, placement: usize) -> String {
    let (asked, wanted) = &input.questions[question];
    format!(
        "seed {seed}, input {}, {}, {asked}, slices {:?}\nbook {}\n\
         expected {:#X}, buffer {}\nagain: bash tests/trial only {} {seed}",
        input.number,
        input.drive,
        placements(input, question)[placement],
        hex(&input.book),
        wanted.answer,
        hex(&wanted.buffer),
        input.number
    )
}

impl Worker {
    fn new(notes: Notes, number: usize) -> Worker {
        Worker {
            notes,
            number,
            read: Lender::default(),
            buffer: Lender::default(),
            calls: 0,
        }
    }

    fn note(&self, numbers: [u64; 3]) {
        for (at, number) in numbers.into_iter().enumerate() {
            self.notes[3 * self.number + at].store(number, Relaxed);
        }
    }

    /// Puts a question, and asserts that everything is as it must be.
    fn put(&mut self, seed: u64, book: Option<&[u8]>, input: &Input, at: [usize; 2]) {
        let [question, placement] = at;
        let (asked, wanted) = &input.questions[question];
        self.lay(asked, placements(input, question)[placement]);
        self.note([input.number + 1, question as u64, placement as u64]);
        let answer = self.answer(book, input.drive, asked);
        self.note([0; 3]);
        self.calls += 1;
        let after = asked.buffer().and(self.buffer.slice()).unwrap_or_default();
        let as_wanted = answer == wanted.answer && wanted.buffer == after;
        let marks_stand = self.read.marks_stand() && self.buffer.marks_stand();
        assert!(
            as_wanted && marks_stand,
            "{}\nengine   {answer:#X}, buffer {}, bytes around the slices untouched: {marks_stand}",
            told(seed, input, question, placement),
            hex(after),
        );
    }

    fn lay(&mut self, asked: &Question, placement: Placement) {
        if let Some(text) = asked.read() {
            self.read.lay(text, placement, Access::Read);
        }
        if let Some(buffer) = asked.buffer() {
            self.buffer.lay(buffer, placement, Access::ReadAndWrite);
        }
    }

    fn answer(&mut self, book: Option<&[u8]>, drive: Drive, asked: &Question) -> u64 {
        let call = match asked {
            Question::Check => Call::Check,
            Question::Test { .. } => Call::Test(self.read.slice()),
            Question::List { .. } => Call::List(self.buffer.buffer()),
            Question::One { .. } => Call::One(self.buffer.buffer()),
            Question::Place { fact } => Call::Place(*fact),
            Question::Nearest { .. } => Call::Nearest(self.read.slice(), self.buffer.buffer()),
            Question::Count { .. } => Call::Count(self.read.slice()),
        };
        ffi::answer(book, drive, call)
    }
}

/// A run: its seed, the worker that works alone, and a lender for each book of a round.
struct Trial {
    seed: u64,
    notes: Notes,
    worker: Worker,
    books: Vec<Lender>,
    tally: Tally,
}

impl Trial {
    fn new(seed: u64, notes: Notes) -> Trial {
        Trial {
            seed,
            notes,
            worker: Worker::new(notes, 0),
            books: (0..ROUND).map(|_| Lender::default()).collect(),
            tally: Tally::default(),
        }
    }

    fn round(&mut self, inputs: &[Input]) {
        for input in inputs {
            self.alone(input);
            self.tally.count_input(input);
        }
        self.at_once(inputs);
    }

    /// Puts every question in every placement.
    fn alone(&mut self, input: &Input) {
        for placement in 0..4 {
            let lender = &mut self.books[0];
            lender.lay(&input.book, placements(input, 0)[placement], Access::Read);
            let book = lender.slice();
            for (question, (asked, _)) in input.questions.iter().enumerate() {
                self.worker
                    .put(self.seed, book, input, [question, placement]);
                self.tally.alone += 1;
                let worker = &self.worker;
                let slices = [book, worker.read.slice(), worker.buffer.slice()];
                self.tally.count_lent(asked.call(), slices);
            }
        }
    }

    /// Puts every question in four threads at once, which share the books.
    fn at_once(&mut self, inputs: &[Input]) {
        for (lender, input) in self.books.iter_mut().zip(inputs) {
            let placement = placements(input, 0)[input.number as usize % 4];
            lender.lay(&input.book, placement, Access::Read);
        }
        let books: Vec<Option<&[u8]>> = self.books.iter().map(Lender::slice).collect();
        let (seed, notes) = (self.seed, self.notes);
        let calls = thread::scope(|scope| {
            let work = |number| {
                let mut worker = Worker::new(notes, number);
                for (&book, input) in books.iter().zip(inputs) {
                    for question in 0..input.questions.len() {
                        let placement = (question + number) % 4;
                        worker.put(seed, book, input, [question, placement]);
                    }
                }
                worker.calls
            };
            let threads: Vec<_> = (1..=THREADS)
                .map(|number| scope.spawn(move || work(number)))
                .collect();
            let calls = threads.into_iter().map(|thread| thread.join());
            calls.map(|calls| calls.expect("a thread")).sum::<u64>()
        });
        self.tally.at_once += calls;
    }
}

/// What is asked of this run.
#[derive(Clone, Copy)]
enum Wish {
    /// So many seconds, and so many inputs at least, in which everything is to be tried `least`
    /// times.
    Trial {
        seconds: u64,
        inputs: u64,
        least: u64,
    },
    Only(u64),
}

/// The status of a run whose checks did not all hold. It has printed its count, as after success.
const TOO_FEW: i32 = 2;

fn inputs(seed: u64, numbers: Range<u64>) -> Vec<Input> {
    numbers.map(|number| Input::new(seed, number)).collect()
}

/// Does what is asked, in the child, and prints table, checks and count. `faults` checks have
/// passed before.
fn run(seed: u64, notes: Notes, wish: Wish, faults: usize) -> i32 {
    let mut trial = Trial::new(seed, notes);
    match wish {
        Wish::Only(number) => {
            trial.round(&inputs(seed, number..number + 1));
            println!("input {number} comes to what is expected");
            0
        }
        Wish::Trial {
            seconds,
            inputs: fewest,
            least,
        } => {
            let (clock, time) = (Instant::now(), Duration::from_secs(seconds));
            while trial.tally.inputs < fewest || clock.elapsed() < time {
                let first = trial.tally.inputs;
                trial.round(&inputs(seed, first..first + ROUND));
            }
            println!("fault trial: seed {seed}, {} s", clock.elapsed().as_secs());
            trial.tally.print();
            println!();
            // One more for all the answers, which were as expected.
            counted(&trial.tally.checks(least), faults + 1)
        }
    }
}

/// Prints the checks and their count, with those that passed before, and gives the status.
fn counted(checks: &[Check], before: usize) -> i32 {
    for (name, holds) in checks {
        println!("{}: {name}", if *holds { "ok" } else { "FAILED" });
    }
    let failed = checks.iter().filter(|(_, holds)| !holds).count();
    let passed = before + checks.len() - failed;
    println!("{passed} passed, {failed} failed");
    match failed {
        0 => 0,
        _ => TOO_FEW,
    }
}

/// What the calls were at when one of them ended the process.
fn report(seed: u64, notes: Notes, end: End) {
    println!("FAILED: the trial ended with {end:?}");
    for note in notes.chunks_exact(3) {
        let [input, question, placement] = [0, 1, 2].map(|at| note[at].load(Relaxed));
        if input != 0 {
            let input = Input::new(seed, input - 1);
            let told = told(seed, &input, question as usize, placement as usize);
            println!("a call without an answer: {told}");
        }
    }
    println!("0 passed, 1 failed");
}

/// How a child ends that reads or writes the byte at `offset` from a slice's start.
fn trespassing(length: usize, placement: Placement, offset: usize, access: Access) -> End {
    in_child(PATIENCE, || {
        let mut lender = Lender::default();
        lender.lay(&vec![7; length], placement, Access::Read);
        lender.trespass(offset as isize, access);
        0
    })
}

/// How a child ends that tries an input of which something else is expected.
fn mistaken(seed: u64, notes: Notes, mistake: fn(&mut Wanted)) -> End {
    in_child(PATIENCE, || {
        panic::set_hook(Box::new(|_| ()));
        let mut input = Input::new(seed, 0);
        for (_, wanted) in &mut input.questions {
            mistake(wanted);
        }
        Trial::new(seed, notes).alone(&input);
        0
    })
}

/// The trial can fail: asserts that faults on purpose end their process, and counts them.
fn faults_on_purpose(seed: u64, notes: Notes, valgrind: bool) -> usize {
    let fine = End::Exited(0);
    let wrong_answer = mistaken(seed, notes, |wanted| wanted.answer ^= 0x100);
    assert_ne!(wrong_answer, fine, "wrong answer");
    let wrong_buffer = mistaken(seed, notes, |wanted| wanted.buffer.push(0));
    assert_ne!(wrong_buffer, fine, "wrong buffer");
    let lengths = [1, 100, 4096, 30_000];
    for length in lengths {
        match valgrind {
            true => faults_under_valgrind(length),
            false => faults_at_guards(length),
        }
    }
    2 + lengths.len()
}

/// One byte outside, read or written; and one byte of a book written.
fn faults_at_guards(length: usize) {
    use Access::{Read, ReadAndWrite};
    use Placement::{AfterGuard, BeforeGuard};
    let before = 0usize.wrapping_sub(1);
    for (placement, outside) in [(AfterGuard, before), (BeforeGuard, length)] {
        for access in [Read, ReadAndWrite] {
            let end = trespassing(length, placement, outside, access);
            assert_eq!(end, SEGMENTATION_FAULT, "{placement:?}, {access:?}");
        }
        for inside in [0, length - 1] {
            let read = trespassing(length, placement, inside, Read);
            assert_eq!(read, End::Exited(0), "read at {inside}");
            let written = trespassing(length, placement, inside, ReadAndWrite);
            assert_eq!(written, SEGMENTATION_FAULT, "write to a book at {inside}");
        }
    }
}

/// One byte past a heap block, read.
fn faults_under_valgrind(length: usize) {
    let end = trespassing(length, Placement::Heap, length, Access::Read);
    assert_eq!(end, VALGRIND, "not under valgrind --error-exitcode=99?");
    let end = trespassing(length, Placement::Heap, length - 1, Access::Read);
    assert_eq!(end, End::Exited(0), "last byte");
}

fn number(text: &str) -> u64 {
    let number = text.parse();
    number.unwrap_or_else(|_| panic!("not a number: {text}"))
}

/// A trial in which all that is to come up does so, `least` times.
fn trial(seconds: &str, inputs: u64, least: u64) -> Wish {
    Wish::Trial {
        seconds: number(seconds),
        inputs,
        least,
    }
}

fn main() {
    let arguments: Vec<String> = env::args().skip(1).collect();
    let arguments: Vec<&str> = arguments.iter().map(String::as_str).collect();
    let (wish, seed, valgrind) = match arguments[..] {
        ["only", at, ref seed @ ..] => (Wish::Only(number(at)), seed, false),
        ["valgrind", seconds, ref seed @ ..] => (trial(seconds, 2_000, 10), seed, true),
        [seconds, ref seed @ ..] => (trial(seconds, 40_000, 1_000), seed, false),
        [] => panic!("how many seconds?"),
    };
    let seed = seed.first().map_or_else(rng::seed, |seed| number(seed));
    let seconds = match wish {
        Wish::Trial { seconds, .. } => seconds as u32,
        Wish::Only(_) => 0,
    };
    println!("seed {seed}");
    let notes: Notes = shared_numbers();
    let faults = faults_on_purpose(seed, notes, valgrind);
    match in_child(seconds + PATIENCE, || run(seed, notes, wish, faults)) {
        End::Exited(0) => return,
        End::Exited(TOO_FEW) => (),
        end => report(seed, notes, end),
    }
    process::exit(1);
}
