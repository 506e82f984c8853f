//! The engine's work in plain Rust, as fast as its plain form goes: the benchmark's yardstick,
//! and a second opinion on books that are too large for the oracle to try every state of.

use crate::book::{BYTE_ATOMS, LONGEST_RECORD, MAX_ATOMS};
use crate::conditions;
use crate::drive::Drive;
use crate::expected::{
    branching, counts, differing, fit_counts, place_of, yes_or_no, BAD_CANDIDATE, BUFFER_TOO_SHORT,
    MAX_BRANCHING, NO_STABLE_STATE, NO_SUCH_FACT, NO_SUCH_LAYER, NO_SUCH_LAYER_OFF,
    TOO_MANY_BRANCHING,
};
use crate::reader::{self, Parts};
use std::ops::ControlFlow;

const LAYERS: usize = 32;

/// Of N names, a power of 2, "f" is name f, and "not f" is name f + N / 2.
type Name = u16;

/// A set of N names.
type Names<const N: usize> = [bool; N];

/// The names of a book with few facts: it need not pay for as many as there can be.
const FEW: usize = 2 * BYTE_ATOMS as usize;
const ALL: usize = 2 * MAX_ATOMS as usize;

fn name<const N: usize>(literal: &[u8]) -> Name {
    let number = Name::from_be_bytes([literal[0], literal[1]]);
    match number < 0x8000 {
        true => number,
        false => (number & 0x7FFF) + (N / 2) as Name,
    }
}

/// The name of the same fact with the other sign.
fn opposite<const N: usize>(name: Name) -> usize {
    usize::from(name) ^ (N / 2)
}

/// A body in `Program::bodies`.
#[derive(Clone, Copy)]
struct Body {
    from: u32,
    to: u32,
}

/// A relevant rule.
#[derive(Clone, Copy)]
struct Row {
    body: Body,
    head: Name,
    layer: u8,
    /// Bit i: layer i is below the rule's and has a relevant rule with the opposite head. None where
    /// the rule leans on itself.
    under: u32,
}

/// A lawful book at the driven layer. What does not depend on a state is worked out here.
struct Program<const N: usize> {
    atoms: usize,
    rows: Vec<Row>,
    /// Those that can displace others.
    rejecting: Vec<Row>,
    /// The bodies of the relevant constraints.
    bans: Vec<Body>,
    bodies: Vec<Name>,
}

impl<const N: usize> Program<N> {
    fn new(book: &Parts, drive: Drive) -> Program<N> {
        let below = below(book);
        let relevant = (below[drive.layer as usize] | 1 << drive.layer) & !drive.off;
        let mut rows = Vec::with_capacity(usize::from(book.rules.count));
        let (mut bans, mut bodies) = (Vec::new(), Vec::new());
        let mut layers_of = [0u32; N];
        let counts = |rule: &&[u8]| relevant >> rule[0] & 1 == 1;
        for rule in book.rules.records().filter(counts) {
            let from = bodies.len() as u32;
            bodies.extend(rule[3..].chunks_exact(2).map(name::<N>));
            let to = bodies.len() as u32;
            let body = Body { from, to };
            if reader::is_falsity(&rule[1..3]) {
                bans.push(body);
                continue;
            }
            let head = name::<N>(&rule[1..3]);
            layers_of[usize::from(head)] |= 1 << rule[0];
            rows.push(Row {
                body,
                head,
                layer: rule[0],
                under: 0,
            });
        }
        for row in &mut rows {
            let body = &bodies[row.body.from as usize..row.body.to as usize];
            if !body.contains(&row.head) {
                row.under = layers_of[opposite::<N>(row.head)] & below[usize::from(row.layer)];
            }
        }
        let rejecting = rows.iter().copied().filter(|row| row.under != 0);
        Program {
            atoms: usize::from(book.atoms),
            rejecting: rejecting.collect(),
            rows,
            bans,
            bodies,
        }
    }

    fn body(&self, body: Body) -> &[Name] {
        &self.bodies[body.from as usize..body.to as usize]
    }

    /// Whether all of the body is among `names`.
    fn within(&self, body: Body, names: &Names<N>) -> bool {
        let among = |&name: &Name| names[usize::from(name) % N];
        self.body(body).iter().all(among)
    }

    /// Bit i of entry h: rules of layer i with head h are displaced.
    fn displaced(&self, state: &Names<N>) -> [u32; N] {
        let mut displaced = [0; N];
        for row in &self.rejecting {
            if self.within(row.body, state) {
                displaced[opposite::<N>(row.head)] |= row.under;
            }
        }
        displaced
    }

    fn defaults(&self, state: &Names<N>) -> Names<N> {
        let mut defaults = [false; N];
        defaults[N / 2..N / 2 + self.atoms].fill(true);
        for row in &self.rows {
            let default = opposite::<N>(row.head);
            if default >= N / 2 && defaults[default] && self.within(row.body, state) {
                defaults[default] = false;
            }
        }
        defaults
    }

    /// Adds heads until nothing is added. False as soon as both signs of a fact are reached.
    fn fill(&self, displaced: &[u32; N], reached: &mut Names<N>) -> bool {
        loop {
            let mut added = false;
            for row in &self.rows {
                let head = usize::from(row.head) % N;
                if !reached[head]
                    && displaced[head] >> row.layer & 1 == 0
                    && self.within(row.body, reached)
                {
                    if reached[opposite::<N>(row.head)] {
                        return false;
                    }
                    reached[head] = true;
                    added = true;
                }
            }
            if !added {
                return true;
            }
        }
    }

    /// Whether `state`, which has one name of each fact, is a stable model.
    fn stable(&self, state: &Names<N>) -> bool {
        let mut reached = self.defaults(state);
        self.fill(&self.displaced(state), &mut reached)
            && reached == *state
            && !self.bans.iter().any(|&ban| self.within(ban, state))
    }

    /// The branching facts, falling, or cause 12.
    fn branching(&self) -> Result<Vec<Name>, u64> {
        let mut branching = [false; N];
        for row in &self.rows {
            for &name in self.body(row.body) {
                let name = usize::from(name);
                if name >= N / 2 || row.under != 0 {
                    branching[name % (N / 2)] = true;
                }
            }
        }
        let branches = |&atom: &Name| branching[usize::from(atom)];
        let atoms = 0..self.atoms as Name;
        let branching: Vec<Name> = atoms.rev().filter(branches).collect();
        match branching.len() > MAX_BRANCHING {
            true => Err(TOO_MANY_BRANCHING),
            false => Ok(branching),
        }
    }

    /// A record, with zeros behind it.
    fn record(state: &Names<N>) -> [u8; LONGEST_RECORD] {
        let mut record = [0; LONGEST_RECORD];
        let facts = state[..N / 2].iter().enumerate();
        for (atom, _) in facts.filter(|(_, &stands)| stands) {
            record[atom / 8] |= 0x80 >> (atom % 8);
        }
        record
    }

    /// The only state that can be stable and agree with the setting of the branching facts; where
    /// it does not agree, or both signs of a fact are reached, there is none.
    fn candidate(&self, branching: &[Name], setting: &Names<N>) -> Option<Names<N>> {
        let mut reached = [false; N];
        reached[N / 2..].copy_from_slice(&setting[N / 2..]);
        if !self.fill(&self.displaced(setting), &mut reached) {
            return None;
        }
        let agrees = |&atom: &Name| {
            let atom = usize::from(atom);
            reached[atom] == setting[atom]
        };
        if !branching.iter().all(agrees) {
            return None;
        }
        for atom in 0..self.atoms {
            reached[atom + N / 2] = !reached[atom];
        }
        Some(reached)
    }

    /// Visits every stable model once, until the visitor has seen enough: each setting of the
    /// branching facts is gone through, those in which an earlier fact does not stand first.
    fn each_stable(&self, branching: &[Name], mut visit: impl FnMut(&Names<N>) -> ControlFlow<()>) {
        let mut setting = [false; N];
        for number in 0..1u32 << branching.len() {
            // Only the lowest bits have changed.
            let changed = (number ^ number.wrapping_sub(1)).count_ones() as usize;
            for (at, &atom) in branching.iter().enumerate().take(changed) {
                let stands = number >> at & 1 == 1;
                setting[usize::from(atom)] = stands;
                setting[usize::from(atom) + N / 2] = !stands;
            }
            if let Some(state) = self.candidate(branching, &setting) {
                if self.stable(&state) && visit(&state).is_break() {
                    return;
                }
            }
        }
    }

    /// Writes the record with the least of a measure, among equals the least record, in a whole pass that
    /// keeps it: the number of branching facts and the measure, or the first of causes 12 to 14.
    fn write_least(
        &self,
        buffer: &mut [u8],
        measure: impl Fn(&Names<N>) -> usize,
    ) -> Result<(usize, usize), u64> {
        let branching = self.branching()?;
        let width = self.atoms.div_ceil(8);
        let place = buffer.get_mut(..width).ok_or(BUFFER_TOO_SHORT)?;
        let mut least = None;
        self.each_stable(&branching, |state| {
            let met = (measure(state), Program::record(state));
            least = Some(match least {
                Some(least) => met.min(least),
                None => met,
            });
            ControlFlow::Continue(())
        });
        let (measured, record) = least.ok_or(NO_STABLE_STATE)?;
        place.copy_from_slice(&record[..width]);
        Ok((branching.len(), measured))
    }
}

/// The answers of a program, whatever the number of its names, or the causes for which there are none.
trait Calls {
    fn branching_count(&self) -> Result<usize, u64>;
    fn test(&self, candidate: &[u8]) -> Result<u64, u64>;
    fn list(&self, buffer: &mut [u8]) -> Result<u64, u64>;
    fn one(&self, buffer: &mut [u8]) -> Result<u64, u64>;
    fn place(&self, fact: u32) -> Result<u64, u64>;
    fn nearest(&self, candidate: &[u8], buffer: &mut [u8]) -> Result<u64, u64>;
    fn count(&self, condition: &[u8]) -> Result<u64, u64>;
}

impl<const N: usize> Calls for Program<N> {
    fn branching_count(&self) -> Result<usize, u64> {
        Ok(self.branching()?.len())
    }

    fn test(&self, candidate: &[u8]) -> Result<u64, u64> {
        let state = state(candidate, self.atoms).ok_or(BAD_CANDIDATE)?;
        Ok(yes_or_no(self.stable(&state)))
    }

    /// One pass to count, and one to write, as without a heap.
    fn list(&self, buffer: &mut [u8]) -> Result<u64, u64> {
        let branching = self.branching()?;
        let mut count = 0;
        self.each_stable(&branching, |_| {
            count += 1;
            ControlFlow::Continue(())
        });
        let width = self.atoms.div_ceil(8);
        let length = 11 + count * width;
        let listing = buffer.get_mut(..length).ok_or(BUFFER_TOO_SHORT)?;
        let (head, records) = listing.split_at_mut(11);
        let mut rising = Rising::new(records, width);
        self.each_stable(&branching, |state| {
            rising.insert(&Program::record(state)[..width]);
            ControlFlow::Continue(())
        });
        head[0] = 1;
        head[1..5].copy_from_slice(&(length as u32).to_be_bytes());
        head[5..7].copy_from_slice(&(self.atoms as u16).to_be_bytes());
        head[7..11].copy_from_slice(&(count as u32).to_be_bytes());
        Ok(counts(branching.len(), count))
    }

    fn one(&self, buffer: &mut [u8]) -> Result<u64, u64> {
        let (g, _) = self.write_least(buffer, |_| 0)?;
        Ok(branching(g))
    }

    /// The search ends once both a state with the fact and one without it were seen.
    fn place(&self, fact: u32) -> Result<u64, u64> {
        if fact as usize >= self.atoms {
            return Err(NO_SUCH_FACT);
        }
        let branching = self.branching()?;
        let (mut standing, mut states) = (0, 0);
        self.each_stable(&branching, |state| {
            standing += usize::from(state[fact as usize]);
            states += 1;
            match (1..states).contains(&standing) {
                true => ControlFlow::Break(()),
                false => ControlFlow::Continue(()),
            }
        });
        Ok(place_of(branching.len(), standing, states))
    }

    fn nearest(&self, candidate: &[u8], buffer: &mut [u8]) -> Result<u64, u64> {
        let wanted: Names<N> = state(candidate, self.atoms).ok_or(BAD_CANDIDATE)?;
        let (g, facts) = self.write_least(buffer, |state| {
            let plain_names = state.iter().zip(&wanted).take(self.atoms);
            plain_names.filter(|(name, wanted)| name != wanted).count()
        })?;
        Ok(differing(g, facts))
    }

    /// The condition is read once, and tried on each state.
    fn count(&self, condition: &[u8]) -> Result<u64, u64> {
        let tree = conditions::read_for(condition, self.atoms as u16)?;
        let branching = self.branching()?;
        let (mut fitting, mut states) = (0, 0);
        self.each_stable(&branching, |state| {
            fitting += usize::from(tree.holds(state));
            states += 1;
            ControlFlow::Continue(())
        });
        Ok(fit_counts(branching.len(), states, fitting))
    }
}

/// Records inserted in rising order into a slice that they will fill: low ones at its start, high
/// ones at its end, and a gap between them that goes where the next record belongs.
struct Rising<'a> {
    records: &'a mut [u8],
    width: usize,
    /// The gap, in bytes.
    from: usize,
    to: usize,
}

impl<'a> Rising<'a> {
    fn new(records: &'a mut [u8], width: usize) -> Rising<'a> {
        let (from, to) = (0, records.len());
        Rising {
            records,
            width,
            from,
            to,
        }
    }

    fn insert(&mut self, record: &[u8]) {
        let width = self.width;
        while self.to < self.records.len() && &self.records[self.to..self.to + width] < record {
            let high = self.to..self.to + width;
            self.records.copy_within(high, self.from);
            self.from += width;
            self.to += width;
        }
        while self.from > 0 && &self.records[self.from - width..self.from] > record {
            let low = self.from - width..self.from;
            self.records.copy_within(low, self.to - width);
            self.from -= width;
            self.to -= width;
        }
        self.records[self.from..self.from + width].copy_from_slice(record);
        self.from += width;
    }
}

/// Entry j, bit i: layer i is below layer j.
fn below(book: &Parts) -> [u32; LAYERS] {
    let mut below = [0; LAYERS];
    for arrow in book.arrows.records() {
        below[usize::from(arrow[1])] |= 1 << arrow[0];
    }
    for via in 0..LAYERS {
        for layer in 0..LAYERS {
            if below[layer] >> via & 1 == 1 {
                below[layer] |= below[via];
            }
        }
    }
    below
}

/// The book at the driven layer, or the first of causes 1 to 9 and 19 that applies.
fn program(book: &[u8], drive: Drive) -> Result<Box<dyn Calls>, u64> {
    let cause = reader::first_cause(book);
    if cause != reader::GRANTED {
        return Err(cause.into());
    }
    let parts = reader::parts(book)?;
    if drive.layer >= parts.layers.into() {
        return Err(NO_SUCH_LAYER);
    }
    if u64::from(drive.off) >> parts.layers != 0 {
        return Err(NO_SUCH_LAYER_OFF);
    }
    Ok(match 2 * usize::from(parts.atoms) <= FEW {
        true => Box::new(Program::<FEW>::new(&parts, drive)),
        false => Box::new(Program::<ALL>::new(&parts, drive)),
    })
}

/// The state that a record gives. `None` where its length is another, or a spare bit is set.
fn state<const N: usize>(record: &[u8], atoms: usize) -> Option<Names<N>> {
    if record.len() != atoms.div_ceil(8) {
        return None;
    }
    let spare = 8 * record.len() - atoms;
    if record[record.len() - 1] & ((1 << spare) - 1) as u8 != 0 {
        return None;
    }
    let mut state = [false; N];
    for atom in 0..atoms {
        let stands = record[atom / 8] >> (7 - atom % 8) & 1;
        state[atom + N / 2 * usize::from(1 - stands)] = true;
    }
    Some(state)
}

/// The number of branching facts, or the cause for which there is no search.
pub fn branching_count(book: &[u8], drive: Drive) -> Result<usize, u64> {
    program(book, drive)?.branching_count()
}

/// What `lesson_test` answers.
pub fn test(book: &[u8], drive: Drive, candidate: &[u8]) -> u64 {
    program(book, drive)
        .and_then(|program| program.test(candidate))
        .unwrap_or_else(|cause| cause)
}

/// What `lesson_list` answers and does.
pub fn list(book: &[u8], drive: Drive, buffer: &mut [u8]) -> u64 {
    program(book, drive)
        .and_then(|program| program.list(buffer))
        .unwrap_or_else(|cause| cause)
}

/// What `lesson_one` answers and does.
pub fn one(book: &[u8], drive: Drive, buffer: &mut [u8]) -> u64 {
    program(book, drive)
        .and_then(|program| program.one(buffer))
        .unwrap_or_else(|cause| cause)
}

/// What `lesson_place` answers.
pub fn place(book: &[u8], drive: Drive, fact: u32) -> u64 {
    program(book, drive)
        .and_then(|program| program.place(fact))
        .unwrap_or_else(|cause| cause)
}

/// What `lesson_nearest` answers and does.
pub fn nearest(book: &[u8], drive: Drive, candidate: &[u8], buffer: &mut [u8]) -> u64 {
    program(book, drive)
        .and_then(|program| program.nearest(candidate, buffer))
        .unwrap_or_else(|cause| cause)
}

/// What `lesson_count` answers.
pub fn count(book: &[u8], drive: Drive, condition: &[u8]) -> u64 {
    program(book, drive)
        .and_then(|program| program.count(condition))
        .unwrap_or_else(|cause| cause)
}

#[cfg(test)]
mod tests {
    use super::*;
    use crate::book::hex;
    use crate::drive::at;
    use crate::expected;
    use crate::oracle;
    use crate::rng::{seed, Rng};
    use crate::shapes::{self, Layering};

    #[test]
    fn plain_tester_agrees_with_the_oracle() {
        let seed = seed();
        let mut rng = Rng::named(seed, "plain tester");
        let mut stable = 0;
        for turn in 0..2_000 {
            let book = match turn % 4 {
                0 => shapes::leaning(&mut rng, Layering::Diamond),
                1 => shapes::constrained(&mut rng, Layering::Chain),
                _ => shapes::choices(&mut rng),
            };
            let bytes = book.bytes();
            for layer in 0..u32::from(book.layers) {
                let drive = at(layer).off(shapes::some_layers(&mut rng, book.layers));
                for number in 0..1u32 << book.atoms {
                    let state: Vec<bool> = (0..book.atoms).map(|f| number >> f & 1 == 1).collect();
                    let record = oracle::record(&state);
                    let plain = test(&bytes, drive, &record);
                    let oracle = expected::test(&bytes, drive, &record);
                    assert!(
                        plain == oracle,
                        "seed {seed}, {drive}, candidate {}: plain {plain}, oracle {oracle}\n{}",
                        hex(&record),
                        hex(&bytes)
                    );
                    stable += oracle >> 16;
                }
            }
        }
        assert!(stable > 1_000, "only {stable} stable states");
    }

    #[test]
    fn plain_search_agrees_with_the_oracle() {
        let seed = seed();
        let mut rng = Rng::named(seed, "plain search");
        let mut several = 0;
        for turn in 0..4_000 {
            let book = match turn % 4 {
                0 => shapes::choices(&mut rng),
                1 => shapes::leaning(&mut rng, Layering::Any),
                2 => shapes::constrained(&mut rng, Layering::Any),
                _ => shapes::layered(&mut rng, Layering::Any),
            };
            let bytes = book.bytes();
            for layer in 0..u32::from(book.layers) {
                let drive = at(layer).off(shapes::some_layers(&mut rng, book.layers));
                let mut buffer = vec![0xA5; rng.range(8, 30)];
                let oracle = expected::list(&bytes, drive, &buffer);
                let plain = list(&bytes, drive, &mut buffer);
                assert!(
                    (plain, &buffer) == (oracle.0, &oracle.1),
                    "seed {seed}, {drive}: plain {plain:#X}, oracle {:#X}\n{}",
                    oracle.0,
                    hex(&bytes)
                );
                several += usize::from(plain >> 16 > 1);
                let before = vec![0xA5; rng.below(4)];
                let candidate = shapes::any_candidate(&mut rng, book.atoms.into());
                let [mut first, mut closest] = [before.clone(), before.clone()];
                let told = format!("seed {seed}, {drive}, {}\n{}", hex(&candidate), hex(&bytes));
                let answer = one(&bytes, drive, &mut first);
                let oracle = expected::one(&bytes, drive, &before);
                assert_eq!((answer, first), oracle, "one: {told}");
                let answer = nearest(&bytes, drive, &candidate, &mut closest);
                let oracle = expected::nearest(&bytes, drive, &candidate, &before);
                assert_eq!((answer, closest), oracle, "nearest: {told}");
            }
        }
        assert!(several > 500, "only {several} listings of several states");
    }
}
