//! The calls as a Rust programmer free of the engine's forms would write them: facts as bit sets,
//! a setting as one number, the heap where it helps. Every setting is tried once, and the records
//! are sorted at the end. The benchmark's opponent; it shares nothing with the engine.

use crate::book::{width, BYTE_ATOMS, LONGEST_RECORD, MAX_ATOMS};
use crate::drive::Drive;
use crate::expected::{
    branching, counts, differing, place_of, yes_or_no, BAD_CANDIDATE, BUFFER_TOO_SHORT,
    MAX_BRANCHING, NO_STABLE_STATE, NO_SUCH_FACT, NO_SUCH_LAYER, NO_SUCH_LAYER_OFF,
    TOO_MANY_BRANCHING,
};
use crate::reader::{self, Parts};
use std::ops::ControlFlow;

/// A set of facts in W words. Fact 0 is the highest bit of the first word, so that the words' bytes
/// are the record and sets compare as records do.
type Set<const W: usize> = [u64; W];

/// The words of a book with few facts: it need not pay for as many as there can be.
const FEW: usize = BYTE_ATOMS as usize / 64;
const ALL: usize = MAX_ATOMS as usize / 64;

fn bit(atom: u16) -> (usize, u64) {
    (usize::from(atom) / 64, 1 << 63 >> (atom % 64))
}

fn insert<const W: usize>(set: &mut Set<W>, atom: u16) {
    let (word, bit) = bit(atom);
    set[word] |= bit;
}

fn contains<const W: usize>(set: &Set<W>, atom: u16) -> bool {
    let (word, bit) = bit(atom);
    set[word] & bit != 0
}

/// The facts of `set` that `other` does not have.
fn without<const W: usize>(set: &Set<W>, other: &Set<W>) -> Set<W> {
    std::array::from_fn(|word| set[word] & !other[word])
}

fn is_empty<const W: usize>(set: &Set<W>) -> bool {
    set.iter().all(|&word| word == 0)
}

fn within<const W: usize>(set: &Set<W>, other: &Set<W>) -> bool {
    is_empty(&without(set, other))
}

fn disjoint<const W: usize>(set: &Set<W>, other: &Set<W>) -> bool {
    (0..W).all(|word| set[word] & other[word] == 0)
}

/// How many facts are in one of two sets only.
fn distance<const W: usize>(set: &Set<W>, other: &Set<W>) -> u32 {
    (0..W)
        .map(|word| (set[word] ^ other[word]).count_ones())
        .sum()
}

/// The facts of a set among `atoms`, as a number: the first of these is its highest bit.
fn as_setting<const W: usize>(atoms: &[u16], set: &Set<W>) -> u32 {
    let stands = |setting, &atom: &u16| setting << 1 | u32::from(contains(set, atom));
    atoms.iter().fold(0, stands)
}

/// The first `atoms` facts.
fn first<const W: usize>(atoms: u16) -> Set<W> {
    std::array::from_fn(|word| match usize::from(atoms).saturating_sub(64 * word) {
        0 => 0,
        some if some < 64 => !(u64::MAX >> some),
        _ => u64::MAX,
    })
}

fn record<const W: usize>(set: &Set<W>) -> [u8; LONGEST_RECORD] {
    let mut record = [0; LONGEST_RECORD];
    for (bytes, word) in record.chunks_exact_mut(8).zip(set) {
        bytes.copy_from_slice(&word.to_be_bytes());
    }
    record
}

/// The facts that a body has plain, and negated.
#[derive(Clone, Copy)]
struct Body<const W: usize> {
    plain: Set<W>,
    negated: Set<W>,
}

impl<const W: usize> Body<W> {
    fn holds(&self, state: &Set<W>) -> bool {
        within(&self.plain, state) && disjoint(&self.negated, state)
    }

    /// Whether it holds in any state at all.
    fn can_hold(&self) -> bool {
        disjoint(&self.plain, &self.negated)
    }

    /// How many facts it has, if it can hold.
    fn size(&self) -> u32 {
        let sets = self.plain.iter().chain(&self.negated);
        sets.map(|word| word.count_ones()).sum()
    }
}

/// A relevant rule.
#[derive(Clone, Copy)]
struct Rule<const W: usize> {
    body: Body<W>,
    head: u16,
    denies: bool,
    layer: u8,
    /// The number of the contest about its head, 0 where no rule can displace it.
    contest: u16,
}

impl<const W: usize> Rule<W> {
    /// Whether the head is in the body, with its sign.
    fn leans_on_itself(&self) -> bool {
        match self.denies {
            false => contains(&self.body.plain, self.head),
            true => contains(&self.body.negated, self.head),
        }
    }
}

/// What a rule does to others where its body holds.
#[derive(Clone, Copy)]
struct Displacing<const W: usize> {
    rule: Rule<W>,
    contest: u16,
    layers: u32,
}

/// A lawful book at the driven layer.
struct Program<const W: usize> {
    atoms: u16,
    /// All its facts.
    facts: Set<W>,
    rules: Vec<Rule<W>>,
    /// Those that can displace at all.
    displacing: Vec<Displacing<W>>,
    contests: usize,
    /// The relevant constraints.
    constraints: Vec<Body<W>>,
}

impl<const W: usize> Program<W> {
    fn new(book: &Parts, drive: Drive) -> Program<W> {
        let below = below(book);
        let relevant = (below[drive.layer as usize] | 1 << drive.layer) & !drive.off;
        let mut rules = Vec::with_capacity(book.rules.count.into());
        let mut constraints = Vec::new();
        let counts = |record: &&[u8]| relevant >> record[0] & 1 == 1;
        for record in book.rules.records().filter(counts) {
            match reader::is_falsity(&record[1..3]) {
                true => constraints.push(body(record)),
                false => rules.push(rule(record)),
            }
        }
        let mut layers_of = [[[0u32; 64]; W]; 2];
        for rule in &rules {
            *by_head(&mut layers_of, rule.denies, rule.head) |= 1 << rule.layer;
        }
        let mut contest_of = [[[0u16; 64]; W]; 2];
        let mut displacing = Vec::new();
        let mut contests = 1;
        for rule in &rules {
            let layers = *by_head(&mut layers_of, !rule.denies, rule.head);
            let layers = layers & below[usize::from(rule.layer)];
            if layers != 0 && !rule.leans_on_itself() {
                let contest = by_head(&mut contest_of, !rule.denies, rule.head);
                if *contest == 0 {
                    *contest = contests;
                    contests += 1;
                }
                displacing.push(Displacing {
                    rule: *rule,
                    contest: *contest,
                    layers,
                });
            }
        }
        for rule in &mut rules {
            rule.contest = *by_head(&mut contest_of, rule.denies, rule.head);
        }
        Program {
            atoms: book.atoms,
            facts: first(book.atoms),
            rules,
            displacing,
            contests: contests.into(),
            constraints,
        }
    }

    /// The branching facts, rising.
    fn branching(&self) -> Vec<u16> {
        let negated = self.rules.iter().map(|rule| &rule.body.negated);
        let displacing = self.displacing.iter().map(|one| &one.rule.body.plain);
        let branches = negated.chain(displacing).fold([0; W], |all: Set<W>, set| {
            std::array::from_fn(|word| all[word] | set[word])
        });
        let facts = 0..self.atoms;
        facts.filter(|&atom| contains(&branches, atom)).collect()
    }

    /// Whether a state is stable. Once no live rule whose body holds contradicts it, only what is
    /// not founded is in the way.
    fn stable(&self, state: &Set<W>) -> bool {
        if self.constraints.iter().any(|body| body.holds(state)) {
            return false;
        }
        let mut displaced = vec![0u32; self.contests];
        for displacing in &self.displacing {
            if displacing.rule.body.holds(state) {
                displaced[usize::from(displacing.contest)] |= displacing.layers;
            }
        }
        let mut supported = [0; W];
        let mut live = Vec::with_capacity(self.rules.len());
        for (at, rule) in self.rules.iter().enumerate() {
            if !rule.body.holds(state) {
                continue;
            }
            if !rule.denies {
                insert(&mut supported, rule.head);
            }
            if displaced[usize::from(rule.contest)] >> rule.layer & 1 == 0 {
                if contains(state, rule.head) == rule.denies {
                    return false;
                }
                live.push(at as u16);
            }
        }
        let defaults = without(&self.facts, &supported);
        let denied = without(&self.facts, state);
        disjoint(&defaults, state) && founded(&self.rules, &mut live, defaults, (state, &denied))
    }
}

/// Whether all names of a state, the plain and the negated ones, are reached from the defaults over
/// the live rules, whose heads agree with it.
fn founded<const W: usize>(
    rules: &[Rule<W>],
    live: &mut Vec<u16>,
    defaults: Set<W>,
    names: (&Set<W>, &Set<W>),
) -> bool {
    let (mut plain, mut negated) = ([0; W], defaults);
    loop {
        let waiting = live.len();
        live.retain(|&at| {
            let rule = &rules[usize::from(at)];
            let body = &rule.body;
            let fires = within(&body.plain, &plain) && within(&body.negated, &negated);
            match rule.denies {
                _ if !fires => {}
                false => insert(&mut plain, rule.head),
                true => insert(&mut negated, rule.head),
            }
            !fires
        });
        if live.len() == waiting {
            return (&plain, &negated) == names;
        }
    }
}

/// What a body says of the branching facts: those that are in it, and those that have to stand.
#[derive(Clone, Copy)]
struct Guard {
    decided: u32,
    stand: u32,
}

impl Guard {
    fn fits(self, setting: u32) -> bool {
        setting & self.decided == self.stand
    }
}

/// The rules that can displace those with one head, and in which layers they do so at a setting.
struct Contest {
    displacing: Vec<(Guard, u32)>,
    setting: u32,
    layers: u32,
}

impl Contest {
    fn new() -> Contest {
        Contest {
            displacing: Vec::new(),
            // No setting has a bit as high.
            setting: 1 << 31,
            layers: 0,
        }
    }

    /// Worked out when a setting first asks: most settings fail before.
    fn displaces<const W: usize>(&mut self, rule: &Rule<W>, setting: u32) -> bool {
        if self.setting != setting {
            let fitting = self.displacing.iter().filter(|one| one.0.fits(setting));
            self.layers = fitting.fold(0, |layers, one| layers | one.1);
            self.setting = setting;
        }
        self.layers >> rule.layer & 1 == 1
    }
}

/// A program ready to be tried at the settings of its branching facts. The first of them is the
/// highest bit of a setting.
struct Search<const W: usize> {
    atoms: u16,
    facts: Set<W>,
    branching: Vec<u16>,
    /// Those with plain heads in an order in which they fire where all fit, then the others; and
    /// their guards.
    rules: Vec<Rule<W>>,
    guards: Vec<Guard>,
    /// The setting's bit for each plain head, 0 where it does not branch.
    head_bits: Vec<u32>,
    contests: Vec<Contest>,
    /// What constraints say of the branching facts: those that say nothing else, and the others with
    /// their bodies, which only a finished state decides.
    decided_bans: Vec<Guard>,
    bans: Vec<(Guard, Body<W>)>,
    /// By number: rules that are not reached yet, and displaced ones whose guard fits.
    waiting: Vec<u16>,
    shadowed: Vec<u16>,
}

impl<const W: usize> Search<W> {
    /// Or cause 12.
    fn new(program: Program<W>) -> Result<Search<W>, u64> {
        let branching = program.branching();
        if branching.len() > MAX_BRANCHING {
            return Err(TOO_MANY_BRANCHING);
        }
        let as_setting = |set: &Set<W>| as_setting(&branching, set);
        let guard = |body: &Body<W>| Guard {
            decided: as_setting(&body.plain) | as_setting(&body.negated),
            stand: as_setting(&body.plain),
        };
        let head_bit = |rule: &Rule<W>| {
            let mut head = [0; W];
            insert(&mut head, rule.head);
            as_setting(&head)
        };
        let rules = in_firing_order(&program.rules);
        let plain = rules.iter().filter(|rule| !rule.denies);
        let mut contests: Vec<Contest> = (0..program.contests).map(|_| Contest::new()).collect();
        let displacing = program.displacing.iter();
        for one in displacing.filter(|one| one.rule.body.can_hold()) {
            let contest = &mut contests[usize::from(one.contest)];
            contest.displacing.push((guard(&one.rule.body), one.layers));
        }
        let bans = program.constraints.iter().filter(|body| body.can_hold());
        let (decided_bans, bans): (Vec<_>, Vec<_>) = bans
            .map(|body| (guard(body), *body))
            .partition(|(guard, body)| guard.decided.count_ones() == body.size());
        Ok(Search {
            atoms: program.atoms,
            facts: program.facts,
            decided_bans: decided_bans.into_iter().map(|ban| ban.0).collect(),
            bans,
            guards: rules.iter().map(|rule| guard(&rule.body)).collect(),
            head_bits: plain.map(head_bit).collect(),
            contests,
            waiting: Vec::with_capacity(rules.len()),
            shadowed: Vec::with_capacity(rules.len()),
            branching,
            rules,
        })
    }

    /// The stable state that agrees with the setting, if there is one. A body's branching facts
    /// are compared with the setting at once: where a body that does not fit were reached, the
    /// setting would have failed.
    fn state_at(&mut self, setting: u32) -> Option<Set<W>> {
        if self.decided_bans.iter().any(|ban| ban.fits(setting)) {
            return None;
        }
        let state = self.fill(setting)?;
        let holds = |(guard, body): &(Guard, Body<W>)| guard.fits(setting) && body.holds(&state);
        if self.bans.iter().any(holds) {
            return None;
        }
        for at in self.head_bits.len()..self.rules.len() {
            let head = self.rules[at].head;
            if contains(&state, head) && self.fires(at, setting, &state) {
                return None;
            }
        }
        // Facts that do not stand, and not by default: a displaced rule speaks for them.
        let mut contested = [0; W];
        for &at in &self.shadowed {
            let rule = &self.rules[usize::from(at)];
            if within(&rule.body.plain, &state) {
                insert(&mut contested, rule.head);
            }
        }
        let contested = without(&contested, &state);
        (is_empty(&contested) || self.denied(setting, &state, &contested)).then_some(state)
    }

    /// Whether a rule's body holds in a state that agrees with the setting, and it is live.
    fn fires(&mut self, at: usize, setting: u32, state: &Set<W>) -> bool {
        let rule = &self.rules[at];
        self.guards[at].fits(setting)
            && within(&rule.body.plain, state)
            && !self.contests[usize::from(rule.contest)].displaces(rule, setting)
    }

    /// The plain facts that follow, as if each branching fact that the setting denies were denied
    /// by default. `None` as soon as one of these is reached, or where another is not reached.
    fn fill(&mut self, setting: u32) -> Option<Set<W>> {
        self.waiting.clear();
        self.shadowed.clear();
        let mut state = [0; W];
        let (mut reached, mut reachable) = (0, 0);
        for (at, &head_bit) in self.head_bits.iter().enumerate() {
            if !self.guards[at].fits(setting) {
                continue;
            }
            let rule = &self.rules[at];
            if self.contests[usize::from(rule.contest)].displaces(rule, setting) {
                self.shadowed.push(at as u16);
            } else if within(&rule.body.plain, &state) {
                insert(&mut state, rule.head);
                reached |= head_bit;
                if reached & !setting != 0 {
                    return None;
                }
            } else {
                reachable |= head_bit;
                self.waiting.push(at as u16);
            }
        }
        if setting & !(reached | reachable) != 0 {
            return None;
        }
        let mut left = self.waiting.len() + 1;
        while self.waiting.len() < left && reached & !setting == 0 {
            left = self.waiting.len();
            self.waiting.retain(|&at| {
                let rule = &self.rules[usize::from(at)];
                let fires = within(&rule.body.plain, &state);
                if fires {
                    insert(&mut state, rule.head);
                    reached |= self.head_bits[usize::from(at)];
                }
                !(fires || contains(&state, rule.head))
            });
        }
        (reached == setting).then_some(state)
    }

    /// Whether the contested facts are denied by rules that are founded without them. What fires
    /// agrees with the state, as `state_at` has seen.
    fn denied(&mut self, setting: u32, state: &Set<W>, contested: &Set<W>) -> bool {
        let mut live = std::mem::take(&mut self.waiting);
        live.clear();
        let numbers = 0..self.rules.len();
        let firing = numbers.filter(|&at| self.fires(at, setting, state));
        live.extend(firing.map(|at| at as u16));
        let denied = without(&self.facts, state);
        let defaults = without(&denied, contested);
        let all = founded(&self.rules, &mut live, defaults, (state, &denied));
        self.waiting = live;
        all
    }

    /// Visits every stable state once, until the visitor has seen enough.
    fn each_stable(&mut self, mut visit: impl FnMut(&Set<W>) -> ControlFlow<()>) {
        for setting in 0..1 << self.branching.len() {
            if let Some(state) = self.state_at(setting) {
                if visit(&state).is_break() {
                    return;
                }
            }
        }
    }

    fn list(&mut self, buffer: &mut [u8]) -> Result<u64, u64> {
        let mut states = Vec::new();
        self.each_stable(|state| {
            states.push(*state);
            ControlFlow::Continue(())
        });
        states.sort_unstable();
        let width = width(self.atoms);
        let length = 11 + states.len() * width;
        let listing = buffer.get_mut(..length).ok_or(BUFFER_TOO_SHORT)?;
        listing[0] = 1;
        listing[1..5].copy_from_slice(&(length as u32).to_be_bytes());
        listing[5..7].copy_from_slice(&self.atoms.to_be_bytes());
        listing[7..11].copy_from_slice(&(states.len() as u32).to_be_bytes());
        for (place, state) in listing[11..].chunks_exact_mut(width).zip(&states) {
            place.copy_from_slice(&record(state)[..width]);
        }
        Ok(counts(self.branching.len(), states.len()))
    }

    /// Sets compare as records do. Where the branching facts come before all others, the first state
    /// that is met is the least.
    fn one(&mut self, buffer: &mut [u8]) -> Result<u64, u64> {
        let width = width(self.atoms);
        let place = buffer.get_mut(..width).ok_or(BUFFER_TOO_SHORT)?;
        let in_order = (0..).zip(&self.branching).all(|(at, &atom)| at == atom);
        let mut least: Option<Set<W>> = None;
        self.each_stable(|state| {
            least = Some(least.map_or(*state, |least| least.min(*state)));
            match in_order {
                true => ControlFlow::Break(()),
                false => ControlFlow::Continue(()),
            }
        });
        place.copy_from_slice(&record(&least.ok_or(NO_STABLE_STATE)?)[..width]);
        Ok(branching(self.branching.len()))
    }

    fn place(&mut self, atom: u16) -> u64 {
        let (mut standing, mut states) = (0, 0);
        self.each_stable(|state| {
            standing += usize::from(contains(state, atom));
            states += 1;
            match (1..states).contains(&standing) {
                true => ControlFlow::Break(()),
                false => ControlFlow::Continue(()),
            }
        });
        place_of(self.branching.len(), standing, states)
    }

    /// Every setting in turn, with the closest state so far kept. A setting is passed over where more of
    /// the branching facts alone differ, and after a state in which none differs no other is closest.
    fn nearest(&mut self, wanted: &Set<W>, buffer: &mut [u8]) -> Result<u64, u64> {
        let width = width(self.atoms);
        let place = buffer.get_mut(..width).ok_or(BUFFER_TOO_SHORT)?;
        let near = as_setting(&self.branching, wanted);
        let mut closest: Option<(u32, Set<W>)> = None;
        for setting in 0..1u32 << self.branching.len() {
            let apart = (setting ^ near).count_ones();
            if closest.is_some_and(|(facts, _)| apart > facts) {
                continue;
            }
            if let Some(state) = self.state_at(setting) {
                let met = (distance(wanted, &state), state);
                closest = Some(closest.map_or(met, |closest| closest.min(met)));
                if met.0 == 0 {
                    break;
                }
            }
        }
        let (facts, state) = closest.ok_or(NO_STABLE_STATE)?;
        place.copy_from_slice(&record(&state)[..width]);
        Ok(differing(self.branching.len(), facts as usize))
    }
}

/// The rules with plain heads in an order in which they fire if all negated facts are reached and
/// nothing is displaced, then those with negated heads. Rules that do not even fire then are left
/// out: their bodies hold in no stable state.
fn in_firing_order<const W: usize>(rules: &[Rule<W>]) -> Vec<Rule<W>> {
    let (denying, mut waiting): (Vec<Rule<W>>, Vec<Rule<W>>) = rules
        .iter()
        .filter(|rule| rule.body.can_hold())
        .partition(|rule| rule.denies);
    let mut fired = Vec::with_capacity(rules.len());
    let mut reached = [0; W];
    loop {
        let before = fired.len();
        waiting.retain(|rule| {
            let fires = within(&rule.body.plain, &reached);
            if fires {
                insert(&mut reached, rule.head);
                fired.push(*rule);
            }
            !fires
        });
        if fired.len() == before {
            let reachable = |rule: &Rule<W>| within(&rule.body.plain, &reached);
            fired.extend(denying.into_iter().filter(reachable));
            return fired;
        }
    }
}

/// Entry j, bit i: layer i is below layer j.
fn below(book: &Parts) -> [u32; 32] {
    let mut below = [0u32; 32];
    for arrow in book.arrows.records() {
        below[usize::from(arrow[1])] |= 1 << arrow[0];
    }
    for via in 0..usize::from(book.layers) {
        let via_below = below[via];
        for layer in &mut below {
            if *layer >> via & 1 == 1 {
                *layer |= via_below;
            }
        }
    }
    below
}

/// The body of a rule's record.
fn body<const W: usize>(record: &[u8]) -> Body<W> {
    let (mut plain, mut negated) = ([0; W], [0; W]);
    for (atom, negates) in record[3..].chunks_exact(2).map(literal) {
        match negates {
            false => insert(&mut plain, atom),
            true => insert(&mut negated, atom),
        }
    }
    Body { plain, negated }
}

fn rule<const W: usize>(record: &[u8]) -> Rule<W> {
    let (head, denies) = literal(&record[1..3]);
    Rule {
        body: body(record),
        head,
        denies,
        layer: record[0],
        contest: 0,
    }
}

/// A fact, and whether it is negated.
fn literal(bytes: &[u8]) -> (u16, bool) {
    let number = u16::from_be_bytes([bytes[0], bytes[1]]);
    (number & 0x7FFF, number >= 0x8000)
}

/// What a table has for the plain or the negated name of a fact.
fn by_head<T, const W: usize>(table: &mut [[[T; 64]; W]; 2], negated: bool, atom: u16) -> &mut T {
    let atom = usize::from(atom);
    &mut table[usize::from(negated)][atom / 64][atom % 64]
}

/// The book at the driven layer, or the first of causes 1 to 9 and 19 that applies.
fn program(book: &[u8], drive: Drive) -> Result<Box<dyn Calls>, u64> {
    match check(book) {
        0 => {}
        cause => return Err(cause),
    }
    let parts = reader::parts(book)?;
    if drive.layer >= parts.layers.into() {
        return Err(NO_SUCH_LAYER);
    }
    if u64::from(drive.off) >> parts.layers != 0 {
        return Err(NO_SUCH_LAYER_OFF);
    }
    Ok(match usize::from(parts.atoms) <= 64 * FEW {
        true => Box::new(Program::<FEW>::new(&parts, drive)),
        false => Box::new(Program::<ALL>::new(&parts, drive)),
    })
}

/// The answers of a program, whatever the words of its sets, or the causes for which there are none.
trait Calls {
    fn test(&self, record: &[u8]) -> Result<u64, u64>;
    fn list(self: Box<Self>, buffer: &mut [u8]) -> Result<u64, u64>;
    fn one(self: Box<Self>, buffer: &mut [u8]) -> Result<u64, u64>;
    fn place(self: Box<Self>, fact: u32) -> Result<u64, u64>;
    fn nearest(self: Box<Self>, record: &[u8], buffer: &mut [u8]) -> Result<u64, u64>;
}

impl<const W: usize> Calls for Program<W> {
    fn test(&self, record: &[u8]) -> Result<u64, u64> {
        let state = candidate(record, self.atoms)?;
        Ok(yes_or_no(self.stable(&state)))
    }

    fn list(self: Box<Self>, buffer: &mut [u8]) -> Result<u64, u64> {
        Search::new(*self)?.list(buffer)
    }

    fn one(self: Box<Self>, buffer: &mut [u8]) -> Result<u64, u64> {
        Search::new(*self)?.one(buffer)
    }

    fn place(self: Box<Self>, fact: u32) -> Result<u64, u64> {
        if fact >= self.atoms.into() {
            return Err(NO_SUCH_FACT);
        }
        Ok(Search::new(*self)?.place(fact as u16))
    }

    fn nearest(self: Box<Self>, record: &[u8], buffer: &mut [u8]) -> Result<u64, u64> {
        let wanted = candidate(record, self.atoms)?;
        Search::new(*self)?.nearest(&wanted, buffer)
    }
}

/// The state that a record gives, or cause 10.
fn candidate<const W: usize>(record: &[u8], atoms: u16) -> Result<Set<W>, u64> {
    if record.len() != width(atoms) {
        return Err(BAD_CANDIDATE);
    }
    let mut bytes = [0; LONGEST_RECORD];
    bytes[..record.len()].copy_from_slice(record);
    let mut state = [0; W];
    for (word, bytes) in state.iter_mut().zip(bytes.chunks_exact(8)) {
        *word = bytes
            .iter()
            .fold(0, |word, &byte| word << 8 | u64::from(byte));
    }
    match within(&state, &first(atoms)) {
        true => Ok(state),
        false => Err(BAD_CANDIDATE),
    }
}

/// What `lesson_check` answers. Facts need no sets for this: the reader is the plain program.
pub fn check(book: &[u8]) -> u64 {
    reader::first_cause(book).into()
}

/// What `lesson_test` answers.
pub fn test(book: &[u8], drive: Drive, record: &[u8]) -> u64 {
    program(book, drive)
        .and_then(|program| program.test(record))
        .unwrap_or_else(|cause| cause)
}

/// What `lesson_list` answers and does.
pub fn list(book: &[u8], drive: Drive, buffer: &mut [u8]) -> u64 {
    program(book, drive)
        .and_then(|program| program.list(buffer))
        .unwrap_or_else(|cause| cause)
}

/// What `lesson_one` answers and does.
pub fn one(book: &[u8], drive: Drive, buffer: &mut [u8]) -> u64 {
    program(book, drive)
        .and_then(|program| program.one(buffer))
        .unwrap_or_else(|cause| cause)
}

/// What `lesson_place` answers.
pub fn place(book: &[u8], drive: Drive, fact: u32) -> u64 {
    program(book, drive)
        .and_then(|program| program.place(fact))
        .unwrap_or_else(|cause| cause)
}

/// What `lesson_nearest` answers and does.
pub fn nearest(book: &[u8], drive: Drive, record: &[u8], buffer: &mut [u8]) -> u64 {
    program(book, drive)
        .and_then(|program| program.nearest(record, buffer))
        .unwrap_or_else(|cause| cause)
}
