//! Books as values, and a plain builder of their bytes. Nothing is checked here, so that
//! unlawful books can be built too.

/// The most facts that a book may have (document 02, l).
pub const MAX_ATOMS: u16 = 1_024;

/// The bytes of the longest record.
pub const LONGEST_RECORD: usize = width(MAX_ATOMS);

/// As many facts as a byte has numbers for.
pub const BYTE_ATOMS: u16 = 1 << 8;

/// Numbers of facts that a byte does not hold, where records and their spare bits change: at the first
/// of them, and at the bound.
pub const WIDE: [u16; 8] = [
    BYTE_ATOMS + 1,
    BYTE_ATOMS + 7,
    BYTE_ATOMS + 8,
    BYTE_ATOMS + 9,
    MAX_ATOMS - 8,
    MAX_ATOMS - 7,
    MAX_ATOMS - 1,
    MAX_ATOMS,
];

/// The numbers of facts at which a record changes its length or its spare bits.
pub fn edge_sizes() -> impl Iterator<Item = u16> {
    let few = [1, 7, 8, 9, BYTE_ATOMS - 1, BYTE_ATOMS];
    few.into_iter().chain(WIDE)
}

/// The bytes of a record of so many facts.
pub const fn width(atoms: u16) -> usize {
    (atoms as usize).div_ceil(8)
}

/// An atom (document 01: a fact) with a sign.
#[derive(Clone, Copy, Debug, PartialEq, Eq)]
pub struct Literal {
    pub atom: u16,
    pub negated: bool,
}

/// The literal "f".
pub const fn plain(atom: u16) -> Literal {
    Literal {
        atom,
        negated: false,
    }
}

/// The literal "not f".
pub const fn not(atom: u16) -> Literal {
    Literal {
        atom,
        negated: true,
    }
}

impl Literal {
    /// The same atom with the other sign.
    pub fn opposite(self) -> Literal {
        Literal {
            negated: !self.negated,
            ..self
        }
    }

    fn bytes(self) -> [u8; 2] {
        (self.atom | if self.negated { 0x8000 } else { 0 }).to_be_bytes()
    }
}

/// The number 32,767, which is no fact's: "false" for the head of a rule (document 02, c).
pub const FALSITY: Literal = plain(0x7FFF);

#[derive(Clone, Copy, Debug, PartialEq, Eq)]
pub struct Arrow {
    pub earlier: u8,
    pub later: u8,
}

#[derive(Clone, Debug, PartialEq, Eq)]
pub struct Rule {
    pub layer: u8,
    pub head: Literal,
    pub body: Vec<Literal>,
}

impl Rule {
    /// Whether it is a constraint: a rule with "false" for a head, whose body must never hold.
    pub fn is_constraint(&self) -> bool {
        self.head == FALSITY
    }
}

#[derive(Clone, Debug, PartialEq, Eq)]
pub struct Book {
    pub atoms: u16,
    pub layers: u8,
    pub arrows: Vec<Arrow>,
    pub rules: Vec<Rule>,
}

impl Book {
    /// A book without arrows and rules.
    pub fn new(atoms: u16, layers: u8) -> Book {
        Book {
            atoms,
            layers,
            arrows: Vec::new(),
            rules: Vec::new(),
        }
    }

    pub fn arrow(mut self, earlier: u8, later: u8) -> Book {
        self.arrows.push(Arrow { earlier, later });
        self
    }

    pub fn rule(mut self, layer: u8, head: Literal, body: &[Literal]) -> Book {
        let body = body.to_vec();
        self.rules.push(Rule { layer, head, body });
        self
    }

    /// A constraint of a layer.
    pub fn never(self, layer: u8, body: &[Literal]) -> Book {
        self.rule(layer, FALSITY, body)
    }

    /// The same book with its facts under other numbers, each of which is taken once.
    pub fn renumbered(&self, numbers: &[u16]) -> Book {
        let mut book = self.clone();
        for rule in &mut book.rules {
            let head = (!rule.is_constraint()).then_some(&mut rule.head);
            for literal in head.into_iter().chain(&mut rule.body) {
                literal.atom = numbers[usize::from(literal.atom)];
            }
        }
        book
    }

    pub fn has_constraints(&self) -> bool {
        self.rules.iter().any(Rule::is_constraint)
    }

    /// The same book without its constraints.
    pub fn without_constraints(&self) -> Book {
        let mut book = self.clone();
        book.rules.retain(|rule| !rule.is_constraint());
        book
    }

    pub fn draft(&self) -> Draft {
        Draft {
            version: 1,
            length: None,
            atoms: self.atoms,
            layers: self.layers,
            arrows: Section::new(self.arrows.iter().map(arrow_record).collect()),
            rules: Section::new(self.rules.iter().map(rule_record).collect()),
            tail: Vec::new(),
        }
    }

    pub fn bytes(&self) -> Vec<u8> {
        self.draft().bytes()
    }
}

/// Contents behind the length byte that counts them.
pub fn framed(contents: &[u8]) -> Vec<u8> {
    let mut record = vec![contents.len() as u8];
    record.extend_from_slice(contents);
    record
}

fn arrow_record(arrow: &Arrow) -> Vec<u8> {
    framed(&[arrow.earlier, arrow.later])
}

fn rule_record(rule: &Rule) -> Vec<u8> {
    let mut contents = vec![rule.layer];
    contents.extend_from_slice(&rule.head.bytes());
    for literal in &rule.body {
        contents.extend_from_slice(&literal.bytes());
    }
    framed(&contents)
}

/// A section whose fields need not fit its records. A field that is `None` is worked out.
#[derive(Clone, Debug)]
pub struct Section {
    pub size: Option<u32>,
    pub count: Option<u16>,
    /// Each with its length byte.
    pub records: Vec<Vec<u8>>,
}

impl Section {
    pub fn new(records: Vec<Vec<u8>>) -> Section {
        Section {
            size: None,
            count: None,
            records,
        }
    }

    /// The bytes of the records.
    pub fn true_size(&self) -> u32 {
        self.records.iter().map(|record| record.len() as u32).sum()
    }

    fn append_to(&self, bytes: &mut Vec<u8>) {
        let size = self.size.unwrap_or(self.true_size());
        let count = self.count.unwrap_or(self.records.len() as u16);
        bytes.extend_from_slice(&size.to_be_bytes());
        bytes.extend_from_slice(&count.to_be_bytes());
        bytes.extend(self.records.iter().flatten());
    }
}

/// A book on its way to bytes, each field free. A field that is `None` is worked out.
#[derive(Clone, Debug)]
pub struct Draft {
    pub version: u8,
    pub length: Option<u32>,
    pub atoms: u16,
    pub layers: u8,
    pub arrows: Section,
    pub rules: Section,
    /// Bytes after the rule section.
    pub tail: Vec<u8>,
}

impl Draft {
    pub fn bytes(&self) -> Vec<u8> {
        let mut bytes = vec![self.version, 0, 0, 0, 0];
        bytes.extend_from_slice(&self.atoms.to_be_bytes());
        bytes.push(self.layers);
        self.arrows.append_to(&mut bytes);
        self.rules.append_to(&mut bytes);
        bytes.extend_from_slice(&self.tail);
        let length = self.length.unwrap_or(bytes.len() as u32);
        set_length(&mut bytes, length);
        bytes
    }
}

/// Writes the length field, as far as the bytes go.
pub fn set_length(bytes: &mut [u8], length: u32) {
    for (to, from) in bytes.iter_mut().skip(1).zip(length.to_be_bytes()) {
        *to = from;
    }
}

/// For messages.
pub fn hex(bytes: &[u8]) -> String {
    bytes.iter().map(|byte| format!("{byte:02X}")).collect()
}
