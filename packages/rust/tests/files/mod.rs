//! Random statement files, most of them readable, and what becomes of them when they are damaged.

use pezvoran::format::{Class, Kind};

/// Numbers that look random: splitmix64.
pub struct Random(pub u64);

impl Random {
    pub fn next(&mut self) -> u64 {
        self.0 = self.0.wrapping_add(0x9e37_79b9_7f4a_7c15);
        let mixed = (self.0 ^ self.0 >> 30).wrapping_mul(0xbf58_476d_1ce4_e5b9);
        let mixed = (mixed ^ mixed >> 27).wrapping_mul(0x94d0_49bb_1331_11eb);
        mixed ^ mixed >> 31
    }

    pub fn below(&mut self, limit: usize) -> usize {
        (self.next() % limit as u64) as usize
    }

    pub fn byte(&mut self) -> u8 {
        self.next() as u8
    }

    pub fn one_in(&mut self, times: usize) -> bool {
        self.below(times) == 0
    }

    pub fn pick<T: Copy>(&mut self, from: &[T]) -> Option<T> {
        (!from.is_empty()).then(|| from[self.below(from.len())])
    }

    pub fn edge(&mut self) -> u8 {
        EDGES[self.below(EDGES.len())]
    }
}

/// Bytes at which some class of field begins or ends.
pub const EDGES: [u8; 25] = [0, 1, 2, 3, 4, 5, 6, 7, 8, 9, 31, 32, 63, 64, 127, 128, 129, 135, 136, 143, 144, 191, 192, 254, 255];

/// A file of up to so many records; one field in `bad` may be anything, and one function in `bad` may lack its record.
pub fn random_file(random: &mut Random, labels: usize, records: usize, bad: usize) -> Vec<u8> {
    let mut file = Vec::new();
    let mut declared = Declared::default();
    for count in 0..records {
        // More declarations at the beginning.
        let kinds = if count < records / 3 { &[Kind::Name, Kind::Label, Kind::Variable][..] } else { &Kind::ALL };
        let kind = random.pick(kinds).expect("a kind");
        declared.write(random, labels, kind, bad, &mut file);
    }
    for label in declared.undefined() {
        if !random.one_in(bad) {
            file.extend_from_slice(&[Kind::Function.byte(), label, 0, 0, 0, 0, 0, 0, 0]);
        }
    }
    file
}

/// What a file declares, by the generator's own books, each value with the number of its label, variable or name.
#[derive(Default)]
struct Declared {
    types: Vec<(u8, u8)>,
    owners: Vec<(u8, u8)>,
    masks: Vec<(u8, u8)>,
    defined: Vec<u8>,
    profiles: usize,
}

/// The numbers of those values that pass.
fn having(values: &[(u8, u8)], passes: impl Fn(u8) -> bool) -> Vec<u8> {
    values.iter().filter(|(_, value)| passes(*value)).map(|(number, _)| *number).collect()
}

impl Declared {
    /// Writes a record of the kind, unless there is no good value for a field of it yet.
    fn write(&mut self, random: &mut Random, labels: usize, kind: Kind, bad: usize, file: &mut Vec<u8>) {
        let mut body = Vec::new();
        for field in kind.fields() {
            let any = if random.one_in(3) { random.byte() } else { random.edge() };
            let good = self.good(random, labels, kind, field.class);
            match good {
                _ if random.one_in(bad) => body.push(any),
                Some(value) => body.push(value),
                None => return,
            }
        }
        if kind == Kind::Variable && body[1] != 0 && !random.one_in(bad) {
            body[2] = 255;
        }
        self.note(kind, &body);
        file.push(kind.byte());
        file.extend_from_slice(&body);
    }

    fn good(&self, random: &mut Random, labels: usize, kind: Kind, class: Class) -> Option<u8> {
        let of_type = |types: &[u8]| having(&self.types, |value| types.contains(&value));
        let undeclared = |values: &[(u8, u8)], from: usize, limit: usize| -> Vec<u8> {
            (from..limit).map(|number| number as u8).filter(|number| values.iter().all(|(other, _)| other != number)).collect()
        };
        let candidates = match class {
            Class::Name if kind == Kind::Name => undeclared(&self.masks, 0, 32),
            Class::Name => (0..32).collect(),
            Class::Mask => (0..128).map(|half| 2 * half + 1).collect(),
            Class::NewLabel => undeclared(&self.types, 5, labels),
            Class::Type => vec![1, 2, 3],
            Class::Flag => vec![0, 1],
            Class::AnyLabel => [vec![0, 1, 2, 3, 4], of_type(&[1, 2, 3])].concat(),
            Class::HostLabel => [vec![0, 1, 2, 4], of_type(&[1, 2, 3])].concat(),
            Class::FunctionLabel if kind == Kind::Function => self.undefined(),
            Class::FunctionLabel => of_type(&[2]),
            Class::PlainLabel => of_type(&[1]),
            Class::DataLabel => of_type(&[1, 3]),
            Class::Scope => [vec![0], of_type(&[2])].concat(),
            Class::NewVariable => undeclared(&self.owners, 2, 256),
            Class::Variable => [vec![0], having(&self.owners, |_| true)].concat(),
            Class::DeclaredVariable => having(&self.owners, |_| true),
            Class::GlobalVariable => having(&self.owners, |owner| owner == 0),
            Class::VariableName => vec![0, 3, 31, 255, 255, 255],
            Class::NameClass if self.profiles > 0 => vec![],
            Class::NameClass => (0..8).collect(),
            Class::Key => (0..32).chain(128..144).collect(),
        };
        random.pick(&candidates)
    }

    /// The functions that have no record yet.
    fn undefined(&self) -> Vec<u8> {
        having(&self.types, |value| value == 2).into_iter().filter(|label| !self.defined.contains(label)).collect()
    }

    fn note(&mut self, kind: Kind, body: &[u8]) {
        match kind {
            Kind::Name => self.masks.push((body[0], body[1])),
            Kind::Label => self.types.push((body[0], body[1])),
            Kind::Function => self.defined.push(body[0]),
            Kind::Variable => self.owners.push((body[0], body[1])),
            Kind::Profile => self.profiles += 1,
            _ => {}
        }
    }
}

/// The file with a byte changed, taken out or put in, with its end cut off, or with a stretch of it twice.
pub fn damaged(random: &mut Random, file: &[u8]) -> Vec<u8> {
    let mut file = file.to_vec();
    if file.is_empty() {
        return vec![random.byte()];
    }
    let (place, other) = (random.below(file.len()), random.below(file.len()));
    match random.below(6) {
        0 => file[place] = random.byte(),
        1 => file[place] = random.edge(),
        2 => drop(file.remove(place)),
        3 => file.insert(place, random.edge()),
        4 => file.truncate(place),
        _ => file.extend_from_within(place.min(other)..place.max(other)),
    }
    file
}
