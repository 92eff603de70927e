//! The parts structured files are built from: fresh labels, variables and functions, secrets and what is exposed.

use super::writer::Writer;
use crate::edition::Edition;
use crate::keys::{CLASSES, CLASS_ZERO, NAMES};
use crate::prng::Prng;

/// A declared function with its own variables.
#[derive(Clone, Copy)]
pub struct Fun {
    pub l: u8,
    pub this: u8,
    pub formals: [u8; 6],
}

/// Declarations go to `head`; all other records to `body`, whose order `finish` chooses.
pub struct Kit {
    edition: Edition,
    pub r: Prng,
    head: Writer,
    body: Vec<Vec<u8>>,
    next_label: usize,
    next_variable: u8,
    next_name: u8,
    masked: u32,
    profile: Option<u8>,
    /// Top variables that hold forbidden objects.
    pub secrets: Vec<u8>,
    /// Top variables with objects that may be shown.
    pub open: Vec<u8>,
    /// In how many of a hundred cases a careless choice is made.
    pub careless: usize,
}

impl Kit {
    pub fn new(edition: Edition, mut r: Prng) -> Kit {
        let careless = r.pick(&[0, 0, 3, 10, 40]);
        let mut kit = Kit {
            edition,
            r,
            head: Writer::new(),
            body: Vec::new(),
            next_label: 5,
            next_variable: 2,
            next_name: 4,
            masked: 0,
            profile: None,
            secrets: Vec::new(),
            open: Vec::new(),
            careless,
        };
        let kind = kit.r.pick(&[1, 1, 2, 3]);
        let secret = kit.secret(kind);
        kit.secrets.push(secret);
        let l = kit.plain();
        let open = kit.top();
        kit.held(open, l);
        kit.open.push(open);
        kit
    }

    /// True while a gadget of at most 14 labels and 40 variables still fits.
    pub fn has_room(&self) -> bool {
        self.labels_left() > 14 && self.next_variable <= 255 - 40
    }

    /// How many labels are not yet declared.
    pub fn labels_left(&self) -> usize {
        self.edition.labels() - self.next_label
    }

    pub fn say(&mut self, write: impl FnOnce(&mut Writer) -> &mut Writer) {
        let mut w = Writer::new();
        write(&mut w);
        self.body.push(w.bytes);
    }

    pub fn label(&mut self, kind: u8, flag: u8) -> u8 {
        let l = self.next_label as u8;
        self.next_label += 1;
        self.head.label(l, kind, flag);
        l
    }

    pub fn plain(&mut self) -> u8 {
        self.label(1, 0)
    }

    pub fn variable(&mut self, owner: u8, name: u8) -> u8 {
        let v = self.next_variable;
        self.next_variable += 1;
        self.head.variable(v, owner, name);
        v
    }

    /// A fresh variable of scope `owner`, without a name.
    pub fn var(&mut self, owner: u8) -> u8 {
        self.variable(owner, 255)
    }

    pub fn top(&mut self) -> u8 {
        self.var(0)
    }

    /// A fresh name number from 4 to 31; after 31 again from 4.
    pub fn name(&mut self) -> u8 {
        let n = self.next_name;
        self.next_name = if n == 31 { 4 } else { n + 1 };
        n
    }

    /// A function label with variables of its own for this and for `formals` formals.
    pub fn fun(&mut self, formals: usize) -> Fun {
        let l = self.label(2, 0);
        let this = self.var(l);
        let mut list = [0; 6];
        for v in list.iter_mut().take(formals) {
            *v = self.var(l);
        }
        self.head.function(l, this, list);
        Fun { l, this, formals: list }
    }

    /// A top variable that is made to hold the function.
    pub fn hold_function(&mut self, f: Fun) -> u8 {
        let v = self.top();
        if self.r.chance(1, 2) {
            self.held(v, f.l);
        } else {
            let q = self.plain();
            self.say(|w| w.make_function(0, v, f.l, q));
        }
        v
    }

    /// The same without a label of its own for the prototype property.
    pub fn hold_function_plainly(&mut self, f: Fun) -> u8 {
        let v = self.top();
        self.held(v, f.l);
        v
    }

    /// Gives the name its class mask, unless it has one.
    pub fn name_mask(&mut self, n: u8, mask: u8) {
        if self.masked >> n & 1 == 0 {
            self.masked |= 1 << n;
            self.say(|w| w.name(n, mask));
        }
    }

    /// A fresh name and the class that lists it; by a slip it is not listed.
    pub fn listed_name(&mut self) -> (u8, u8) {
        let (n, class) = (self.name(), self.r.below(CLASSES as usize) as u8);
        let listed = if self.slips() { 0 } else { 1 << class };
        self.name_mask(n, CLASS_ZERO | listed);
        (n, class)
    }

    /// The class that the guest is held to: any but class 0, chosen at the first call.
    pub fn profile(&mut self) -> u8 {
        let class = self.r.between(1, CLASSES as usize - 1) as u8;
        *self.profile.get_or_insert(class)
    }

    /// Gives the name a mask without the class that the guest is held to, by a slip with it, unless it has one.
    pub fn keep_from_guest(&mut self, n: u8) {
        let class = self.profile();
        let listed = if self.slips() { 1 << class } else { 0 };
        self.name_mask(n, CLASS_ZERO | listed);
    }

    pub fn held(&mut self, v: u8, l: u8) {
        self.say(|w| w.held(v, l));
    }

    /// A top variable with a fresh forbidden object of the type; the forbid record may stand anywhere.
    pub fn secret(&mut self, kind: u8) -> u8 {
        let l = self.label(kind, 0);
        if kind == 2 {
            self.head.function(l, 0, [0; 6]);
        }
        if self.r.chance(1, 2) {
            self.head.forbid(l);
        } else {
            self.say(|w| w.forbid(l));
        }
        let v = self.top();
        if self.r.chance(1, 2) || kind == 2 {
            self.held(v, l);
        } else {
            self.say(|w| w.make(0, v, l));
        }
        v
    }

    /// Careless in `careless` of a hundred cases.
    pub fn slips(&mut self) -> bool {
        let careless = self.careless;
        self.r.chance(careless, 100)
    }

    /// One of the secrets.
    pub fn some_secret(&mut self) -> u8 {
        let secrets = &self.secrets;
        self.r.pick(secrets)
    }

    /// A variable that may be shown, or by a slip a secret one.
    pub fn some_open(&mut self) -> u8 {
        if self.slips() {
            return self.some_secret();
        }
        let open = &self.open;
        self.r.pick(open)
    }

    /// Grants the top variable, or only lets other gadgets show it.
    pub fn expose(&mut self, v: u8) {
        self.open.push(v);
        if self.r.chance(2, 3) {
            self.say(|w| w.grant(v));
        }
    }

    /// The file: declarations, then the body in the order written, backwards or shuffled, with a few more forbids, the profile and some more names
    /// of its class; at times a return at the top level ends it, as in modules from the new translator.
    pub fn finish(mut self) -> Vec<u8> {
        if self.r.chance(1, 8) {
            self.profile();
        }
        if let Some(class) = self.profile {
            self.say(|w| w.profile(class));
            let others: Vec<u8> = (0..NAMES).filter(|_| self.r.chance(1, 3)).collect();
            others.into_iter().for_each(|n| self.name_mask(n, CLASS_ZERO | 1 << class));
        }
        if self.slips() {
            let l = self.r.pick(&[0, 1, 2, 4, 5, 6]);
            self.say(|w| w.forbid(l));
        }
        match self.r.below(3) {
            0 => {}
            1 => self.body.reverse(),
            _ => self.r.shuffle(&mut self.body),
        }
        if self.r.chance(1, 2) {
            let any = self.r.between(2, self.next_variable as usize - 1) as u8;
            let exports = if self.r.chance(1, 2) { self.some_secret() } else { any };
            self.say(|w| w.give_back(0, exports));
        }
        let mut bytes = self.head.bytes;
        bytes.extend(self.body.concat());
        bytes
    }
}
