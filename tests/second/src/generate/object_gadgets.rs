//! Pieces of structured files about objects: prototypes, arrays, classes of names, the global object, built-ins.

use super::kit::Kit;
use crate::keys::{CLASS_ZERO, EVERY_NAME, KEY_OF_CLASS, KEY_OUTSIDE_CLASS, NO_NAME};

/// Functions whose prototype property is made by new of the one before; methods are found far up the chain.
pub fn prototypes(kit: &mut Kit) {
    let n = kit.name();
    let depth = kit.r.between(2, 3);
    let mut before: Option<u8> = None;
    for _ in 0..depth {
        let f = kit.fun(0);
        let (fv, q, l) = (kit.top(), kit.plain(), kit.plain());
        let (object, t) = (kit.top(), kit.top());
        kit.say(|w| w.make_function(0, fv, f.l, q));
        if let Some(parent) = before {
            kit.say(|w| w.store(0, fv, 3, parent));
        }
        kit.say(|w| w.new_object(0, object, fv, t, l, [0; 6]));
        before = Some(object);
        if kit.r.chance(1, 2) {
            let value = kit.some_open();
            kit.say(|w| w.store(0, object, n, value));
        }
    }
    let (found, w0, object) = (kit.top(), kit.plain(), before.unwrap_or(0));
    kit.say(|w| w.load(0, found, object, n, w0));
    kit.expose(if depth == 2 { object } else { found });
}

/// An array whose numbered entries are names of one class, filled by class; a name outside the class is read, or all of them.
pub fn array(kit: &mut Kit) {
    let l = kit.label(3, 0);
    let (list, entry, wrap) = (kit.top(), kit.top(), kit.plain());
    let class = kit.r.between(1, 7) as u8;
    let n = kit.name();
    kit.name_mask(n, CLASS_ZERO | 1 << class);
    let value = if kit.r.chance(1, 4) { kit.some_secret() } else { kit.some_open() };
    kit.say(|w| w.make(0, list, l).store(0, list, KEY_OF_CLASS + class, value));
    let other = kit.name();
    let key = if kit.slips() { n } else { kit.r.pick(&[other, KEY_OUTSIDE_CLASS + class]) };
    kit.say(|w| w.load(0, entry, list, key, wrap));
    kit.expose(entry);
}

/// Secrets under names of one class, open values under names of another; the second class is read, or all but the first.
pub fn classes(kit: &mut Kit) {
    let (a, b) = (kit.name(), kit.name());
    let (one, two) = (kit.r.between(1, 3) as u8, kit.r.between(4, 7) as u8);
    let both = if kit.slips() { 1 << one | 1 << two } else { 0 };
    kit.name_mask(a, CLASS_ZERO | 1 << one | both);
    kit.name_mask(b, CLASS_ZERO | 1 << two);
    let (l, object, out, wrap) = (kit.plain(), kit.top(), kit.top(), kit.plain());
    let (secret, open) = (kit.some_secret(), kit.some_open());
    kit.say(|w| w.make(0, object, l).store(0, object, a, secret).store(0, object, b, open));
    let key = kit.r.pick(&[KEY_OF_CLASS + two, KEY_OUTSIDE_CLASS + one]);
    kit.say(|w| w.load(0, out, object, key, wrap));
    kit.expose(out);
}

/// Hidden fields guarded by a list of names: the guest's lookups go under every name outside it. By a slip a hidden name is not on
/// the list, and the guest gets the secret.
pub fn hidden_fields(kit: &mut Kit) {
    let get = kit.fun(0);
    let (getter, found) = (kit.hold_function(get), kit.var(get.l));
    let (l, object, wrap) = (kit.plain(), kit.top(), kit.plain());
    let ((hidden, list), shown) = (kit.listed_name(), kit.name());
    let (secret, open) = (kit.some_secret(), kit.some_open());
    kit.say(|w| w.make(0, object, l).store(0, object, hidden, secret).store(0, object, shown, open));
    kit.say(|w| w.load(get.l, found, object, KEY_OUTSIDE_CLASS + list, wrap).give_back(get.l, found));
    kit.expose(getter);
}

/// A hidden field holds the listener that is called with the secret, and the guest stores under every name outside the list. By a slip
/// the hidden name is not on the list, and the guest's own function is called.
pub fn hidden_listener(kit: &mut Kit) {
    let (set, listen) = (kit.fun(1), kit.fun(1));
    let (setter, listener) = (kit.hold_function(set), kit.hold_function(listen));
    let (l, object, called, wrap) = (kit.plain(), kit.top(), kit.top(), kit.plain());
    let ((hidden, list), secret) = (kit.listed_name(), kit.some_secret());
    kit.say(|w| w.make(0, object, l).store(0, object, hidden, listener));
    kit.say(|w| w.load(0, called, object, hidden, wrap).call(0, 0, called, 0, [secret, 0, 0, 0, 0, 0]));
    kit.say(|w| w.store(set.l, object, KEY_OUTSIDE_CLASS + list, set.formals[0]));
    kit.expose(setter);
}

/// Named variables, which are properties of the global object; the host may read that object by load.
pub fn global(kit: &mut Kit) {
    let (a, b) = (kit.name(), kit.name());
    let (hidden, shown, out) = (kit.variable(0, a), kit.variable(0, b), kit.top());
    let (object, wrap) = (kit.top(), kit.plain());
    let (secret, open) = (kit.some_secret(), kit.some_open());
    kit.say(|w| w.copy(0, hidden, secret).copy(0, shown, open).held(object, 0));
    let key = if kit.slips() { EVERY_NAME } else { b };
    kit.say(|w| w.load(0, out, object, key, wrap));
    if kit.slips() {
        kit.expose(object);
    }
    let seen = kit.r.pick(&[shown, out]);
    kit.expose(seen);
}

/// Methods on the built-in prototypes, found through every chain, called by host and guest.
pub fn builtin(kit: &mut Kit) {
    let f = kit.fun(1);
    let n = kit.name();
    let holder = kit.r.pick(&[1, 2, 4]);
    kit.say(|w| w.property(holder, n, f.l));
    let given = kit.r.pick(&[f.this, f.formals[0]]);
    kit.say(|w| w.give_back(f.l, given));
    let (method, result, wrap) = (kit.top(), kit.top(), kit.plain());
    let object = if kit.r.chance(1, 3) { kit.some_secret() } else { kit.some_open() };
    kit.say(|w| w.load(0, method, object, n, wrap).call(0, result, method, object, [object, 0, 0, 0, 0, 0]));
    if kit.slips() {
        kit.expose(result);
    }
}

/// A built-in object that stores cannot change, next to one that they can.
pub fn frozen(kit: &mut Kit) {
    let n = kit.name();
    let flag = if kit.slips() { 0 } else { 1 };
    let (l, part) = (kit.label(1, flag), kit.label(1, 1));
    let (object, secret) = (kit.top(), kit.some_secret());
    kit.say(|w| w.held(object, l).property(l, n, part).store(0, object, n, secret));
    kit.expose(object);
}

/// A load on a primitive (variable 0, or one that is never written) that finds what hangs on the wrapper or label 1.
pub fn primitive(kit: &mut Kit) {
    let (wrap, part, n) = (kit.plain(), kit.plain(), kit.name());
    let (out, empty) = (kit.top(), kit.top());
    let holder = kit.r.pick(&[wrap, 1]);
    kit.say(|w| w.property(holder, n, part));
    let (object, key) = (kit.r.pick(&[0, empty]), kit.r.pick(&[n, n, NO_NAME]));
    kit.say(|w| w.load(0, out, object, key, wrap));
    kit.expose(out);
}

/// Ten to a hundred allocation sites: some objects that a function makes and gives back, some that hang on one another, and some
/// forbidden ones that stay with the host.
pub fn sites(kit: &mut Kit) {
    let f = kit.fun(1);
    let (fv, made, kept) = (kit.hold_function(f), kit.var(f.l), kit.top());
    let n = kit.name();
    let count = kit.r.between(10, 100).min(kit.labels_left());
    let mut before = None;
    for _ in 0..count {
        let (kind, flag) = (kit.r.pick(&[1, 1, 3]), kit.r.chance(1, 10) as u8);
        let l = kit.label(kind, flag);
        match (kit.r.below(3), before) {
            (1, _) => {
                kit.say(|w| w.held(kept, l).forbid(l));
                continue;
            }
            (0, Some(other)) => kit.say(|w| w.property(other, n, l)),
            _ => kit.say(|w| w.make(f.l, made, l).store(f.l, f.formals[0], n, made)),
        }
        before = Some(l);
    }
    let given = if kit.slips() { kept } else { made };
    kit.say(|w| w.store(f.l, kept, n, made).give_back(f.l, given));
    kit.expose(fv);
}
