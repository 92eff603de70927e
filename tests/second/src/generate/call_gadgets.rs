//! Pieces of structured files about calls: closures, arguments, throws, constructors, methods, call-backs, modules.

use super::kit::{Fun, Kit};
use crate::keys::{EVERY_NAME, KEY_OUTSIDE_CLASS, NO_NAME};

/// f(x) keeps x in its own variable and returns an inner function that may give it back or set it.
pub fn closure(kit: &mut Kit) {
    let f = kit.fun(1);
    let inner = kit.fun(1);
    let (kept, made) = (kit.var(f.l), kit.var(f.l));
    let (q, fv, y) = (kit.plain(), kit.hold_function(f), kit.top());
    kit.say(|w| w.copy(f.l, kept, f.formals[0]).make_function(f.l, made, inner.l, q).give_back(f.l, made));
    if kit.r.chance(1, 2) {
        kit.say(|w| w.give_back(inner.l, kept));
    }
    if kit.r.chance(1, 2) {
        kit.say(|w| w.copy(inner.l, kept, inner.formals[0]));
    }
    let x = if kit.r.chance(1, 3) { kit.some_secret() } else { kit.some_open() };
    kit.say(|w| w.call(0, y, fv, 0, [x, 0, 0, 0, 0, 0]));
    let shown = if kit.r.chance(1, 3) { fv } else { y };
    kit.expose(shown);
}

/// A function calls another on the secret and returns only what that one returns.
pub fn membrane(kit: &mut Kit) {
    let (outer, inner) = (kit.fun(1), kit.fun(2));
    let (iv, ov, secret, result) =
        (kit.hold_function(inner), kit.hold_function(outer), kit.some_secret(), kit.var(outer.l));
    kit.say(|w| w.call(outer.l, result, iv, secret, [outer.formals[0], secret, 0, 0, 0, 0]).give_back(outer.l, result));
    let n = kit.name();
    kit.say(|w| w.store(inner.l, inner.this, n, inner.formals[0]));
    let given = if kit.slips() { inner.formals[1] } else { inner.formals[0] };
    kit.say(|w| w.give_back(inner.l, given));
    kit.expose(ov);
}

/// Functions that call one another; the innermost throws, and one on the way or the top level catches.
pub fn throws(kit: &mut Kit) {
    let depth = kit.r.between(2, 6);
    let functions: Vec<Fun> = (0..depth).map(|_| kit.fun(0)).collect();
    let holders: Vec<u8> = functions.iter().map(|&f| kit.hold_function_plainly(f)).collect();
    for i in 0..depth - 1 {
        kit.say(|w| w.call(functions[i].l, 0, holders[i + 1], 0, [0; 6]));
    }
    let thrown = if kit.r.chance(1, 3) { kit.some_secret() } else { kit.some_open() };
    kit.say(|w| w.throw(functions[depth - 1].l, thrown));
    let catcher = functions[kit.r.below(depth)].l;
    let caught = kit.top();
    kit.say(|w| w.catch(catcher, caught));
    if kit.r.chance(1, 2) {
        kit.say(|w| w.call(0, 0, holders[0], 0, [0; 6]).catch(0, caught));
    }
    let first = if kit.slips() { depth - 1 } else { 0 };
    if kit.r.chance(1, 2) || kit.careless > 5 {
        kit.expose(holders[first]);
    }
}

/// A constructor that stores its arguments in this; the guest may call it with new or without.
pub fn constructor(kit: &mut Kit) {
    let f = kit.fun(2);
    let (fv, l, object, t) = (kit.hold_function(f), kit.plain(), kit.top(), kit.top());
    let (a, b) = (kit.name(), kit.name());
    kit.say(|w| w.store(f.l, f.this, a, f.formals[0]).store(f.l, f.this, b, f.formals[1]));
    if kit.r.chance(1, 3) {
        kit.say(|w| w.give_back(f.l, f.this));
    }
    let x = if kit.r.chance(1, 3) { kit.some_secret() } else { kit.some_open() };
    let y = kit.some_open();
    kit.say(|w| w.new_object(0, object, fv, t, l, [y, x, 0, 0, 0, 0]));
    let (part, wrap) = (kit.top(), kit.plain());
    kit.say(|w| w.load(0, part, object, a, wrap));
    let shown = kit.r.pick(&[fv, part, part]);
    kit.expose(shown);
}

/// The host turns an open object into a primitive, so that toString or valueOf is called on it.
pub fn prim(kit: &mut Kit) {
    let f = kit.fun(1);
    let fv = kit.hold_function(f);
    let (l, object, caught, out) = (kit.plain(), kit.top(), kit.top(), kit.top());
    let key = kit.r.pick(&[1, 2, EVERY_NAME, KEY_OUTSIDE_CLASS + 1, NO_NAME]);
    let other = if kit.r.chance(1, 4) { kit.some_secret() } else { kit.some_open() };
    kit.say(|w| w.make(0, object, l).store(0, object, key, fv).prim(0, object).copy(f.l, out, f.this));
    kit.say(|w| w.prim(0, other).throw(f.l, f.this).catch(0, caught));
    kit.expose(object);
}

/// A host function that calls its argument, a function of the guest, and catches what it throws.
pub fn callback(kit: &mut Kit) {
    let f = kit.fun(2);
    let (fv, y, caught) = (kit.hold_function(f), kit.var(f.l), kit.var(f.l));
    let this = kit.some_open();
    let arg = kit.some_open();
    kit.say(|w| w.call(f.l, y, f.formals[0], this, [arg, f.formals[1], 0, 0, 0, 0]).catch(f.l, caught));
    let kept = if kit.r.chance(1, 2) { y } else { caught };
    let n = kit.name();
    let secret = kit.some_secret();
    match kit.r.below(4) {
        0 => kit.say(|w| w.give_back(f.l, kept)),
        1 => kit.say(|w| w.store(f.l, secret, n, kept)),
        2 if kit.careless > 0 => kit.say(|w| w.store(f.l, kept, n, secret)),
        _ => kit.say(|w| w.throw(f.l, kept)),
    }
    kit.expose(fv);
}

/// A function that calls itself and makes inner functions that read the variables of some outer call.
pub fn recursion(kit: &mut Kit) {
    let f = kit.fun(2);
    let g = kit.fun(1);
    let (me, q, made, back) = (kit.hold_function(f), kit.plain(), kit.var(f.l), kit.var(f.l));
    kit.say(|w| w.make_function(f.l, made, g.l, q).call(f.l, back, me, made, [f.formals[1], made, 0, 0, 0, 0]));
    kit.say(|w| w.give_back(g.l, f.formals[0]).copy(g.l, f.formals[1], g.formals[0]).give_back(f.l, made));
    let x = if kit.r.chance(1, 3) { kit.some_secret() } else { kit.some_open() };
    let y = kit.top();
    kit.say(|w| w.call(0, y, me, 0, [x, 0, 0, 0, 0, 0]));
    let shown = if kit.slips() { y } else { me };
    if kit.r.chance(1, 2) {
        kit.expose(shown);
    }
}

/// A function of six formals that gives back one of them; the secret is another argument.
pub fn arguments(kit: &mut Kit) {
    let f = kit.fun(6);
    let (fv, y) = (kit.hold_function(f), kit.top());
    let mut args = [0; 6];
    for arg in args.iter_mut() {
        *arg = kit.some_open();
    }
    let hidden = kit.r.below(6);
    args[hidden] = kit.some_secret();
    let given = if kit.slips() { hidden } else { (hidden + kit.r.between(1, 5)) % 6 };
    let n = kit.name();
    kit.say(|w| w.call(0, y, fv, args[given], args).give_back(f.l, f.formals[given]));
    kit.say(|w| w.store(f.l, f.formals[given], n, f.this));
    let shown = kit.r.pick(&[fv, y, y]);
    kit.expose(shown);
}

/// A module returns what it exports at the top level, where nobody gets it, although the host calls the global object, with new too, and
/// turns it into a primitive. By a slip a function stands for the global object and for the top level, and its caller gets the exports.
pub fn module(kit: &mut Kit) {
    let (exports, called, made, l) = (kit.some_secret(), kit.top(), kit.top(), kit.plain());
    let (result, t) = (kit.top(), kit.top());
    let module = if kit.slips() { kit.fun(0).l } else { 0 };
    kit.say(|w| w.held(called, module).give_back(module, exports));
    kit.say(|w| w.call(0, result, called, exports, [exports; 6]).new_object(0, made, called, t, l, [exports; 6]));
    kit.say(|w| w.prim(0, called));
    let shown = kit.r.pick(&[result, made]);
    kit.expose(shown);
}
