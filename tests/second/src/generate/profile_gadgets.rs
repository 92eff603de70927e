//! Pieces of structured files that trust in the profile: the guest holds the object, and its class lacks the name.

use super::kit::Kit;
use crate::keys::{CLASS_ZERO, PROTOTYPE};

/// An object of the guest's with the secret under a name that the guest may not load, and an open value under one that it may.
pub fn kept_field(kit: &mut Kit) {
    let (l, object) = (kit.plain(), kit.top());
    let (kept, shown, class) = (kit.name(), kit.name(), kit.profile());
    kit.keep_from_guest(kept);
    kit.name_mask(shown, CLASS_ZERO | 1 << class);
    let (secret, open) = (kit.some_secret(), kit.some_open());
    kit.say(|w| w.make(0, object, l).store(0, object, kept, secret).store(0, object, shown, open));
    kit.expose(object);
}

/// An object of the guest's whose listener, under a name that the guest may not store under, is called with the secret.
pub fn kept_listener(kit: &mut Kit) {
    let listen = kit.fun(1);
    let (listener, l, object, called, wrap) =
        (kit.hold_function(listen), kit.plain(), kit.top(), kit.top(), kit.plain());
    let (kept, secret) = (kit.name(), kit.some_secret());
    kit.keep_from_guest(kept);
    kit.say(|w| w.make(0, object, l).store(0, object, kept, listener));
    kit.say(|w| w.load(0, called, object, kept, wrap).call(0, 0, called, 0, [secret, 0, 0, 0, 0, 0]));
    kit.expose(object);
}

/// What the guest's function has as its prototype property is called with the secret: nothing, where the class lacks that name.
pub fn kept_prototype(kit: &mut Kit) {
    let (given, l, found, wrap) = (kit.top(), kit.plain(), kit.top(), kit.plain());
    let secret = kit.some_secret();
    kit.keep_from_guest(PROTOTYPE);
    kit.say(|w| w.make(0, given, l).load(0, found, given, PROTOTYPE, wrap));
    kit.say(|w| w.call(0, 0, found, 0, [secret, 0, 0, 0, 0, 0]));
    kit.expose(given);
}
