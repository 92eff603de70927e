//! The list of the pieces of structured files, each a few statements of sensible host code.

use super::kit::Kit;
use super::{call_gadgets as calls, object_gadgets as objects, profile_gadgets as profiles};
use crate::edition::Edition;

pub type Gadget = (&'static str, fn(&mut Kit));

/// The pieces; those with many labels come last.
const GADGETS: [Gadget; 23] = [
    ("closure", calls::closure),
    ("membrane", calls::membrane),
    ("prototypes", objects::prototypes),
    ("throws", calls::throws),
    ("constructor", calls::constructor),
    ("array", objects::array),
    ("classes", objects::classes),
    ("hidden_fields", objects::hidden_fields),
    ("hidden_listener", objects::hidden_listener),
    ("global", objects::global),
    ("builtin", objects::builtin),
    ("frozen", objects::frozen),
    ("prim", calls::prim),
    ("callback", calls::callback),
    ("primitive", objects::primitive),
    ("recursion", calls::recursion),
    ("arguments", calls::arguments),
    ("module", calls::module),
    ("kept_field", profiles::kept_field),
    ("kept_listener", profiles::kept_listener),
    ("kept_prototype", profiles::kept_prototype),
    ("sites", objects::sites),
    ("sites", objects::sites),
];
const MANY_LABELS: usize = 2;

/// The pieces of the edition: the small one has no room for the many labels of `sites`.
pub fn gadgets(edition: Edition) -> &'static [Gadget] {
    match edition {
        Edition::Small => &GADGETS[..GADGETS.len() - MANY_LABELS],
        Edition::Large => &GADGETS,
    }
}
