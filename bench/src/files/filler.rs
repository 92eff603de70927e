//! What fills the rest of a course's file: records that are expensive to visit and move no runner.

use super::course::{Course, DEEP, DENSE, FRESH, FUNCTIONS, OPEN, PASSED, SINK};
use second::generate::writer::Writer;
use second::keys::EVERY_NAME;

#[derive(Clone, Copy, PartialEq, Eq, Debug)]
pub enum Filler {
    Copies,
    Loads,
    Stores,
    Calls,
    News,
    /// Returns, and calls that hand back what they return, about as many bytes of each.
    Returns,
    Throws,
    Prims,
    /// All of these in random order.
    Mixed,
    /// Returns at the top level, which nobody gets.
    TopReturns,
}

pub const FILLERS: [Filler; 8] = [
    Filler::Copies,
    Filler::Loads,
    Filler::Stores,
    Filler::Calls,
    Filler::News,
    Filler::Returns,
    Filler::Throws,
    Filler::Prims,
];

/// Records of the filler, of at most `room` bytes in all. Watching ones read rows that the runners pass;
/// the others read only rows that no runner enters.
pub fn records(course: &mut Course, filler: Filler, watching: bool, room: usize) -> Vec<Vec<u8>> {
    let mut all = Vec::new();
    let mut left = room;
    loop {
        let bytes = record(course, filler, watching);
        if bytes.len() > left {
            return all;
        }
        left -= bytes.len();
        all.push(bytes);
    }
}

fn record(course: &mut Course, filler: Filler, watching: bool) -> Vec<u8> {
    let mut w = Writer::new();
    let mut some = || if watching { course.r.pick(&course.passed) } else { course.r.pick(&[OPEN, FUNCTIONS]) };
    let (a, six) = (some(), [some(), some(), some(), some(), some(), some()]);
    let object = if watching { course.r.pick(&[SINK, SINK, DENSE, a]) } else { OPEN };
    match filler {
        Filler::Copies => w.copy(0, SINK, a),
        Filler::Loads => w.load(0, SINK, object, EVERY_NAME, FRESH),
        Filler::Stores => w.store(0, OPEN, PASSED, a),
        Filler::Calls => w.call(0, SINK, FUNCTIONS, a, six),
        Filler::News => w.new_object(0, SINK, FUNCTIONS, SINK, DEEP, six),
        Filler::Returns if course.r.chance(1, 5) => w.call(0, SINK, FUNCTIONS, a, six),
        Filler::Returns => w.give_back(uncalled(course), a),
        Filler::TopReturns => w.give_back(0, a),
        Filler::Throws => w.throw(0, a),
        Filler::Prims => w.prim(0, object),
        Filler::Mixed => {
            let one = course.r.pick(&FILLERS);
            return record(course, one, watching);
        }
    };
    w.bytes
}

/// A function that no link calls.
fn uncalled(course: &mut Course) -> u8 {
    let free = |l: &u8| !course.plain.contains(l) && !course.called.iter().any(|called| called.0 == *l);
    let all: Vec<u8> = course.labels().filter(free).collect();
    course.r.pick(&all)
}
