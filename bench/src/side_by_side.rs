//! Eight verdicts at the same time, each in a thread of its own with a table of its own, beside the same eight one after the
//! other in one thread.

use crate::archive::{self, measured};
use crate::compared::{least, ROUNDS};
use crate::files::lists::Call;
use crate::stack::used_by;
use crate::table::{limited, ratio, thousands};
use crate::{edition, hand};
use pezvoran::{Answer, Edition as _, Large, Small, THREAD_STACK_BYTES};
use second::Edition;
use std::sync::Barrier;
use std::time::{Duration, Instant};

/// A run takes at least this long where every core has work all the time: each call is repeated.
const RUN: Duration = Duration::from_millis(50);
/// After this long no further round is begun.
const TIME: Duration = Duration::from_secs(10);

/// The stack of a thread that makes verdicts of the edition.
pub const fn stack_bytes(edition: Edition) -> usize {
    let verdict = match edition {
        Edition::Small => Small::VERDICT_STACK_BYTES,
        Edition::Large => Large::VERDICT_STACK_BYTES,
    };
    verdict + THREAD_STACK_BYTES
}

/// How many threads the machine runs at once.
pub fn cores() -> usize {
    std::thread::available_parallelism().expect("the machine knows its cores").get()
}

/// What the verdicts left, in the order of the calls, and how long all of them took by the clock.
pub struct Run {
    pub time: Duration,
    pub left: Vec<(Answer, Vec<u64>)>,
}

/// All calls in one thread.
pub fn one_after_the_other(calls: &[Call], times: u32) -> Run {
    run(calls, calls.len(), times)
}

/// Each call in a thread of its own.
pub fn side_by_side(calls: &[Call], times: u32) -> Run {
    run(calls, 1, times)
}

/// Threads for as many calls each, with a table for every call.
fn run(calls: &[Call], each: usize, times: u32) -> Run {
    let unused = |(edition, _): &Call| (u64::MAX, vec![u64::MAX; edition.table_words()]);
    let mut left: Vec<(u64, Vec<u64>)> = calls.iter().map(unused).collect();
    let ready = Barrier::new(calls.len().div_ceil(each));
    let spans: Vec<[Instant; 2]> = std::thread::scope(|scope| {
        let mut threads = Vec::new();
        for (calls, left) in calls.chunks(each).zip(left.chunks_mut(each)) {
            let stack = calls.iter().map(|call| stack_bytes(call.0)).max().expect("a thread has a call");
            let thread = std::thread::Builder::new().stack_size(stack);
            threads.push(thread.spawn_scoped(scope, || work(calls, left, times, &ready)).expect("a thread starts"));
        }
        threads.into_iter().map(|thread| thread.join().expect("it ends")).collect()
    });
    let begun = spans.iter().map(|span| span[0]).min().expect("there is a thread");
    let done = spans.iter().map(|span| span[1]).max().expect("there is a thread");
    let left = left.into_iter().map(|(word, table)| (archive::answer(word), table)).collect();
    Run { time: (done - begun) / times, left }
}

/// What a thread does; from when, which is when all threads are ready, and until when. Each call is repeated before the next is
/// made, so that both ways a call finds its file and its table as near.
fn work(calls: &[Call], left: &mut [(u64, Vec<u64>)], times: u32, ready: &Barrier) -> [Instant; 2] {
    ready.wait();
    let begun = Instant::now();
    for ((edition, file), (answer, table)) in calls.iter().zip(left) {
        for _ in 0..times {
            *answer = archive::verdict(*edition, file, table);
        }
    }
    [begun, Instant::now()]
}

/// The times of a group of calls both ways, and the bytes that all take at the same time; none where a verdict was over the
/// limit.
pub struct Group {
    pub name: String,
    pub editions: String,
    pub one_after_the_other: Option<Duration>,
    pub side_by_side: Option<Duration>,
    pub bytes: Option<usize>,
}

/// Makes the calls both ways in turn, each on a file that its edition reads; panics where what they leave is not as it should
/// be.
pub fn measure(name: &str, calls: &[Call], limit: Duration) -> Group {
    let mut group = Group {
        name: name.to_string(),
        editions: editions(calls),
        one_after_the_other: None,
        side_by_side: None,
        bytes: None,
    };
    let finished: Vec<(Answer, Vec<u64>)> = calls.iter().map(|(edition, file)| hand::verdict(*edition, file)).collect();
    let alone = calls.iter().zip(&finished).map(|((edition, file), (_, table))| {
        let (_, verdict) = measured(*edition, file, table, limit);
        verdict.map(|verdict| verdict.time)
    });
    let Some(all) = alone.sum::<Option<Duration>>() else { return group };
    let at_once = cores().min(calls.len()) as u32;
    let times = (RUN * at_once).div_duration_f64(all).ceil() as u32;
    let start = Instant::now();
    for _ in 0..ROUNDS {
        let [one, other] = [one_after_the_other, side_by_side].map(|way| way(calls, times));
        assert!(other.left == one.left, "{name}: side by side and one after the other");
        assert!(one.left == finished, "{name}: archive and hand-written solver");
        group.one_after_the_other = least(group.one_after_the_other, Some(one.time));
        group.side_by_side = least(group.side_by_side, Some(other.time));
        if start.elapsed() > TIME {
            break;
        }
    }
    group.bytes = Some(calls.iter().map(bytes).sum());
    group
}

/// The names of the editions that are called.
pub fn editions(calls: &[Call]) -> String {
    let called = Edition::BOTH.into_iter().filter(|edition| calls.iter().any(|call| call.0 == *edition));
    called.map(edition::name).collect::<Vec<&str>>().join(" and ")
}

/// The bytes of a verdict's table and of the stack that it uses.
fn bytes((edition, file): &Call) -> usize {
    let mut lent = vec![0; edition.table_words()];
    let stack = used_by(|| {
        archive::verdict(*edition, file, &mut lent);
    });
    size_of_val(&lent[..]) + stack
}

impl Group {
    pub fn titles() -> Vec<String> {
        let titles = "files|edition|one after the other ms|side by side ms|side by side / one after the other|tables and stacks, bytes";
        titles.split('|').map(str::to_string).collect()
    }

    /// The line of the table, in the order of the titles.
    pub fn line(&self, limit: Duration) -> Vec<String> {
        let both = self.side_by_side.zip(self.one_after_the_other);
        vec![
            self.name.clone(),
            self.editions.clone(),
            limited(self.one_after_the_other, limit),
            limited(self.side_by_side, limit),
            both.map_or(String::new(), |(side_by_side, one_after_the_other)| ratio(side_by_side, one_after_the_other)),
            self.bytes.map_or(String::new(), |bytes| thousands(bytes as u64)),
        ]
    }
}
