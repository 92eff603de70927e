//! The archive's operations in both editions, timed in a process of their own so that a slow call can be given up.

use crate::edition;
use pezvoran::Answer;
use second::Edition;
use std::io::{Read, Write};
use std::process::{Command, Stdio};
use std::time::{Duration, Instant};

mod linked {
    extern "C" {
        pub fn verdict(file: *const u8, length: usize, table: *mut u64, words: usize) -> u64;
        pub fn check(file: *const u8, length: usize, table: *const u64, words: usize) -> u64;
        pub fn verdict_large(file: *const u8, length: usize, table: *mut u64, words: usize) -> u64;
        pub fn check_large(file: *const u8, length: usize, table: *const u64, words: usize) -> u64;
    }
}

/// The verdict of the edition; the word of its answer.
pub fn verdict(edition: Edition, file: &[u8], table: &mut [u64]) -> u64 {
    let operation = match edition {
        Edition::Small => linked::verdict,
        Edition::Large => linked::verdict_large,
    };
    // Any bytes and any table may be passed.
    unsafe { operation(file.as_ptr(), file.len(), table.as_mut_ptr(), table.len()) }
}

/// The check of the edition; the word of its answer.
pub fn check(edition: Edition, file: &[u8], table: &[u64]) -> u64 {
    let operation = match edition {
        Edition::Small => linked::check,
        Edition::Large => linked::check_large,
    };
    // As above; the table is only read.
    unsafe { operation(file.as_ptr(), file.len(), table.as_ptr(), table.len()) }
}

/// What such a word says.
pub fn answer(word: u64) -> Answer {
    Answer::of_word(word).expect("the archive answers by its contract")
}

/// What the archive made of a file.
pub struct Verdict {
    pub time: Duration,
    pub answer: Answer,
    pub table: Vec<u64>,
}

/// What the archive made of a finished table.
pub struct Check {
    pub time: Duration,
    pub answer: Answer,
}

/// Measures the archive on a file, and on its finished table, by the program `measure` beside this one; no verdict, or nothing
/// at all, where that takes longer than the limit.
pub fn measured(edition: Edition, file: &[u8], finished: &[u64], limit: Duration) -> (Option<Check>, Option<Verdict>) {
    let program = std::env::current_exe().expect("this program has a path").with_file_name("measure");
    let mut child = Command::new(program)
        .arg(edition::name(edition))
        .stdin(Stdio::piped())
        .stdout(Stdio::piped())
        .spawn()
        .expect("measure runs");
    let mut input: Vec<u8> = finished.iter().flat_map(|word| word.to_le_bytes()).collect();
    input.extend(file);
    child.stdin.take().expect("it is piped").write_all(&input).expect("measure reads");
    let mut output = child.stdout.take().expect("it is piped");
    let reading = std::thread::spawn(move || {
        let mut bytes = Vec::new();
        output.read_to_end(&mut bytes).expect("measure writes");
        words(&bytes)
    });
    let start = Instant::now();
    while !reading.is_finished() {
        if start.elapsed() > limit {
            child.kill().expect("it is a child of this program");
            break;
        }
        std::thread::sleep(Duration::from_millis(5));
    }
    child.wait().expect("it is a child of this program");
    let words = reading.join().expect("reading does not fail");
    let pair = |i: usize| (Duration::from_nanos(words[i]), answer(words[i + 1]));
    let check = (words.len() >= 2).then(|| pair(0)).map(|(time, answer)| Check { time, answer });
    let verdict = (words.len() == 4 + edition.table_words()).then(|| pair(2));
    (check, verdict.map(|(time, answer)| Verdict { time, answer, table: words[4..].to_vec() }))
}

/// The words that bytes in little-endian order stand for.
pub fn words(bytes: &[u8]) -> Vec<u64> {
    bytes.chunks_exact(8).map(|word| u64::from_le_bytes(word.try_into().expect("8 bytes"))).collect()
}

/// The shortest of many runs, as many as fit in the time but at least one. What counts is the time that this thread has the
/// processor, so that other programs disturb it less.
pub fn best(time: Duration, mut run: impl FnMut()) -> Duration {
    let start = Instant::now();
    let mut best = Duration::MAX;
    for _ in 0..200 {
        let begun = processor_time();
        run();
        best = best.min(processor_time() - begun);
        if start.elapsed() > time {
            break;
        }
    }
    best
}

/// The time for which this thread has had the processor.
fn processor_time() -> Duration {
    #[repr(C)]
    struct Time {
        seconds: i64,
        nanoseconds: i64,
    }
    extern "C" {
        fn clock_gettime(clock: i32, time: *mut Time) -> i32;
    }
    const THREAD: i32 = 3; // CLOCK_THREAD_CPUTIME_ID of Linux
    let mut time = Time { seconds: 0, nanoseconds: 0 };
    // The structure has the layout of Linux on 64-bit machines.
    assert_eq!(unsafe { clock_gettime(THREAD, &mut time) }, 0, "the clock can be read");
    Duration::new(time.seconds as u64, time.nanoseconds as u32)
}
