//! The grounder gringo of the clingo system, on the rules as a logic program: grounding derives every fact.

use second::program::{Program, Record, Type};
use second::rows::{h, p, s, t, ROWS};
use std::fmt::Write;
use std::process::Command;
use std::time::{Duration, Instant};

const RULES: &str = concat!(env!("CARGO_MANIFEST_DIR"), "/rules.lp");

/// The table and the time that gringo took, its reading of rules and facts included; none where the limit was reached.
pub fn grounded(program: &Program, limit: Duration) -> Option<(Vec<u64>, Duration)> {
    let folder = std::env::temp_dir().join(format!("pezvoran-bench-{}", std::process::id()));
    std::fs::create_dir_all(&folder).expect("a folder for the facts can be made");
    let (given, found) = (folder.join("facts.lp"), folder.join("found"));
    std::fs::write(&given, facts(program)).expect("the facts can be written");
    let start = Instant::now();
    let status = Command::new("timeout")
        .arg(limit.as_secs().to_string())
        .args(["gringo", "--warn=none", "--output=intermediate", RULES])
        .arg(&given)
        .stdout(std::fs::File::create(&found).expect("a file for what is found can be made"))
        .status();
    let time = start.elapsed();
    let ended = status.expect("gringo is installed").success();
    let output = std::fs::read_to_string(&found).expect("what is found can be read");
    std::fs::remove_dir_all(&folder).expect("the folder can be removed");
    ended.then(|| (table(&output), time))
}

/// The table of the lines `4 LENGTH ATOM 0` that gringo writes for the facts shown.
fn table(output: &str) -> Vec<u64> {
    let mut table = vec![0; ROWS];
    let atoms = output.lines().filter_map(|line| line.strip_prefix("4 ")?.split(' ').nth(1));
    for atom in atoms {
        let inner = atom[2..].trim_end_matches(')');
        let numbers: Vec<u8> = inner.split(',').map(|number| number.parse().expect("a number")).collect();
        let row = match &atom[..1] {
            "s" => s(numbers[0]),
            "h" => h(numbers[0], numbers[1]),
            "p" => p(numbers[0]),
            _ => t(numbers[0]),
        };
        table[row] |= 1 << numbers[numbers.len() - 1];
    }
    table
}

/// What the file says, as facts for the rules.
fn facts(program: &Program) -> String {
    let mut out = String::new();
    let mut say = |fact: String| writeln!(out, "{fact}.").expect("a string can be written to");
    for (l, label) in program.declared() {
        let kind = match label.kind {
            Type::Plain => 1,
            Type::Function => 2,
            Type::Array => 3,
        };
        say(format!("label({l},{kind})"));
        if label.built_in {
            say(format!("builtin({l})"));
        }
        if let Some(f) = program.function(l) {
            for (j, v) in [f.this].into_iter().chain(f.formals).enumerate().filter(|&(_, v)| v != 0) {
                say(format!("formal({l},{j},{v})"));
            }
        }
    }
    program.named().for_each(|(v, n)| say(format!("named({v},{n})")));
    for key in 0..=255 {
        program.names(key).for_each(|n| say(format!("key({key},{n})")));
    }
    for (i, record) in program.all_records().enumerate() {
        said(i, record, &mut say);
    }
    out
}

fn said(i: usize, record: Record, say: &mut impl FnMut(String)) {
    match record {
        Record::Grant { v } => say(format!("grant({v})")),
        Record::Property { l, n, x } => say(format!("property({l},{n},{x})")),
        Record::Held { v, l } => say(format!("held({v},{l})")),
        Record::Copy { y, source, .. } => say(format!("copy({y},{source})")),
        Record::Load { y, object, key, w, .. } => say(format!("load({y},{object},{key},{w})")),
        Record::Store { object, key, value, .. } => say(format!("store({object},{key},{value})")),
        Record::Make { y, l, .. } => made(y, l, say),
        Record::MakeFunction { y, l, q, .. } => {
            made(y, l, say);
            say(format!("property({l},3,{q})"));
        }
        Record::Call { k, y, callee, this, args } => call(i, [k, y, callee, this], args, say),
        Record::New { k, y, callee, t, l, args } => {
            made(t, l, say);
            say(format!("copy({y},{t})"));
            say(format!("new({callee},{l})"));
            call(i, [k, y, callee, t], args, say);
        }
        Record::Return { k, value } => say(format!("return({k},{value})")),
        Record::Throw { k, value } => say(format!("throw({k},{value})")),
        Record::Catch { k, y } => say(format!("catch({k},{y})")),
        Record::Prim { k, object } => say(format!("prim({k},{object})")),
    }
}

/// Variable y holds l; variable 0 never does.
fn made(y: u8, l: u8, say: &mut impl FnMut(String)) {
    if y != 0 {
        say(format!("held({y},{l})"));
    }
}

fn call(i: usize, [k, y, callee, this]: [u8; 4], args: [u8; 6], say: &mut impl FnMut(String)) {
    say(format!("call({i},{k},{y},{callee})"));
    for (j, v) in [this].into_iter().chain(args).enumerate().filter(|&(_, v)| v != 0) {
        say(format!("argument({i},{j},{v})"));
    }
}
