//! Reads a statement file, or says by number and position why it is refused.

use crate::edition::Edition;
use crate::fields::{class, key, name, BAD_LABEL, BAD_NAME, BAD_VARIABLE, TWICE};
use crate::keys::CLASS_ZERO;
use crate::program::{Function, Label, Program, Record, Type, Variable, LONGEST_FILE};
use crate::row::Row;

#[derive(Clone, Copy, PartialEq, Eq, Debug)]
pub struct Refusal {
    pub number: u8,
    pub position: usize,
}

/// Reads a file of the small edition.
pub fn read(file: &[u8]) -> Result<Program, Refusal> {
    read_in(Edition::Small, file)
}

/// Reads a file for which a table of `table_words` words is lent: refusal 8, then those of `read_in`.
pub fn read_with_table(edition: Edition, file: &[u8], table_words: usize) -> Result<Program, Refusal> {
    if table_words < edition.table_words() {
        return Err(Refusal { number: 8, position: 0 });
    }
    read_in(edition, file)
}

/// Reads a file: refusal 9, then the records in order (1 to 6), then 7.
pub fn read_in(edition: Edition, file: &[u8]) -> Result<Program, Refusal> {
    if file.len() > LONGEST_FILE {
        return Err(Refusal { number: 9, position: 0 });
    }
    let mut program = Program::new(edition);
    let mut position = 0;
    while position < file.len() {
        let refuse = |number| Refusal { number, position };
        let kind = file[position];
        let length = body_length(kind).ok_or(refuse(1))?;
        let start = position + 1;
        let body = file.get(start..start + length).ok_or(refuse(2))?;
        take(&mut program, kind, body).map_err(refuse)?;
        position = start + length;
    }
    let unwritten = |l: u8| {
        let label = program.labels[l as usize];
        label.is_some_and(|x| x.kind == Type::Function) && program.functions[l as usize].is_none()
    };
    if edition.declarable().any(unwritten) {
        return Err(Refusal { number: 7, position: file.len() });
    }
    // A profile goes by the masks of the whole file.
    program.guest = program.guest_statements();
    Ok(program)
}

/// The number of bytes after the kind byte; none for an unknown kind.
pub fn body_length(kind: u8) -> Option<usize> {
    Some(match kind {
        1 => 2,
        2 => 3,
        3 => 1,
        4 => 8,
        5 => 3,
        6 => 1,
        7 => 3,
        8 => 2,
        9 => 1,
        16 => 3,
        17 => 5,
        18 => 4,
        19 => 3,
        20 => 4,
        21 => 10,
        22 => 11,
        23 => 2,
        24 => 2,
        25 => 2,
        26 => 2,
        _ => return None,
    })
}

/// Positions of the kind bytes, up to the first unknown kind.
pub fn record_starts(file: &[u8]) -> Vec<usize> {
    let mut starts = Vec::new();
    let mut at = 0;
    while let Some(length) = file.get(at).and_then(|&kind| body_length(kind)) {
        starts.push(at);
        at += 1 + length;
    }
    starts
}

/// Takes one record into the program; the bytes are tested from the left.
fn take(program: &mut Program, kind: u8, b: &[u8]) -> Result<(), u8> {
    let record = match kind {
        1 => return take_name(program, b[0], b[1]),
        2 => return take_label(program, b[0], b[1], b[2]),
        3 => {
            program.forbidden |= Row::of(program.label(b[0])?);
            return Ok(());
        }
        4 => return take_function(program, b),
        5 => return take_variable(program, b[0], b[1], b[2]),
        6 => Record::Grant { v: program.top_variable(b[0])? },
        7 => Record::Property { l: program.host_label(b[0])?, n: name(b[1])?, x: program.host_label(b[2])? },
        8 => Record::Held { v: program.top_variable(b[0])?, l: program.host_label(b[1])? },
        9 => return take_profile(program, b[0]),
        _ => statement(program, kind, b)?,
    };
    program.records.push(record);
    Ok(())
}

/// Reads a statement (kinds 16 to 26).
fn statement(program: &Program, kind: u8, b: &[u8]) -> Result<Record, u8> {
    let k = program.scope(b[0])?;
    let var = |i: usize| program.variable(b[i]);
    let made = |i: usize, kinds: &[Type]| program.made_label(b[i], kinds);
    let six = |from: usize| -> Result<[u8; 6], u8> {
        let mut vars = [0; 6];
        for i in 0..6 {
            vars[i] = var(from + i)?;
        }
        Ok(vars)
    };
    // The fields of a struct expression are evaluated in the order written, which is that of the bytes.
    Ok(match kind {
        16 => Record::Copy { k, y: var(1)?, source: var(2)? },
        17 => Record::Load { k, y: var(1)?, object: var(2)?, key: key(b[3])?, w: made(4, &[Type::Plain])? },
        18 => Record::Store { k, object: var(1)?, key: key(b[2])?, value: var(3)? },
        19 => Record::Make { k, y: var(1)?, l: made(2, &[Type::Plain, Type::Array])? },
        20 => Record::MakeFunction { k, y: var(1)?, l: made(2, &[Type::Function])?, q: made(3, &[Type::Plain])? },
        21 => Record::Call { k, y: var(1)?, callee: var(2)?, this: var(3)?, args: six(4)? },
        22 => Record::New {
            k,
            y: var(1)?,
            callee: var(2)?,
            t: if b[3] == 0 { return Err(BAD_VARIABLE) } else { var(3)? },
            l: made(4, &[Type::Plain])?,
            args: six(5)?,
        },
        23 => Record::Return { k, value: var(1)? },
        24 => Record::Throw { k, value: var(1)? },
        25 => Record::Catch { k, y: var(1)? },
        _ => Record::Prim { k, object: var(1)? },
    })
}

fn take_name(program: &mut Program, n: u8, mask: u8) -> Result<(), u8> {
    let n = name(n)? as usize;
    if mask & CLASS_ZERO == 0 {
        return Err(BAD_NAME);
    }
    if program.masks[n].is_some() {
        return Err(TWICE);
    }
    program.masks[n] = Some(mask);
    Ok(())
}

fn take_label(program: &mut Program, l: u8, kind: u8, flag: u8) -> Result<(), u8> {
    if !program.edition.declarable().contains(&l) {
        return Err(BAD_LABEL);
    }
    let kind = match kind {
        1 => Type::Plain,
        2 => Type::Function,
        3 => Type::Array,
        _ => return Err(BAD_NAME),
    };
    if flag > 1 {
        return Err(BAD_NAME);
    }
    if program.labels[l as usize].is_some() {
        return Err(TWICE);
    }
    program.labels[l as usize] = Some(Label { kind, built_in: flag == 1 });
    Ok(())
}

fn take_function(program: &mut Program, b: &[u8]) -> Result<(), u8> {
    let l = program.made_label(b[0], &[Type::Function])? as usize;
    let this = program.variable(b[1])?;
    let mut formals = [0; 6];
    for i in 0..6 {
        formals[i] = program.variable(b[2 + i])?;
    }
    if program.functions[l].is_some() {
        return Err(TWICE);
    }
    program.functions[l] = Some(Function { this, formals });
    Ok(())
}

fn take_variable(program: &mut Program, v: u8, owner: u8, n: u8) -> Result<(), u8> {
    if v < 2 {
        return Err(BAD_VARIABLE);
    }
    let owner = program.scope(owner)?;
    let name = match n {
        255 => None,
        _ if owner != 0 => return Err(BAD_NAME),
        _ => Some(name(n)?),
    };
    if program.variables[v as usize].is_some() {
        return Err(TWICE);
    }
    program.variables[v as usize] = Some(Variable { owner, name });
    Ok(())
}

fn take_profile(program: &mut Program, c: u8) -> Result<(), u8> {
    let c = class(c)?;
    if program.profile.is_some() {
        return Err(TWICE);
    }
    program.profile = Some(c);
    Ok(())
}
