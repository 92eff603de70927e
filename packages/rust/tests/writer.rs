//! The calls of the writer: what bytes they write. What it refuses is held to the operations in `format.rs`.

use pezvoran::format::{Key, Label, Name, Type, Var, Writer};
use pezvoran::Small;

#[test]
fn the_typed_calls_write_the_records() {
    let mut writer = Writer::<Small>::new();
    let (plain, function, top) = (Label(5), Label(6), Label::TOP);
    let (x, y, z) = (Var(2), Var(3), Var(4));
    let mut calls = vec![
        writer.name(Name(4), 3),
        writer.label(plain, Type::Plain, true),
        writer.label(function, Type::Function, false),
        writer.label(Label(7), Type::Array, false),
        writer.forbid(Label::GUEST),
        writer.variable(x, top, None),
        writer.variable(y, top, Some(Name::PROTOTYPE)),
        writer.variable(z, function, None),
        writer.function(function, z, &[x, y]),
        writer.grant(x),
        writer.property(Label::GLOBAL_OBJECT, Name::TO_STRING, plain),
        writer.held(x, Label::ARRAY_PROTOTYPE),
        writer.profile(7),
    ];
    calls.extend([
        writer.copy(top, x, y),
        writer.load(top, x, y, Name(4), plain),
        writer.load(function, x, y, Key::class(1), plain),
        writer.store(top, x, Key::outside(7), y),
        writer.make(top, x, Label(7)),
        writer.make_function(top, x, function, plain),
        writer.call(function, x, y, z, &[]),
        writer.call(function, Var::NONE, y, Var::NONE, &[x, y, z, x, y, z]),
        writer.new_object(top, x, y, z, plain, &[x]),
        writer.return_value(function, x),
        writer.throw(top, x),
        writer.catch(top, x),
        writer.prim(function, x),
    ]);
    let declarations: [&[u8]; 13] = [
        &[1, 4, 3],
        &[2, 5, 1, 1],
        &[2, 6, 2, 0],
        &[2, 7, 3, 0],
        &[3, 3],
        &[5, 2, 0, 255],
        &[5, 3, 0, 3],
        &[5, 4, 6, 255],
        &[4, 6, 4, 2, 3, 0, 0, 0, 0],
        &[6, 2],
        &[7, 0, 1, 5],
        &[8, 2, 4],
        &[9, 7],
    ];
    let statements: [&[u8]; 13] = [
        &[16, 0, 2, 3],
        &[17, 0, 2, 3, 4, 5],
        &[17, 6, 2, 3, 129, 5],
        &[18, 0, 2, 143, 3],
        &[19, 0, 2, 7],
        &[20, 0, 2, 6, 5],
        &[21, 6, 2, 3, 4, 0, 0, 0, 0, 0, 0],
        &[21, 6, 0, 3, 0, 2, 3, 4, 2, 3, 4],
        &[22, 0, 2, 3, 4, 5, 2, 0, 0, 0, 0, 0],
        &[23, 6, 2],
        &[24, 0, 2],
        &[25, 0, 2],
        &[26, 6, 2],
    ];
    let expected = [declarations, statements].concat();
    let positions = expected.iter().scan(0, |end, record| Some(std::mem::replace(end, *end + record.len())));
    assert!(calls.into_iter().map(|call| call.expect("a good record")).eq(positions));
    assert_eq!(writer.finish(), Ok(expected.concat()));
}

/// So that none is dropped in silence.
#[test]
fn more_than_six_are_refused() {
    let seven = [Var::NONE; 7];
    let (mut writer, before) = started();
    for refused in [
        writer.function(Label(6), Var::NONE, &seven),
        writer.call(Label::TOP, Var::NONE, Var::NONE, Var::NONE, &seven),
        writer.new_object(Label::TOP, Var::NONE, Var::NONE, Var(2), Label(5), &seven),
    ] {
        assert_eq!(refused.expect_err("seven variables").number, 2);
    }
    assert_eq!(writer.bytes(), before);
}

#[test]
fn keys_have_the_bytes_of_the_format() {
    assert_eq!([Key::name(Name(31)), Name(0).into(), Key::class(0), Key::class(7), Key::outside(0), Key::outside(7)].map(Key::byte), {
        [31, 0, 128, 135, 136, 143]
    });
    assert!((0..=u8::MAX).filter(|&byte| Key::of_byte(byte).is_some()).eq((0..32).chain(128..144)));
}

/// A writer with a variable of the top level, a plain label and a function, and a file that must stay as it is.
fn started() -> (Writer<Small>, Vec<u8>) {
    let mut writer = Writer::new();
    writer.label(Label(5), Type::Plain, false).expect("a good label");
    writer.label(Label(6), Type::Function, false).expect("a good label");
    writer.variable(Var(2), Label::TOP, None).expect("a good variable");
    let file = writer.bytes().to_vec();
    (writer, file)
}

/// Also where the number would be the byte of another key.
#[test]
fn what_is_no_key_is_refused_at_the_call() {
    let (mut writer, before) = started();
    let names = (32..=u8::MAX).map(|name| Key::name(Name(name)));
    let classes = (8..=u8::MAX).flat_map(|class| [Key::class(class), Key::outside(class)]);
    for key in names.chain(classes) {
        assert_eq!(Key::of_byte(key.byte()), None, "{key:?}");
        for refused in [writer.load(Label::TOP, Var(2), Var(2), key, Label(5)), writer.store(Label::TOP, Var(2), key, Var(2))] {
            let fault = refused.expect_err("no key");
            assert_eq!((fault.number, fault.field.map(|field| field.role)), (5, Some("key")));
        }
    }
    assert_eq!(writer.load(Label::TOP, Var(2), Var(2), Name(128), Label(5)).expect_err("no name").number, 5);
    assert_eq!(writer.bytes(), before);
}

/// Also 255, whose byte would say that the variable has no name.
#[test]
fn what_is_no_name_of_a_variable_is_refused_at_the_call() {
    let (mut writer, before) = started();
    for name in 32..=u8::MAX {
        for owner in [Label::TOP, Label(6)] {
            let fault = writer.variable(Var(3), owner, Some(Name(name))).expect_err("no name");
            assert_eq!((fault.number, fault.field.map(|field| field.role)), (5, Some("name")), "{name}");
        }
        assert_eq!(writer.name(Name(name), 1).expect_err("no name").number, 5);
        assert_eq!(writer.property(Label(5), Name(name), Label(5)).expect_err("no name").number, 5);
    }
    assert_eq!(writer.variable(Var(1), Label::TOP, Some(Name(255))).expect_err("a bad variable comes first").number, 3);
    assert_eq!(writer.variable(Var(3), Label(5), Some(Name(255))).expect_err("a bad owner comes first").number, 4);
    assert_eq!(writer.variable(Var(2), Label::TOP, Some(Name(255))).expect_err("a bad name comes before a repeat").number, 5);
    assert_eq!(writer.bytes(), before);
    writer.variable(Var(3), Label::TOP, Some(Name(31))).expect("a good name");
    assert_eq!(writer.bytes(), [&before[..], &[5, 3, 0, 31]].concat());
}
