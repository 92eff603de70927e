//! The eight listed files of document 01, its edges as request 01 leaves them, its traps, and what requests 01, 02 and 04 say, against reader, solver
//! and check, in both editions.

use second::check::check_in;
use second::generate::top_returns::with_top_returns;
use second::generate::writer::Writer;
use second::reader::{read_in, read_with_table, Refusal};
use second::report::{report, report_in};
use second::row::Row;
use second::solver::{solve, verdict_in, Answer, Verdict};
use second::Edition;

fn answer(edition: Edition, bytes: &[u8]) -> Answer {
    solve(&read_in(edition, bytes).expect("readable"))
}

/// The rows of the table of a file.
fn rows(edition: Edition, w: &Writer) -> Vec<Row> {
    let table = answer(edition, &w.bytes).table;
    (0..edition.rows()).map(|row| edition.row(&table, row)).collect()
}

fn row(labels: &[u8]) -> Row {
    labels.iter().copied().collect()
}

/// Each file has the verdict and the number of facts, in both editions.
fn have_verdicts(list: &[(Writer, Verdict, u32)]) {
    for edition in Edition::BOTH {
        for (w, verdict, facts) in list {
            let answer = answer(edition, &w.bytes);
            assert_eq!((answer.verdict, answer.facts), (*verdict, *facts), "{edition:?} {:?}", w.bytes);
        }
    }
}

fn refusal(edition: Edition, bytes: &[u8]) -> (u8, usize) {
    let Refusal { number, position } = read_in(edition, bytes).expect_err("refused");
    (number, position)
}

fn file_three(name: u8, flag: u8) -> Writer {
    let mut w = Writer::new();
    w.label(5, 1, flag).forbid(5).variable(2, 0, name).held(2, 5);
    w
}

fn file_seven() -> Writer {
    let mut w = file_three(255, 0);
    w.label(6, 2, 0).variable(3, 0, 255).function(6, 0, [0; 6]).held(3, 6).grant(3);
    w
}

#[test]
fn listed_files() {
    let mut forbid = Writer::new();
    forbid.forbid(3);
    let (mut five, mut six, mut eight) = (file_three(255, 0), file_three(255, 1), file_seven());
    five.grant(2);
    six.grant(2);
    eight.give_back(6, 2);
    let list = [
        (vec![], Verdict::Confined, 45),
        (forbid.bytes, Verdict::Leaks(3), 45),
        (file_three(255, 0).bytes, Verdict::Confined, 48),
        (file_three(4, 0).bytes, Verdict::Confined, 49),
        (five.bytes, Verdict::Leaks(5), 148),
        (six.bytes, Verdict::Leaks(5), 84),
        (file_seven().bytes, Verdict::Confined, 152),
        (eight.bytes, Verdict::Leaks(5), 316),
    ];
    for edition in Edition::BOTH {
        for (i, (bytes, verdict, facts)) in list.iter().enumerate() {
            let answer = answer(edition, bytes);
            assert_eq!((answer.verdict, answer.facts), (*verdict, *facts), "file {}", i + 1);
            let expected = match *verdict {
                Verdict::Confined => Ok(()),
                Verdict::Leaks(l) => Err(Refusal { number: 11, position: l as usize }),
            };
            assert_eq!(check_in(edition, bytes, &answer.table), expected, "file {}", i + 1);
        }
        assert_eq!(report_in(edition, &[]), "confined 45\nguest 3\n");
        assert_eq!(report_in(edition, &list[4].0), "leaks 5 148\nguest 3 5\n");
        assert_eq!(report_in(edition, &[3, 3, 0]), "refused 1 2\n");
    }
    assert_eq!(report(&list[4].0), "leaks 5 148\nguest 3 5\n");
}

/// File 5 with label 255 for 5.
#[test]
fn the_last_label_of_the_large_edition() {
    let mut w = Writer::new();
    w.label(255, 1, 0).forbid(255).variable(2, 0, 255).held(2, 255).grant(2);
    assert_eq!(report_in(Edition::Large, &w.bytes), "leaks 255 148\nguest 3 255\n");
    assert_eq!(report_in(Edition::Small, &w.bytes), "refused 4 0\n");
    let table = answer(Edition::Large, &w.bytes).table;
    assert_eq!(check_in(Edition::Large, &w.bytes, &table), Err(Refusal { number: 11, position: 255 }));
    assert_eq!(table[4..8], [8, 0, 0, 1 << 63]);
}

#[test]
fn edges_of_size() {
    for (edition, words) in [(Edition::Small, 2_432), (Edition::Large, 35_840)] {
        let longest = [3, 3].repeat(16_384);
        assert_eq!(answer(edition, &longest).verdict, Verdict::Leaks(3));
        assert_eq!(refusal(edition, &vec![0; 32_769]), (9, 0));
        let refused = |file: &[u8], words| read_with_table(edition, file, words).expect_err("refused");
        assert_eq!(refused(&vec![0; 32_769], words - 1), Refusal { number: 8, position: 0 });
        assert_eq!(refused(&[], words - 1), Refusal { number: 8, position: 0 });
        assert_eq!(refused(&[0], 0), Refusal { number: 8, position: 0 });
        assert_eq!(refused(&[0], words), Refusal { number: 1, position: 0 });
        assert!(read_with_table(edition, &[], words).is_ok());
    }
}

/// A label of four bytes and a load with the key.
fn with_key(key: u8) -> Vec<u8> {
    let mut w = Writer::new();
    w.label(5, 1, 0).load(0, 0, 0, key, 5);
    w.bytes
}

#[test]
fn edges_of_keys_and_labels() {
    for edition in Edition::BOTH {
        for key in [0, 31, 128, 135, 136, 143] {
            assert_eq!(read_in(edition, &with_key(key)).err(), None);
        }
        for key in [32, 127, 144, 255] {
            assert_eq!(refusal(edition, &with_key(key)), (5, 4));
        }
        let large = edition == Edition::Large;
        for (l, good) in [(4, false), (5, true), (63, true), (64, large), (200, large), (255, large)] {
            let mut w = Writer::new();
            w.label(l, 1, 0);
            let expected = if good { None } else { Some(Refusal { number: 4, position: 0 }) };
            assert_eq!(read_in(edition, &w.bytes).err(), expected);
        }
    }
}

#[test]
fn a_refusal_leaves_the_table_and_a_verdict_leaves_the_rest() {
    for edition in Edition::BOTH {
        let words = edition.table_words();
        let mut table = vec![7u64; words + 3];
        assert!(verdict_in(edition, &[0], &mut table).is_err());
        assert!(table.iter().all(|&word| word == 7));
        let answer = verdict_in(edition, &[], &mut table).expect("empty file");
        assert_eq!(table[..words], answer.table[..]);
        assert_eq!(table[words..], [7, 7, 7]);
        let mut short = vec![7u64; words - 1];
        assert_eq!(verdict_in(edition, &[], &mut short).map(|_| ()), Err(Refusal { number: 8, position: 0 }));
        assert!(short.iter().all(|&word| word == 7));
    }
}

/// The trap of figure 6: a call without arguments still returns and throws.
#[test]
fn a_call_without_arguments_returns_and_throws() {
    let mut w = file_three(255, 0);
    w.label(6, 2, 0).function(6, 0, [0; 6]).variable(3, 0, 255).variable(4, 0, 255).held(3, 6);
    w.give_back(6, 2).throw(6, 2).call(0, 4, 3, 0, [0; 6]);
    for e in Edition::BOTH {
        let rows = rows(e, &w);
        assert_eq!((rows[e.s(4)], rows[e.t(0)], rows[e.t(6)]), (row(&[5]), row(&[5]), row(&[5])));
    }
}

/// w counts at a load from variable 0 and from a variable that holds nothing, and enters the latter.
#[test]
fn the_wrapper_counts_at_every_load() {
    let mut w = Writer::new();
    w.label(5, 1, 0).label(6, 1, 0).variable(2, 0, 255).variable(3, 0, 255).variable(4, 0, 255);
    w.property(5, 7, 6).property(1, 8, 4).load(0, 3, 0, 7, 5).load(0, 4, 2, 8, 5);
    for e in Edition::BOTH {
        let rows = rows(e, &w);
        assert_eq!(
            (rows[e.s(0)], rows[e.s(2)], rows[e.s(3)], rows[e.s(4)]),
            (row(&[]), row(&[5]), row(&[6]), row(&[4]))
        );
    }
}

/// Prim hands the labels of the object, and not a variable, to the method's this; both names are called.
#[test]
fn prim_calls_both_methods() {
    for (e, n) in Edition::BOTH.into_iter().flat_map(|e| [(e, 1), (e, 2), (e, 3)]) {
        let mut w = Writer::new();
        w.label(5, 1, 0).label(6, 2, 0).variable(2, 0, 255).variable(3, 6, 255).function(6, 3, [0; 6]);
        w.property(5, n, 6).held(2, 5).prim(0, 2).throw(6, 3);
        let rows = rows(e, &w);
        let expected = if n == 3 { row(&[]) } else { row(&[5]) };
        assert_eq!((rows[e.s(3)], rows[e.t(0)]), (expected, expected));
    }
}

/// New: the prototype comes from every m on the callee's chains, and the own object is on its chain.
#[test]
fn new_sets_prototypes() {
    for e in Edition::BOTH {
        let mut w = Writer::new();
        w.label(5, 1, 0).label(6, 2, 0).label(7, 1, 0).label(8, 1, 0).function(6, 0, [0; 6]);
        w.variable(2, 0, 255).variable(3, 0, 255).variable(4, 0, 255);
        w.make_function(0, 2, 6, 7).property(2, 3, 8).new_object(0, 3, 2, 4, 5, [0; 6]);
        let table = rows(e, &w);
        assert_eq!(table[e.p(5)], row(&[1, 5, 7, 8]));
        assert_eq!((table[e.s(3)], table[e.s(4)], table[e.h(6, 3)]), (row(&[5]), row(&[5]), row(&[7])));
        // A callee that is no function still gives its property 3 to the chain, but is not called.
        let mut w = Writer::new();
        w.label(5, 1, 0).label(7, 1, 0).variable(2, 0, 255).variable(4, 0, 255).held(2, 7);
        w.property(7, 3, 4).new_object(0, 0, 2, 4, 5, [2; 6]);
        assert_eq!(rows(e, &w)[e.p(5)], row(&[1, 4, 5]));
    }
}

/// A mask holds for earlier keys too; stores leave built-in objects alone; names are pairs of the global object.
#[test]
fn masks_built_ins_and_named_variables() {
    let mut w = Writer::new();
    w.label(5, 1, 0).label(6, 1, 1).label(7, 1, 0).variable(2, 0, 255).variable(3, 0, 9).variable(4, 0, 9);
    w.held(2, 5).held(2, 6).held(3, 7).store(0, 2, 133, 3).name(11, 33).name(12, 1);
    for e in Edition::BOTH {
        let rows = rows(e, &w);
        assert_eq!((rows[e.h(5, 11)], rows[e.h(5, 12)], rows[e.h(6, 11)]), (row(&[7]), row(&[]), row(&[])));
        assert_eq!((rows[e.s(3)], rows[e.s(4)], rows[e.h(0, 9)]), (row(&[7]), row(&[7]), row(&[7])));
    }
}

/// Request 01: name 4 is in class 1 and holds 6; what the guest gets by a load with the key.
#[test]
fn keys_for_everything_but_a_class() {
    let mut head = Writer::new();
    head.name(4, 3).label(5, 1, 0).label(6, 1, 0).variable(2, 0, 255).variable(3, 0, 255);
    head.held(2, 5).property(5, 4, 6).grant(3);
    let (found, missed) = ("confined 152\nguest 3 6\n", "confined 52\nguest 3\n");
    let list = [
        (129, found),
        (4, found),
        (135, missed),
        (136, missed),
        (137, missed),
        (138, found),
        (143, found),
        (144, "refused 5 28\n"),
    ];
    for (edition, (key, lines)) in Edition::BOTH.into_iter().flat_map(|e| list.map(|case| (e, case))) {
        let mut w = head.clone();
        w.load(0, 3, 2, key, 5);
        assert_eq!(report_in(edition, &w.bytes), lines, "{edition:?} key {key}");
    }
}

/// The other files of `crates/listed/specs/OutsideFiles.antt`, whose verdicts are theorems there.
#[test]
fn a_list_of_hidden_names() {
    let library = |mask| {
        let mut w = Writer::new();
        w.label(5, 1, 0).forbid(5).label(6, 1, 0).variable(2, 0, 255).variable(3, 0, 255).held(2, 6).property(6, 4, 5);
        w.load(0, 3, 2, 137, 6).grant(3).name(4, mask);
        w
    };
    let stored = |key, mask| {
        let mut w = Writer::new();
        w.name(4, mask).label(5, 1, 0).forbid(5).label(6, 1, 0).label(7, 1, 0);
        w.variable(2, 0, 255).variable(3, 0, 255).variable(4, 0, 255).held(2, 5).held(3, 6);
        w.store(0, 3, key, 2).load(0, 4, 3, 4, 7).grant(4);
        w
    };
    let mut wrapped = Writer::new();
    wrapped.label(5, 1, 0).forbid(5).variable(2, 0, 255).load(0, 0, 2, 136, 5).grant(2);
    let list = [
        (library(3), Verdict::Confined, 52),
        (library(5), Verdict::Leaks(5), 152),
        (wrapped, Verdict::Leaks(5), 148),
        (stored(137, 3), Verdict::Confined, 117),
        (stored(137, 5), Verdict::Leaks(5), 219),
        (stored(136, 5), Verdict::Confined, 55),
    ];
    have_verdicts(&list);
}

/// The names of a class and those outside it, by masks before and after; a name without a record is in class 0 alone.
#[test]
fn names_of_keys() {
    let mut w = Writer::new();
    w.name(4, 3).label(5, 1, 0).load(0, 0, 0, 137, 5).name(9, 131).name(31, 255);
    let but = |left_out: &[u8]| -> Vec<u8> { (0..=31).filter(|n| !left_out.contains(n)).collect() };
    let list = [
        (0, vec![0]),
        (31, vec![31]),
        (128, but(&[])),
        (129, vec![4, 9, 31]),
        (130, vec![31]),
        (135, vec![9, 31]),
        (136, vec![]),
        (137, but(&[4, 9, 31])),
        (138, but(&[31])),
        (143, but(&[9, 31])),
    ];
    for edition in Edition::BOTH {
        let program = read_in(edition, &w.bytes).expect("readable");
        for (key, names) in &list {
            assert_eq!(program.names(*key).collect::<Vec<u8>>(), *names, "key {key}");
        }
    }
}

/// A load with the key of no name finds nothing, and still puts w in its object, as the check demands; a store with it does nothing.
#[test]
fn the_key_of_no_name() {
    let mut w = Writer::new();
    w.label(5, 1, 0).label(6, 1, 0).label(7, 1, 0).variable(2, 0, 255).variable(3, 0, 255).variable(4, 0, 255);
    w.property(5, 7, 6).property(1, 8, 4).held(4, 6).load(0, 3, 2, 136, 5).store(0, 2, 136, 4);
    for e in Edition::BOTH {
        let rows = rows(e, &w);
        assert_eq!((rows[e.s(2)], rows[e.s(3)], rows[e.h(5, 7)]), (row(&[5]), row(&[]), row(&[6])));
        assert!((0..32).all(|n| n == 7 || rows[e.h(5, n)].is_empty()));
        let mut table = answer(e, &w.bytes).table;
        assert_eq!(check_in(e, &w.bytes, &table), Ok(()));
        e.put(&mut table, e.s(2), row(&[]));
        assert_eq!(check_in(e, &w.bytes, &table), Err(Refusal { number: 10, position: 2 }));
    }
}

/// A name that is given another class leaves the key outside that class: facts may become fewer.
#[test]
fn more_classes_may_mean_fewer_facts() {
    let facts = |e, mask| {
        let mut w = Writer::new();
        w.label(5, 1, 0).label(6, 1, 0).variable(2, 0, 255).variable(3, 0, 255).held(2, 5).held(3, 6);
        w.store(0, 2, 137, 3).name(7, mask);
        answer(e, &w.bytes).facts
    };
    for e in Edition::BOTH {
        assert_eq!((facts(e, 1) - facts(e, 3), facts(e, 1) - facts(e, 5)), (1, 0));
    }
}

/// Request 02: returns at the top level are read and say nothing.
#[test]
fn returns_at_the_top_level() {
    for edition in Edition::BOTH {
        assert_eq!(report_in(edition, &[23, 0, 0]), "confined 45\nguest 3\n");
        assert_eq!(report_in(edition, &[23, 0, 9]), "refused 3 0\n");
        assert_eq!(report_in(edition, &[23, 3, 0]), "refused 4 0\n");
    }
}

/// The other files of `crates/listed/specs/TopReturnFiles.antt`, whose verdicts are theorems there.
#[test]
fn the_top_level_returns_to_nobody() {
    let journal_returned = |k| {
        let mut w = file_seven();
        w.give_back(k, 2);
        w
    };
    let called = |returned: bool| {
        let mut w = file_three(255, 0);
        let top =
            |w: &mut Writer, values: &[u8]| values.iter().filter(|_| returned).for_each(|&v| _ = w.give_back(0, v));
        top(&mut w, &[2]);
        w.label(6, 2, 0).variable(3, 0, 255).function(6, 0, [0; 6]).held(3, 6);
        top(&mut w, &[3]);
        w.variable(4, 0, 255).held(4, 0).variable(5, 0, 255);
        w.call(0, 5, 4, 0, [0; 6]).call(0, 5, 3, 0, [0; 6]).grant(5);
        top(&mut w, &[0, 2, 4, 5]);
        w
    };
    let list = [
        (journal_returned(6), Verdict::Leaks(5), 316),
        (journal_returned(0), Verdict::Confined, 152),
        (called(false), Verdict::Confined, 54),
        (called(true), Verdict::Confined, 54),
    ];
    have_verdicts(&list);
}

/// Everything the host has is returned at the top level, the forbidden object too. The host calls the global object, a function and what the
/// guest gives, with new too, catches what is thrown, and grants all results: still nobody gets it.
#[test]
fn nobody_gets_what_the_top_level_returns() {
    let mut w = file_three(255, 0);
    w.label(6, 2, 0).label(7, 1, 0).variable(3, 0, 255).variable(4, 0, 9).variable(5, 6, 255).function(6, 5, [5; 6]);
    w.held(3, 0).held(3, 6).held(4, 6);
    for v in 10..=16 {
        w.variable(v, 0, if v % 2 == 0 { 255 } else { v }).grant(v);
    }
    w.call(0, 10, 3, 0, [0; 6])
        .new_object(0, 11, 3, 12, 7, [0; 6])
        .call(0, 13, 12, 0, [0; 6])
        .call(6, 14, 10, 0, [0; 6]);
    w.prim(0, 3).prim(0, 10).catch(0, 15).catch(6, 16);
    let returned = with_top_returns(&w.bytes, |_, _| true);
    assert!(returned.len() > 3 * w.bytes.len());
    for edition in Edition::BOTH {
        let (before, after) = (answer(edition, &w.bytes), answer(edition, &returned));
        assert_eq!(before, after);
        assert_eq!(after.verdict, Verdict::Confined);
        assert_eq!(check_in(edition, &returned, &after.table), Ok(()));
        // The same return in the scope of the function, which the host calls, is another matter.
        let mut w = w.clone();
        w.give_back(6, 2);
        assert_eq!(answer(edition, &w.bytes).verdict, Verdict::Leaks(5));
    }
}

/// Request 04: the guest held to a class of names, to every name, and to no class there is.
#[test]
fn guests_held_to_a_class() {
    let list: [(&[u8], &str); 9] = [
        (&[9, 1], "confined 13\nguest 3\n"),
        (&[9, 1, 1, 3, 3], "confined 14\nguest 3\n"),
        (&[1, 3, 3, 9, 1], "confined 14\nguest 3\n"),
        (&[9, 1, 1, 4, 3], "confined 14\nguest 3\n"),
        (&[9, 0], "confined 45\nguest 3\n"),
        (&[9, 7, 3, 3], "leaks 3 13\nguest 3\n"),
        (&[9, 8], "refused 5 0\n"),
        (&[9, 0, 9, 9], "refused 5 2\n"),
        (&[9, 0, 9, 1], "refused 6 2\n"),
    ];
    for (edition, (file, lines)) in Edition::BOTH.into_iter().flat_map(|e| list.map(|case| (e, case))) {
        assert_eq!(report_in(edition, file), lines, "{edition:?} {file:?}");
    }
}

/// What hangs on the class: the journal 5 is under name 4 of the guest's object; or the listener under name 4 of that object is called with the journal; or
/// what the guest's function has as its prototype property is. By new the guest's object has function 7's property 8 as its prototype, whatever the class.
#[test]
fn what_a_held_guest_gets() {
    let object = |profile: &[u8]| {
        let mut w = file_three(255, 0);
        w.put(profile).label(6, 1, 0).variable(3, 0, 255).variable(4, 0, 255).held(3, 6).grant(3);
        w
    };
    let field = |profile: &[u8]| {
        let mut w = object(profile);
        w.property(6, 4, 5);
        w
    };
    let called = |profile: &[u8], name: u8| {
        let mut w = object(profile);
        w.label(7, 1, 0).variable(5, 0, 255).copy(0, 5, 3);
        w.load(0, 4, 5, name, 7).call(0, 0, 4, 0, [2, 0, 0, 0, 0, 0]);
        w
    };
    let prototype = |profile: &[u8], name: u8| {
        let mut w = object(profile);
        w.label(7, 2, 0).function(7, 0, [0; 6]).label(8, 1, 0).make_function(0, 3, 7, 8).property(8, name, 5);
        w
    };
    let list = [
        (field(&[]), Verdict::Leaks(5), 315),
        (field(&[9, 1]), Verdict::Confined, 23),
        (field(&[9, 1, 1, 4, 3]), Verdict::Leaks(5), 34),
        (field(&[9, 2, 1, 4, 3]), Verdict::Confined, 23),
        (called(&[], 4), Verdict::Leaks(5), 327),
        (called(&[9, 1], 4), Verdict::Confined, 27),
        (called(&[9, 1, 1, 4, 3], 4), Verdict::Leaks(5), 46),
        (called(&[], 3), Verdict::Leaks(5), 327),
        (called(&[9, 1], 3), Verdict::Confined, 27),
        (called(&[9, 1, 1, 3, 3], 3), Verdict::Leaks(5), 48),
        (prototype(&[9, 1, 1, 4, 3], 4), Verdict::Leaks(5), 52),
        (prototype(&[9, 1, 1, 4, 3], 9), Verdict::Confined, 42),
    ];
    have_verdicts(&list);
}
