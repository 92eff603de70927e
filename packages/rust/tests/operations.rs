//! The safe interface, in each edition: both operations on small files, kept tables, and the texts and sizes of the C header.

#[macro_use]
mod editions;

use pezvoran::{check, verdict, Answer, Edition, Large, Lent, Refusal, Small, Table, FILE_BYTES, NAMES, THREAD_STACK_BYTES};
use std::thread;

in_both_editions! {
    the_check_accepts_what_a_confined_verdict_left
    the_check_refuses_what_a_leaking_verdict_left
    empty_slices_are_answered
    a_short_table_is_refused
    a_refusal_leaves_every_word
    words_beyond_the_table_stay
    threads_with_the_stated_stack_call_at_the_same_time
    rows_are_found_by_what_they_stand_for
    a_table_kept_as_bytes_is_the_same_table
    a_key_may_stand_for_all_names_outside_a_class
    a_guest_may_be_held_to_a_class
    a_return_may_stand_at_the_top_level
}

const ACCEPTED: Answer = Answer::Accepted { count: 0 };

/// The last label of the edition.
fn last<E: Edition>() -> u8 {
    (E::LABELS - 1) as u8
}

/// The last label is forbidden; variable 2 holds it; the last record grants variable 2.
fn leaking<E: Edition>() -> [u8; 15] {
    [2, last::<E>(), 1, 0, 3, last::<E>(), 5, 2, 0, 255, 8, 2, last::<E>(), 6, 2]
}

/// The same without the grant.
fn confined<E: Edition>() -> Vec<u8> {
    leaking::<E>()[..13].to_vec()
}

fn refusal(number: u8, position: u64) -> Refusal {
    Refusal { number, position, guest: None }
}

fn refused(number: u8, position: u64) -> Answer {
    Answer::Refused(refusal(number, position))
}

fn leaks<E: Edition>() -> Answer {
    Answer::Leaks { label: last::<E>(), guest: 3, facts: 148 }
}

fn the_check_accepts_what_a_confined_verdict_left<E: Edition>() {
    let mut table = Table::<E>::new();
    assert_eq!(verdict(&confined::<E>(), &mut table), Answer::Confined { facts: 48 });
    assert_eq!(check(&confined::<E>(), &table), ACCEPTED);
    table.words_mut()[E::ROW_WORDS] = 0;
    assert_eq!(check(&confined::<E>(), &table), refused(10, 1));
}

fn the_check_refuses_what_a_leaking_verdict_left<E: Edition>() {
    let mut table = Table::<E>::new();
    assert_eq!(verdict(&leaking::<E>(), &mut table), leaks::<E>());
    let held = Refusal { number: 11, position: last::<E>().into(), guest: Some(3) };
    assert_eq!(check(&leaking::<E>(), &table), Answer::Refused(held));
}

fn empty_slices_are_answered<E: Edition>() {
    assert_eq!(verdict::<E>(&[], &mut []), refused(8, 0));
    assert_eq!(check::<E>(&[], &[]), refused(8, 0));
    assert_eq!(verdict(&[], &mut Table::<E>::new()), Answer::Confined { facts: 45 });
}

fn a_short_table_is_refused<E: Edition>() {
    let mut table = vec![7; E::TABLE_WORDS - 1];
    assert_eq!(verdict::<E>(&[], &mut table), refused(8, 0));
    assert_eq!(check::<E>(&[], &table), refused(8, 0));
    assert!(table.iter().all(|&word| word == 7));
}

fn a_refusal_leaves_every_word<E: Edition>() {
    for (file, answer) in [(vec![3, 3, 0], refused(1, 2)), (vec![0; FILE_BYTES + 1], refused(9, 0))] {
        let mut table = vec![7; E::TABLE_WORDS + 1];
        assert_eq!(verdict::<E>(&file, &mut table), answer);
        assert!(table.iter().all(|&word| word == 7));
    }
}

fn words_beyond_the_table_stay<E: Edition>() {
    let mut table = vec![7; E::TABLE_WORDS + 3];
    verdict::<E>(&leaking::<E>(), &mut table);
    assert_eq!(table[E::TABLE_WORDS..], [7, 7, 7]);
}

fn threads_with_the_stated_stack_call_at_the_same_time<E: Edition>() {
    let judging = |file: Vec<u8>, answer: Answer| {
        let calls = move || {
            let mut table = vec![0; E::TABLE_WORDS];
            for _ in 0..100 {
                assert_eq!(verdict::<E>(&file, &mut table), answer);
                assert_ne!(check::<E>(&file, &table), refused(10, 0));
            }
        };
        thread::Builder::new().stack_size(E::STACK_BYTES).spawn(calls).expect("a thread")
    };
    let threads = [
        judging(confined::<E>(), Answer::Confined { facts: 48 }),
        judging(leaking::<E>().to_vec(), leaks::<E>()),
        judging(vec![], Answer::Confined { facts: 45 }),
    ];
    for thread in threads {
        thread.join().expect("the answers are those of one thread");
    }
}

fn rows_are_found_by_what_they_stand_for<E: Edition>() {
    let mut table = Table::<E>::new();
    verdict(&leaking::<E>(), &mut table);
    let last = last::<E>();
    assert!(table.guest().eq([3, last]) && table.variable(2).eq([3, last]));
    assert!(table.property(last, 31).eq([3, last]) && table.property(0, 0).eq([]));
    assert!(table.chain(last).eq([1, last]) && table.thrown(3).eq([3, last]));
    assert!(table.row(1).eq(table.guest()) && table.row(E::ROWS - 1).eq(table.thrown(last)));
}

fn a_table_kept_as_bytes_is_the_same_table<E: Edition>() {
    let mut table = Table::<E>::new();
    verdict(&leaking::<E>(), &mut table);
    let bytes = table.to_bytes();
    let kept = Table::<E>::from_bytes(&bytes).expect("a table");
    assert_eq!(kept.words(), table.words());
    assert!(Table::<E>::from_bytes(&bytes[1..]).is_none());
    assert!(Table::<E>::from_bytes(&[&bytes[..], &[0]].concat()).is_none());
}

/// Name 4 is in classes 0 and 1. Label 5 holds label 6 under it; variable 3, which the guest is granted, is loaded from label 5.
fn a_key_may_stand_for_all_names_outside_a_class<E: Edition>() {
    let file = |key| [1, 4, 3, 2, 5, 1, 0, 2, 6, 1, 0, 5, 2, 0, 255, 5, 3, 0, 255, 8, 2, 5, 7, 5, 4, 6, 6, 3, 17, 0, 3, 2, key, 5];
    let mut table = Table::<E>::new();
    for key in [136, 137] {
        assert_eq!(verdict(&file(key), &mut table), Answer::Confined { facts: 52 });
        assert!(table.guest().eq([3]));
    }
    assert_eq!(verdict(&file(143), &mut table), Answer::Confined { facts: 152 });
    assert!(table.guest().eq([3, 6]));
    assert_eq!(verdict(&file(144), &mut table), refused(5, 28));
}

/// Label 6, which the guest is granted, holds label 5, which is forbidden, under name 4. The masks of the whole file say what names are of the class.
fn a_guest_may_be_held_to_a_class<E: Edition>() {
    let host = [2, 5, 1, 0, 3, 5, 2, 6, 1, 0, 5, 2, 0, 255, 8, 2, 6, 7, 6, 4, 5, 6, 2];
    let mut table = Table::<E>::new();
    let mut held = |profile: &[u8]| verdict(&[&host, profile].concat(), &mut table);
    for every_name in [&[][..], &[9, 0]] {
        assert_eq!(held(every_name), Answer::Leaks { label: 5, guest: 3, facts: 314 });
    }
    assert_eq!(held(&[9, 1]), Answer::Confined { facts: 22 });
    assert_eq!(held(&[9, 1, 1, 4, 3]), Answer::Leaks { label: 5, guest: 3, facts: 33 });
    assert_eq!(held(&[9, 8]), refused(5, 23));
    assert_eq!(held(&[9, 1, 9, 1]), refused(6, 25));
}

/// It adds no fact, whatever it returns. Its variable is judged as any other is, and a scope that is neither 0 nor a function is still refused.
fn a_return_may_stand_at_the_top_level<E: Edition>() {
    let (mut table, mut without) = (Table::<E>::new(), Table::<E>::new());
    assert_eq!(verdict(&[23, 0, 0], &mut table), Answer::Confined { facts: 45 });
    assert_eq!(verdict(&[23, 0, 9], &mut table), refused(3, 0));
    for scope in 1..=5 {
        assert_eq!(verdict(&[23, scope, 0], &mut table), refused(4, 0));
    }
    let file = [confined::<E>(), vec![23, 0, 2]].concat();
    assert_eq!(verdict(&file, &mut table), verdict(&confined::<E>(), &mut without));
    assert_eq!(table.words(), without.words());
    assert_eq!(check(&file, &without), ACCEPTED);
}

#[test]
fn a_file_of_the_small_edition_has_the_same_verdict_in_the_large_one() {
    for file in [confined::<Small>(), leaking::<Small>().to_vec()] {
        assert_eq!(verdict(&file, &mut Table::<Small>::new()), verdict(&file, &mut Table::<Large>::new()));
    }
}

#[test]
fn labels_from_64_up_are_bad_in_the_small_edition() {
    for label in [64, 255] {
        let file = [2, label, 1, 0];
        assert_eq!(verdict(&file, &mut Table::<Small>::new()), refused(4, 0));
        assert_eq!(verdict(&file, &mut Table::<Large>::new()), Answer::Confined { facts: 47 });
    }
}

/// The chain of a label is far from where the small edition has it, and labels of all four words are told in order.
#[test]
fn labels_stand_in_all_words_of_a_large_row() {
    let mut table = Table::<Large>::new();
    let file: Vec<u8> = [[5, 2, 0, 255].as_slice(), &[6, 2]].concat();
    let held = [64, 127, 128, 191, 192, 255].iter().flat_map(|&label| [2, label, 1, 1, 8, 2, label]);
    verdict(&file.into_iter().chain(held).collect::<Vec<u8>>(), &mut table);
    assert!(table.guest().eq([3, 64, 127, 128, 191, 192, 255]));
    assert!(table.chain(255).eq([1, 255]) && table.chain(192).eq([1, 192]));
}

/// What an operation of an edition takes: its tables, and words however they are kept.
#[test]
fn words_are_lent_however_they_are_kept() {
    fn lent<E: Edition>(table: &mut (impl Lent<E> + ?Sized)) -> bool {
        verdict::<E>(&[], table) == Answer::Confined { facts: 45 }
    }
    assert!(lent::<Small>(&mut [0; Small::TABLE_WORDS]) && lent::<Small>(&mut [0; Small::TABLE_WORDS][..]));
    assert!(lent::<Large>(&mut vec![0; Large::TABLE_WORDS]) && lent::<Large>(&mut vec![0; Large::TABLE_WORDS].into_boxed_slice()));
    assert!(lent(&mut Table::<Large>::new()) && lent::<Small>(Table::<Large>::new().words_mut()));
}

#[test]
fn answers_and_refusals_are_printed_in_words() {
    assert_eq!(Answer::Leaks { label: 255, guest: 3, facts: 148 }.to_string(), "leaks 255 148");
    assert_eq!(refused(4, 12).to_string(), "refused 4 12");
    assert_eq!(refusal(4, 12).to_string(), "a label or scope of the record is not declared or not allowed there (record at byte 12)");
    assert_eq!(refusal(9, 0).to_string(), "the file is longer than 32768 bytes");
}

#[test]
fn the_texts_are_those_of_the_c_header() {
    let header = include_str!("../../../include/pezvoran.h");
    for number in 0..17 {
        let text = refusal(number, 0).text();
        assert!(header.contains(&format!("return \"{text}\";")), "{text}");
    }
}

#[test]
fn the_sizes_are_those_of_the_c_header_and_of_the_text_of_8() {
    let header = include_str!("../../../include/pezvoran.h");
    let has = |name: String, size: usize| assert!(header.contains(&format!("PEZVORAN_{name} = {size}")), "{name}");
    has("FILE_BYTES".into(), FILE_BYTES);
    has("NAMES".into(), NAMES);
    has("THREAD_STACK_BYTES".into(), THREAD_STACK_BYTES);
    fn sizes<E: Edition>(prefix: &str, has: impl Fn(String, usize)) {
        let sizes = [("LABELS", E::LABELS), ("ROW_WORDS", E::ROW_WORDS), ("ROWS", E::ROWS), ("TABLE_WORDS", E::TABLE_WORDS)];
        let stacks = [("VERDICT_STACK_BYTES", E::VERDICT_STACK_BYTES), ("CHECK_STACK_BYTES", E::CHECK_STACK_BYTES), ("STACK_BYTES", E::STACK_BYTES)];
        sizes.into_iter().chain(stacks).for_each(|(name, size)| has(format!("{prefix}{name}"), size));
        assert!(refusal(8, 0).text().contains(&E::TABLE_WORDS.to_string()));
    }
    sizes::<Small>("", has);
    sizes::<Large>("LARGE_", has);
}
