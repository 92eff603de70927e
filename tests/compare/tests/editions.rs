//! A file of the small edition in the large one: the same answer, the same facts in the rows that moved, and the same check of any table.

use pezvoran::{check, verdict, Answer, Edition, Large, Refusal, Small, Table};
use second::generate::{self, Named};
use second::prng::Prng;

/// The row of the large edition for a row of the small one: S and H stay, P and T move.
fn moved(row: usize) -> usize {
    let (chains, thrown) = (Small::ROWS - 2 * Small::LABELS, Small::ROWS - Small::LABELS);
    match row {
        _ if row < chains => row,
        _ if row < thrown => row - chains + Large::ROWS - 2 * Large::LABELS,
        _ => row - thrown + Large::ROWS - Large::LABELS,
    }
}

/// The same facts in a table of the large edition.
fn widened(small: &Table<Small>) -> Table<Large> {
    let mut large = Table::<Large>::new();
    for (row, &word) in small.words().iter().enumerate() {
        large.words_mut()[moved(row) * Large::ROW_WORDS] = word;
    }
    large
}

/// Refusal 10 tells a row; all other answers of the check are the same.
fn moved_answer(answer: Answer) -> Answer {
    match answer {
        Answer::Refused(refusal @ Refusal { number: 10, .. }) => {
            Answer::Refused(Refusal { position: moved(refusal.position as usize) as u64, ..refusal })
        }
        other => other,
    }
}

fn files() -> impl Iterator<Item = Named> {
    let seeded = (0..200).flat_map(generate::every);
    seeded.chain((0..4).map(generate::dense)).chain(generate::edges().into_iter().step_by(7))
}

#[test]
fn a_file_of_the_small_edition_has_the_same_answer_and_facts_in_the_large_one() {
    let (mut readable, mut refused_alike, mut refused_otherwise) = (0, 0, 0);
    for (name, file) in files() {
        let (mut small, mut large) = (Table::<Small>::new(), Table::<Large>::new());
        let (answer, widely) = (verdict(&file, &mut small), verdict(&file, &mut large));
        match answer {
            Answer::Refused(refusal) if widely != answer => {
                assert_eq!(refusal.number, 4, "{name}: only labels from 64 up are good in one edition alone");
                refused_otherwise += 1;
            }
            Answer::Refused(_) => refused_alike += 1,
            _ => {
                assert_eq!(widely, answer, "{name}");
                assert!(large == widened(&small), "{name}");
                readable += 1;
            }
        }
    }
    println!("{readable} files have the same verdict, {refused_alike} are refused alike, {refused_otherwise} not");
    assert!(readable > 500 && refused_alike > 500 && refused_otherwise > 20);
}

#[test]
fn the_check_of_a_table_is_the_same_in_the_large_edition() {
    let mut r = Prng::new(13);
    let mut tables = 0;
    for (name, file) in files().step_by(5) {
        let mut table = Table::<Small>::new();
        verdict(&file, &mut table);
        for _ in 0..4 {
            let answer = check(&file, &table);
            let widely = check(&file, &widened(&table));
            let refused_otherwise = matches!(answer, Answer::Refused(Refusal { number: 4, .. }));
            assert!(widely == moved_answer(answer) || refused_otherwise, "{name}: {answer:?}, in the large edition {widely:?}");
            table.words_mut()[r.below(Small::TABLE_WORDS)] ^= 1 << r.below(64);
            tables += 1;
        }
    }
    println!("{tables} tables have the same check");
}
