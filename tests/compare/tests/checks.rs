//! The check's answer and position on finished tables, on tables with one bit changed, with stray bits, random, short and long, against the second check,
//! in both editions.

use compare::{edition, second_check};
use pezvoran::{check, verdict, Answer, Edition, Large, Small};
use second::generate::{self, Named};
use second::read_in;

/// Answers seen, by the number of the refusal; 0 is accepted.
type Seen = [usize; 16];

fn same<E: Edition>(name: &str, file: &[u8], table: &[u64], seen: &mut Seen) {
    let answer = check::<E>(file, table);
    assert_eq!(answer, second_check::<E>(file, table), "{name}");
    match answer {
        Answer::Accepted { .. } => seen[0] += 1,
        Answer::Refused(refusal) => seen[refusal.number as usize] += 1,
        other => panic!("{name}: {other:?}"),
    }
}

/// The finished table with a bit changed at the place, and with the next fact from there on taken out.
fn changed(table: &[u64], place: usize, bit: u64) -> Vec<Vec<u64>> {
    let fact = (0..table.len()).map(|i| (place + i) % table.len()).find(|&i| table[i] != 0);
    let changes = [(place, bit)].into_iter().chain(fact.map(|i| (i, table[i] & table[i].wrapping_neg())));
    let tables = changes.map(|(word, change)| {
        let mut changed = table.to_vec();
        changed[word] ^= change;
        changed
    });
    tables.collect()
}

/// The table with every undeclared label in every row.
fn with_undeclared<E: Edition>(file: &[u8], table: &[u64]) -> Option<Vec<u64>> {
    let undeclared = !read_in(edition::<E>(), file).ok()?.declared_row();
    let run = undeclared.words(edition::<E>());
    Some(table.iter().zip(run.iter().cycle()).map(|(word, more)| word | more).collect())
}

fn on_files<E: Edition>(what: &str, count: u64, make: fn(second::Edition, u64) -> Named) -> Seen {
    let mut seen = Seen::default();
    for seed in 0..count {
        let (name, file) = make(edition::<E>(), seed);
        let mut table = vec![0; E::TABLE_WORDS];
        verdict::<E>(&file, &mut table);
        same::<E>(&name, &file, &table, &mut seen);
        // Changes at words that go round with the seed; 97 has no divisor in common with the number of words.
        for step in 0..12 {
            let place = (seed as usize * 12 + step) * 97 % E::TABLE_WORDS;
            for changed in changed(&table, place, 1 << ((seed * 5 + step as u64 * 11) % 64)) {
                same::<E>(&name, &file, &changed, &mut seen);
            }
        }
        // Stray bits in row 0 and at every label, declared or not, and words beyond the rows.
        let mut strayed = table.clone();
        strayed[..E::ROW_WORDS].fill(u64::MAX);
        strayed.resize(E::TABLE_WORDS + seed as usize % 6, u64::MAX);
        same::<E>(&name, &file, &strayed, &mut seen);
        strayed.iter_mut().for_each(|w| *w |= seed.wrapping_mul(0x9e37_79b9_7f4a_7c15));
        same::<E>(&name, &file, &strayed, &mut seen);
        if let Some(strayed) = with_undeclared::<E>(&file, &table) {
            same::<E>(&name, &file, &strayed, &mut seen);
            assert_eq!(check::<E>(&file, &strayed), check::<E>(&file, &table), "{name}: undeclared labels count as absent");
        }
        same::<E>(&name, &file, &vec![u64::MAX; E::TABLE_WORDS], &mut seen);
        same::<E>(&name, &file, &vec![0; E::TABLE_WORDS], &mut seen);
        same::<E>(&name, &file, &table[..(seed as usize * 31) % E::TABLE_WORDS], &mut seen);
        same::<E>(&name, &file, &table[..E::TABLE_WORDS - 1], &mut seen);
    }
    println!("{:?} {what}: accepted {}, refused by number {:?}", edition::<E>(), seen[0], &seen[1..12]);
    seen
}

#[test]
fn structured_tables_agree() {
    for seen in [on_files::<Small>("structured", 400, generate::structured_in), on_files::<Large>("structured", 100, generate::structured_in)] {
        assert!([0, 8, 10, 11].iter().all(|&number| seen[number] > 0));
    }
}

#[test]
fn random_tables_agree() {
    on_files::<Small>("random", 400, generate::random_in);
    on_files::<Large>("random", 15, generate::random_in);
}

#[test]
fn tables_of_spread_labels_agree() {
    on_files::<Small>("spread", 40, generate::spread_in);
    on_files::<Large>("spread", 60, generate::spread_in);
}

#[test]
fn tables_of_files_with_returns_at_the_top_level_agree() {
    for seen in [on_files::<Small>("top returns", 40, generate::top_returns_in), on_files::<Large>("top returns", 8, generate::top_returns_in)] {
        assert!([0, 8, 10, 11].iter().all(|&number| seen[number] > 0));
    }
}

#[test]
fn tables_of_files_with_profiles_agree() {
    for seen in [on_files::<Small>("profiles", 200, generate::profiles_in), on_files::<Large>("profiles", 30, generate::profiles_in)] {
        assert!([0, 8, 10, 11].iter().all(|&number| seen[number] > 0));
    }
}

#[test]
fn tables_of_damaged_files_agree() {
    on_files::<Small>("damaged", 400, generate::damaged_in);
    on_files::<Large>("damaged", 150, generate::damaged_in);
}
