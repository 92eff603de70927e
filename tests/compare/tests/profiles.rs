//! Profiles (request 04) through the archives, in both editions: request 04's examples; a class with every name changes no word; no profile adds a fact, and most
//! take some away.

use compare::{edition, judged};
use pezvoran::{check, Answer, Edition, Large, Refusal, Small};
use second::generate::profiles::{with_every_name, without_profile};
use second::generate::profiles_in;
use second::prng::Prng;
use second::program::LONGEST_FILE;

fn refused(number: u8, position: u64) -> Answer {
    Answer::Refused(Refusal { number, position, guest: None })
}

#[test]
fn examples_of_profiles() {
    let list: [(&[u8], Answer); 7] = [
        (&[9, 1], Answer::Confined { facts: 13 }),
        (&[9, 1, 1, 3, 3], Answer::Confined { facts: 14 }),
        (&[1, 3, 3, 9, 1], Answer::Confined { facts: 14 }),
        (&[9, 0], Answer::Confined { facts: 45 }),
        (&[9, 8], refused(5, 0)),
        (&[9, 0, 9, 9], refused(5, 2)),
        (&[9, 0, 9, 1], refused(6, 2)),
    ];
    for (file, answer) in list {
        assert_eq!(judged::<Small>(file).0, answer, "{file:?}");
        assert_eq!(judged::<Large>(file).0, answer, "{file:?}");
    }
}

fn with_every_name_as_without<E: Edition>(seeds: u64) {
    let mut r = Prng::new(4);
    let mut count = 0;
    for (name, file) in (0..seeds).map(|seed| profiles_in(edition::<E>(), seed)) {
        let [free, held] = with_every_name(&mut r, &file);
        if held.len() <= LONGEST_FILE {
            let (answer, table) = judged::<E>(&held);
            assert!(!matches!(answer, Answer::Refused(_)), "{name}: {answer}");
            assert!((answer, table) == judged::<E>(&free), "{name}");
            count += 1;
        }
    }
    println!("{:?}: {count} files", edition::<E>());
    assert!(10 * count > 9 * seeds);
}

#[test]
fn a_class_with_every_name_changes_nothing() {
    with_every_name_as_without::<Small>(1_000);
    with_every_name_as_without::<Large>(200);
}

/// The table of the file without the profile is closed for the file with it, too.
fn no_fact_more<E: Edition>(seeds: u64) {
    let mut fewer = 0;
    for (name, file) in (0..seeds).map(|seed| profiles_in(edition::<E>(), seed)) {
        let ((answer, held), (_, free)) = (judged::<E>(&file), judged::<E>(&without_profile(&file)));
        assert!(!matches!(answer, Answer::Refused(_)), "{name}: {answer}");
        assert!(held.iter().zip(&free).all(|(fewer, more)| fewer & !more == 0), "{name}");
        let checked = check::<E>(&file, &free);
        assert!(!matches!(checked, Answer::Refused(Refusal { number: 10, .. })), "{name}: {checked}");
        fewer += (held != free) as u64;
    }
    println!("{:?}: {fewer} of {seeds} files have fewer facts with the profile", edition::<E>());
    assert!(2 * fewer > seeds);
}

#[test]
fn a_held_guest_has_no_fact_more() {
    no_fact_more::<Small>(1_000);
    no_fact_more::<Large>(200);
}
