//! Words of answers, against the list in crates/answer/proofs/Examples.antt, which is computed from the definitions.

use pezvoran::{Answer, Refusal};

/// The outcomes of the list as it writes them, with their words.
fn examples() -> Vec<(&'static str, u64)> {
    let text = include_str!("../../../crates/answer/proofs/Examples.antt");
    let pairs = text.lines().filter_map(|line| line.split_once('(')?.1.strip_suffix(')')?.rsplit_once(", "));
    pairs.filter_map(|(outcome, word)| Some((outcome, word.parse().ok()?))).collect()
}

/// An answer as the list writes it.
fn written(answer: Answer) -> String {
    match answer {
        Answer::Confined { facts } => format!("confined {facts}"),
        Answer::Leaks { label, guest, facts } => format!("leaks {label} {guest} {facts}"),
        Answer::Accepted { count } => format!("accepted {count}"),
        Answer::Refused(Refusal { position, guest: Some(guest), .. }) => format!("holds {position} {guest}"),
        Answer::Refused(Refusal { number, position, guest: None }) => format!("refused {number} {position}"),
        Answer::Choice(choice) => format!("choice {choice}"),
        Answer::NoneHelps => "none_helps".to_string(),
    }
}

#[test]
fn a_word_is_read_as_the_answer_that_it_stands_for() {
    assert_eq!(examples().len(), 17);
    for (outcome, word) in examples() {
        let answer = Answer::of_word(word).expect(outcome);
        assert_eq!((written(answer).as_str(), answer.word()), (outcome, word));
    }
}

/// An outcome that is not there, a part that the outcome does not have, a part that is too large, bits that belong to nothing.
#[test]
fn other_words_are_no_answers() {
    for word in [6 << 4, 15 << 4, 1 << 8, 16 | 1 << 16, 16 | 1 << 25, 32 | 1 << 8, 11 | 1 << 25, 64 | 1 << 20, 80 | 1 << 8, 1 << 54] {
        assert_eq!(Answer::of_word(word), None, "{word:#x}");
    }
}
