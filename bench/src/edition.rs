//! The editions by their names, as arguments of the programs and in titles.

use second::Edition;

pub fn name(edition: Edition) -> &'static str {
    match edition {
        Edition::Small => "small",
        Edition::Large => "large",
    }
}

pub fn named(text: &str) -> Option<Edition> {
    Edition::BOTH.into_iter().find(|&edition| name(edition) == text)
}
