//! The values of fields as words: a number, or a word where the class has one.

use pezvoran::format::{Class, Key, Type};

/// The words of a class.
fn words(class: Class) -> Vec<(String, u8)> {
    let own = |words: &[(&str, u8)]| words.iter().map(|&(word, byte)| (word.to_string(), byte)).collect();
    match class {
        Class::Type => own(&[("plain", Type::Plain as u8), ("function", Type::Function as u8), ("array", Type::Array as u8)]),
        Class::Flag => own(&[("built-in", 1)]),
        Class::VariableName => own(&[("none", 255)]),
        Class::Key => (0..8).flat_map(|c| [(format!("class{c}"), Key::class(c).byte()), (format!("outside{c}"), Key::outside(c).byte())]).collect(),
        _ => Vec::new(),
    }
}

/// A byte in a field of the class.
pub fn spell(class: Class, byte: u8) -> String {
    words(class).into_iter().find(|word| word.1 == byte).map_or_else(|| byte.to_string(), |word| word.0)
}

/// The byte that a word stands for in a field of the class, or what is wanted.
pub fn value(class: Class, word: &str) -> Result<u8, String> {
    let known = words(class);
    let named = known.iter().find(|known| known.0 == word).map(|known| known.1);
    named.or_else(|| byte(word)).ok_or_else(|| {
        let others: String = known.iter().map(|known| format!(", {}", known.0)).collect();
        format!("a number from 0 to 255{others}")
    })
}

/// A decimal byte.
pub fn byte(word: &str) -> Option<u8> {
    let is_decimal = word.len() <= 3 && word.bytes().all(|digit| digit.is_ascii_digit());
    is_decimal.then(|| word.parse().ok())?
}

#[cfg(test)]
mod tests {
    use super::*;

    #[test]
    fn each_byte_is_read_as_it_is_spelled() {
        for class in Class::ALL {
            for byte in 0..=255 {
                assert_eq!(value(class, &spell(class, byte)), Ok(byte), "{class:?}");
                assert_eq!(value(class, &byte.to_string()), Ok(byte), "{class:?}");
            }
        }
    }

    #[test]
    fn what_is_no_byte_is_not_read() {
        for word in ["", "256", "-1", "+1", "0x10", "1.0", "0001", "l5", "plain"] {
            assert_eq!(byte(word), None, "{word}");
        }
        assert_eq!(byte("007"), Some(7));
    }
}
