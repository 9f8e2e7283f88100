//! The words of a command line.

use std::str::FromStr;

const DEFAULT_SEED: u64 = 1;

/// `[COUNT] [SEED]`: how many lists, drawn from which seed. Nothing for other words.
pub fn count_and_seed(words: &[String], default_count: usize) -> Option<(usize, u64)> {
    if words.len() > 2 {
        return None;
    }
    let count = number_or(words.first(), default_count)?;
    let seed = number_or(words.get(1), DEFAULT_SEED)?;
    Some((count, seed))
}

fn number_or<T: FromStr>(word: Option<&String>, default: T) -> Option<T> {
    word.map_or(Some(default), |word| word.parse().ok())
}

#[cfg(test)]
mod tests {
    use super::*;

    #[test]
    fn two_numbers_or_their_defaults() {
        let read = |words: &[&str]| {
            let words: Vec<String> = words.iter().map(ToString::to_string).collect();
            count_and_seed(&words, 20)
        };
        assert_eq!(read(&[]), Some((20, 1)));
        assert_eq!(read(&["30"]), Some((30, 1)));
        assert_eq!(read(&["30", "7"]), Some((30, 7)));
        for words in [&["many"][..], &["30", "-7"], &["30", "7", "1"]] {
            assert_eq!(read(words), None);
        }
    }
}
