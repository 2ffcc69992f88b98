//! Rows of a text: a call a line, with what comes of it behind `=`.

use std::str::{FromStr, SplitWhitespace};

/// The words of a call, behind its name.
pub(super) type Words<'a> = SplitWhitespace<'a>;

/// A call, and its answer where there is memory.
pub(super) struct Row<'a> {
    call: &'a str,
    pub(super) answer: &'a str,
}

impl<'a> Row<'a> {
    /// The row of a line, if it isn't for the reader alone.
    pub(super) fn of(line: &'a str) -> Option<Row<'a>> {
        if line.is_empty() || line.starts_with('#') {
            return None;
        }
        let line = line.strip_prefix("free ").unwrap_or(line);
        let (call, answers) = line.split_once(" =").unwrap_or((line, ""));
        let answer = answers.split(" | ").next().unwrap_or("");
        Some(Row { call, answer })
    }

    /// The name of the call, and its further words.
    pub(super) fn words(&self) -> (&'a str, Words<'a>) {
        let mut words = self.call.split_whitespace();
        (words.next().unwrap_or(""), words)
    }
}

/// The next word, which has to be there.
pub(super) fn word<'a>(words: &mut Words<'a>) -> &'a str {
    words.next().expect("a word is missing")
}

/// A number that a word is.
pub(super) fn number_of<T: FromStr>(word: &str) -> T {
    word.parse()
        .unwrap_or_else(|_| panic!("{word} is no number"))
}

/// The next word as a number.
pub(super) fn number<T: FromStr>(words: &mut Words<'_>) -> T {
    number_of(word(words))
}

/// The next word, which is `yes` or `no`.
pub(super) fn fact(words: &mut Words<'_>) -> bool {
    match word(words) {
        "yes" => true,
        "no" => false,
        word => panic!("{word} is neither yes nor no"),
    }
}

/// The next word as a number in hexadecimal.
pub(super) fn hex_number<T: TryFrom<u32>>(words: &mut Words<'_>) -> T {
    let word = word(words);
    let number = u32::from_str_radix(word, 16).ok();
    number
        .and_then(|number| number.try_into().ok())
        .unwrap_or_else(|| panic!("{word} is no number"))
}

/// A word with all its digits: `+` joins parts, and `aa*3` is `aa` three times.
fn spelt_out(word: &str) -> String {
    word.split('+')
        .map(|part| {
            let (digits, times) = part.split_once('*').unwrap_or((part, "1"));
            digits.repeat(number_of(times))
        })
        .collect()
}

/// The bytes of a word; `-` has none.
pub(super) fn bytes_of(word: &str) -> Vec<u8> {
    match word {
        "-" => Vec::new(),
        word => crate::tests::bytes(&spelt_out(word)),
    }
}

/// The next word as bytes.
pub(super) fn bytes(words: &mut Words<'_>) -> Vec<u8> {
    bytes_of(word(words))
}

/// The words of an answer in full; `3:aabb` stands for three words `aabb`.
pub(super) fn in_full(answer: &str) -> Vec<String> {
    answer
        .split_whitespace()
        .flat_map(|word| {
            let (times, word) = times_of(word);
            vec![spelt_out(word); times]
        })
        .collect()
}

/// How often a word stands, and the word.
fn times_of(word: &str) -> (usize, &str) {
    let counted = word
        .split_once(':')
        .and_then(|(times, word)| Some((times.parse().ok()?, word)));
    counted.unwrap_or((1, word))
}
