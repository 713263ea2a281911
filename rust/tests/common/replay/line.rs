//! A line of a script, taken apart.

/// How many bytes a command may have.
const LONGEST: usize = 256;

pub enum Line<'a> {
    Blank,
    Words(Vec<&'a str>),
    Bad,
}

/// Its words, with one blank between two. What follows a `#`, and blanks at the end, are no part of a command.
pub fn read(bytes: &[u8]) -> Line<'_> {
    let said = bytes.split(|b| *b == b'#').next().unwrap_or(bytes);
    let length = said.iter().rposition(|b| *b != b' ').map_or(0, |last| last + 1);
    if length == 0 {
        return Line::Blank;
    }
    let Ok(text) = std::str::from_utf8(&said[..length]) else { return Line::Bad };
    let words: Vec<_> = text.split(' ').collect();
    if length > LONGEST || words.contains(&"") {
        return Line::Bad;
    }
    Line::Words(words)
}

/// Digits alone, as many as one likes: Rust would take a sign too.
pub fn decimal(word: &str) -> Option<u64> {
    if !word.bytes().all(|b| b.is_ascii_digit()) {
        return None;
    }
    word.parse().ok()
}

/// A decimal number up to a limit, which it may reach.
pub fn up_to(most: usize, word: &str) -> Option<usize> {
    let n = usize::try_from(decimal(word)?).ok()?;
    (n <= most).then_some(n)
}

/// A decimal number below a limit.
pub fn below(limit: usize, word: &str) -> Option<usize> {
    up_to(limit.checked_sub(1)?, word)
}

/// One to sixteen digits, large or small.
pub fn hexadecimal(word: &str) -> Option<u64> {
    if word.len() > 16 || !word.bytes().all(|b| b.is_ascii_hexdigit()) {
        return None;
    }
    u64::from_str_radix(word, 16).ok()
}
