//! What `replay` must print: the script language of README.md read once more, over the reference implementation. It shares
//! no code with the program, so the program is not held to its own output.
mod desk;
mod line;
mod pair;
mod record;

use desk::Desk;
use line::Line;

/// A line of a script that asks for something, by its number from 1, and what it must print.
pub struct Answer {
    pub number: usize,
    pub command: String,
    pub said: String,
}

/// The lines of a text; the last one needs no line end.
fn lines(text: &[u8]) -> impl Iterator<Item = &[u8]> {
    text.split_inclusive(|b| *b == b'\n').map(|l| l.strip_suffix(b"\n").unwrap_or(l))
}

/// The answers to a script, in its order. A blank line has none.
pub fn answers(script: &[u8]) -> Vec<Answer> {
    let mut desk = Desk::new();
    let mut answers = vec![];
    for (at, bytes) in lines(script).enumerate() {
        let said = match line::read(bytes) {
            Line::Blank => continue,
            Line::Words(words) => desk.carry_out(&words),
            Line::Bad => None,
        };
        let number = at + 1;
        let said = said.unwrap_or_else(|| format!("bad {number}"));
        answers.push(Answer { number, command: String::from_utf8_lossy(bytes).into_owned(), said });
    }
    answers
}

/// All that is printed for a script.
pub fn output(script: &[u8]) -> Vec<u8> {
    answers(script).iter().flat_map(|a| format!("{}\n", a.said).into_bytes()).collect()
}

/// The first line of a script whose stored answer is another one: its number, its command and both answers.
pub fn first_difference(script: &[u8], stored: &[u8]) -> Option<String> {
    let answers = answers(script);
    let stored: Vec<_> = lines(stored).map(String::from_utf8_lossy).collect();
    for (at, a) in answers.iter().enumerate() {
        let there = stored.get(at).map_or("nothing", |s| s.as_ref());
        if there != a.said {
            return Some(format!("line {}: {}\n  stored     {there}\n  reference  {}", a.number, a.command, a.said));
        }
    }
    stored.get(answers.len()).map(|s| format!("after the last line the stored output has: {s}"))
}
