//! Scripts that were valid, and of which some lines were damaged.

use super::maker::Maker;
use super::mixed;
use crate::random::Random;

/// Letters that are put in or changed to.
const LETTERS: &[char] = &[
    ' ', '\t', '#', '0', '1', '9', 'x', 'X', 'F', 'g', '-', '+', '@', '.', ',', 'n', 'O', '\u{b}', '\u{c}', '\u{a0}',
    '\u{e4}', '_', '/', '=',
];

const WORDS: &[&str] = &[
    "on",
    "off",
    "both",
    "even",
    "odd",
    "word",
    "byte",
    "read",
    "write",
    "0",
    "0x",
    "-",
    "FF",
    "4294967296",
    "65536",
    "window",
    "fence",
    "c0",
    "put",
];

pub fn script(mut random: Random) -> String {
    let own = Random::new(random.next());
    let length = random.pick(&[6, 15, 40]);
    let sound = mixed(Maker::new(own), length);
    let share = random.pick(&[5, 15, 40]);
    let mut text = String::new();
    for line in sound.lines() {
        if random.percent(share) {
            text.push_str(&damaged(&mut random, line));
        } else {
            text.push_str(line);
        }
        text.push('\n');
    }
    if random.percent(20) {
        text = joined(&mut random, &text);
    }
    text
}

fn damaged(random: &mut Random, line: &str) -> String {
    if random.percent(50) {
        damaged_words(random, line)
    } else {
        damaged_letters(random, line)
    }
}

fn damaged_words(random: &mut Random, line: &str) -> String {
    let mut words: Vec<String> = line.split_whitespace().map(String::from).collect();
    if words.is_empty() {
        return random.pick(WORDS).to_string();
    }
    let at = random.below(words.len() as u64) as usize;
    let other = random.below(words.len() as u64) as usize;
    match random.below(7) {
        0 => {
            words.remove(at);
        }
        1 => words.insert(at, words[at].clone()),
        2 => words.swap(at, other),
        3 => words.push(random.pick(WORDS).to_string()),
        4 => words[at] = words[at].to_uppercase(),
        5 => words.truncate(at),
        _ => words[at] = random.pick(WORDS).to_string(),
    }
    words.join(" ")
}

fn damaged_letters(random: &mut Random, line: &str) -> String {
    let mut letters: Vec<char> = line.chars().filter(|letter| *letter != '\r').collect();
    let at = random.below(letters.len() as u64) as usize;
    let letter = random.pick(LETTERS);
    match random.below(5) {
        0 if !letters.is_empty() => {
            letters.remove(at);
        }
        1 if !letters.is_empty() => letters[at] = letter,
        2 if at + 1 < letters.len() => letters.swap(at, at + 1),
        3 if at < letters.len() && letters[at].is_ascii_alphanumeric() => letters.insert(at, '\r'),
        _ => letters.insert(at, letter),
    }
    letters.into_iter().collect()
}

/// One line end is left out.
fn joined(random: &mut Random, text: &str) -> String {
    let ends: Vec<usize> = text.match_indices('\n').map(|(at, _)| at).collect();
    if ends.is_empty() {
        return text.into();
    }
    let at = ends[random.below(ends.len() as u64) as usize];
    let before = text[..at].trim_end_matches('\r');
    format!("{before} {}", &text[at + 1..])
}
