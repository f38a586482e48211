//! Scripts made from a seed: long and short, valid and damaged. The same seed makes the same script.

mod big;
mod bus;
mod damage;
mod errors;
mod jobs;
mod known;
mod maker;
mod modes;
mod patience;

use crate::command::words;
use crate::random::Random;
use maker::Maker;

/// How many kinds of scripts take turns by the seed.
const TURNS: u64 = 20;

/// Files that scripts name, to be laid where a script is carried out.
pub fn files() -> Vec<(&'static str, Vec<u8>)> {
    vec![
        ("few.bin", vec![0x12, 0x34, 0xF0, 0x0F, 0xFF]),
        ("none.bin", Vec::new()),
        ("many.bin", (0..300u32).map(|number| (number * 7 % 251) as u8).collect()),
    ]
}

/// The script of a seed.
pub fn script(seed: u64) -> Vec<u8> {
    let round = seed / TURNS;
    let mut random = Random::new(seed);
    let made = match seed % TURNS {
        0 => modes::script(round),
        1 => errors::script(round, random),
        2 | 3 => damage::script(random),
        6 if round % 4 == 0 => patience::script(random),
        4..=6 => bus::script(random),
        7..=10 => jobs::script(random, jobs::Leaning::Writer),
        11 | 12 => jobs::script(random, jobs::Leaning::Piles),
        13 => jobs::script(random, jobs::Leaning::Edges),
        14 => jobs::script(random, jobs::Leaning::Worn),
        19 if round % 10 == 0 => big::script(random),
        _ => {
            let length = random.pick(&[10, 30, 60, 120]);
            mixed(Maker::new(random), length)
        }
    };
    quieted(made).into_bytes()
}

/// Cards of all kinds, with every command on them.
fn mixed(mut maker: Maker, length: u64) -> String {
    for _ in 0..maker.random.from_to(1, 3) {
        maker.new_card();
    }
    for _ in 0..length {
        let number = maker.some_card();
        let on_bus = maker.cards[number].is_simulated() && maker.random.percent(40);
        if on_bus {
            bus::step(&mut maker, number);
        } else {
            jobs::step(&mut maker, number, jobs::Leaning::Anything);
        }
        if maker.random.percent(2) {
            maker.new_card();
        }
    }
    maker.look_at_all();
    maker.finish()
}

/// Leaves out every look at a buffer that may have a very large room: its record would be too.
fn quieted(script: String) -> String {
    let mut loud: Vec<Vec<u8>> = Vec::new();
    let mut kept = String::with_capacity(script.len());
    for line in script.split_inclusive('\n') {
        let words = words(line.trim_end_matches('\n').as_bytes());
        match words.as_slice() {
            [b"put" | b"plan" | b"clear", name, _, _, room] if is_large(room) => {
                loud.push(name.to_vec());
                kept.push_str(line);
            }
            [b"buffer", name] if loud.iter().any(|other| other == name) => {
                kept.push_str(&line.replacen("buffer", "show", 1));
            }
            _ => kept.push_str(line),
        }
    }
    kept
}

fn is_large(room: &[u8]) -> bool {
    // A word too long to be a small number may have leading zeros; it counts as large.
    let room = String::from_utf8_lossy(room).into_owned();
    let number = match room.strip_prefix("0x") {
        Some(digits) => u64::from_str_radix(digits, 16),
        None => room.parse(),
    };
    number.map_or(true, |number| number > 1 << 18)
}
