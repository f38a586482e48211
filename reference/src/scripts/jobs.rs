//! Scripts of the card's own calls, the layers', the medium's and the writer's.

use super::maker::Maker;
use crate::card::Kind;
use crate::random::Random;

/// What a script mostly does.
#[derive(Clone, Copy, PartialEq, Eq)]
pub enum Leaning {
    Anything,
    Writer,
    Piles,
    Edges,
    Worn,
}

pub fn script(random: Random, leaning: Leaning) -> String {
    let mut maker = Maker::new(random);
    maker.new_card();
    if maker.random.percent(30) {
        maker.new_card();
    }
    if leaning == Leaning::Piles {
        for number in 0..maker.cards.len() {
            maker.lay(number);
            if maker.random.percent(70) {
                maker.lay(number);
            }
        }
    }
    for _ in 0..maker.random.pick(&[8, 25, 25, 60, 200]) {
        let number = maker.some_card();
        step(&mut maker, number, leaning);
    }
    maker.look_at_all();
    maker.finish()
}

/// One command, and mostly a look at what it did.
pub fn step(maker: &mut Maker, number: usize, leaning: Leaning) {
    let turn = maker.random.below(100);
    match leaning {
        Leaning::Piles if turn < 20 && maker.cards[number].fence_blocks().is_some() => mark(maker, number),
        Leaning::Edges if turn < 60 => edges(maker, number),
        Leaning::Worn if turn < 25 => lives(maker, number),
        Leaning::Writer if turn < 40 => put(maker, number),
        _ => any(maker, number),
    }
    // A card that was locked, or whose supply is low, does not stay so for long.
    let known = &maker.cards[number];
    let (locked, low) = (known.locked, known.low);
    if locked && maker.random.percent(30) {
        lock(maker, number, false);
    }
    if low && maker.random.percent(30) {
        supply(maker, number, true);
    }
    if maker.random.percent(45) {
        maker.look_at(number);
    }
}

fn any(maker: &mut Maker, number: usize) {
    match maker.random.below(100) {
        0..=33 => put(maker, number),
        34..=41 => clear(maker, number),
        42..=49 => take(maker, number),
        50..=63 => word(maker, number),
        64..=70 => wipe(maker, number),
        71..=79 => lives(maker, number),
        80..=84 => lock(maker, number, true),
        85..=88 => supply(maker, number, false),
        89..=91 => waits(maker, number),
        92 => maker.lay(number),
        93..=96 if maker.cards[number].fence_blocks().is_some() => mark(maker, number),
        93 => mark(maker, number),
        _ => maker.look_at(number),
    }
}

/// Numbers where something ends, in every call that takes one.
fn edges(maker: &mut Maker, number: usize) {
    let name = maker.name(number);
    let edge = maker.edge();
    let (edge, other) = (maker.number(edge), maker.edge().to_string());
    let place = maker.place(number);
    let line = match maker.random.below(18) {
        0 => format!("put {name} {edge} 00"),
        1 => format!("put {name} {edge} -"),
        2 => format!("put {name} {place} 00 {other}"),
        3 => format!("plan {name} {edge} 1234 {other}"),
        4 => format!("plan {name} {place} 1234 {edge}"),
        5 => format!("clear {name} {edge} {other}"),
        6 => format!("clear {name} {edge} 0"),
        7 => format!("clear {name} 0 {other}"),
        8 => format!("clear {name} 0 1 {other}"),
        9 => format!("take {name} {edge} {other}"),
        10 => format!("take {name} {edge} 0"),
        11 => format!("take {name} 0 {other}"),
        12 => format!("word {name} {edge} 0xFFFF"),
        13 => format!("wipe {name} {edge}"),
        14 => format!("lives {name} {edge} both 1"),
        15 => format!("lives {name} 0 both {edge}"),
        16 => format!("mark {name} {edge} on"),
        _ => format!("waits {name} {edge} {other}"),
    };
    if line.starts_with("put") || line.starts_with("plan") || line.starts_with("clear") {
        maker.cards[number].has_buffer = true;
    }
    if line.starts_with("waits") {
        maker.cards[number].longest_wait = 1_000;
    }
    maker.line(&line);
}

/// A room: none named, too small, as much as a block, larger, or very large.
fn room(maker: &mut Maker, number: usize) -> String {
    let block_size = maker.cards[number].block_size;
    let room = match maker.random.below(60) {
        0 => 0,
        1 | 2 => block_size - 1,
        3 => maker.random.below(block_size),
        4 | 5 => block_size,
        6..=8 => block_size + maker.random.from_to(1, 9),
        9 => 0xFFFF_FFFF,
        _ => return String::new(),
    };
    format!(" {}", maker.number(room))
}

/// How far a put may reach, so that long waits do not add up.
fn reach(maker: &Maker, number: usize) -> u64 {
    if maker.cards[number].longest_wait > 50 { 24 } else { 400 }
}

pub fn put(maker: &mut Maker, number: usize) {
    let name = maker.name(number);
    let place = maker.place(number);
    let length = length(maker, number, place);
    let bytes = laid(maker, number, place, length);
    let call = if maker.random.percent(25) { "plan" } else { "put" };
    let room = room(maker, number);
    let spelled = maker.number(place);
    let hex = match maker.random.below(80) {
        0 => "@few.bin".into(),
        1 => "@many.bin".into(),
        2 => "@none.bin".into(),
        _ => maker.hex(&bytes),
    };
    if maker.random.percent(25) && call == "put" {
        maker.line(&format!("plan {name} {spelled} {hex}"));
    }
    maker.line(&format!("{call} {name} {spelled} {hex}{room}"));
    let known = &mut maker.cards[number];
    known.has_buffer = true;
    if call == "put" && !hex.starts_with('@') && !known.locked && !known.low {
        known.suppose(place, &bytes);
    }
    if maker.random.percent(40) {
        maker.line(&format!("buffer {name}"));
    }
}

fn length(maker: &mut Maker, number: usize, place: u64) -> u64 {
    let block_size = maker.cards[number].block_size;
    let capacity = maker.cards[number].seen().1;
    let left = capacity.saturating_sub(place);
    let wished = match maker.random.below(20) {
        0 => 0,
        1 if maker.random.percent(30) => left + 1,
        2 => left,
        3..=5 => block_size,
        6..=8 => maker.random.from_to(1, 3 * block_size),
        9 => block_size * 3 + 1,
        _ => maker.random.from_to(1, 6),
    };
    // Mostly it ends on the medium.
    let most = if maker.random.percent(96) { left } else { left + 2 };
    wished.min(most).min(reach(maker, number))
}

/// Bytes to lay, by what is guessed to be there.
fn laid(maker: &mut Maker, number: usize, place: u64, length: u64) -> Vec<u8> {
    let held = if place > 1 << 26 {
        vec![0xFF; length as usize]
    } else {
        maker.cards[number].guessed(place, length)
    };
    match maker.random.below(12) {
        0 => held,
        1..=4 => {
            // Only zeros are added, so no wipe is needed.
            let style = maker.random.below(3);
            held.iter()
                .map(|byte| byte & fewer_ones(&mut maker.random, style))
                .collect()
        }
        5 | 6 => {
            let mut changed = held;
            if !changed.is_empty() {
                let at = maker.random.below(changed.len() as u64) as usize;
                changed[at] ^= 1 << maker.random.below(8);
            }
            changed
        }
        7 => vec![0xFF; length as usize],
        8 => vec![0x00; length as usize],
        9 => (0..length)
            .map(|_| maker.random.pick(&[0xFF, 0xFF, 0xFF, 0x7F]))
            .collect(),
        _ => maker.bytes(length),
    }
}

fn fewer_ones(random: &mut Random, style: u64) -> u8 {
    match style {
        0 => random.byte(),
        1 => random.pick(&[0xFF, 0xFF, 0xFF, 0xFE, 0x00]),
        _ => random.byte() | random.byte(),
    }
}

fn clear(maker: &mut Maker, number: usize) {
    let name = maker.name(number);
    let blocks = maker.seen_blocks(number);
    let first = maker.block(blocks);
    let left = blocks.saturating_sub(first);
    let count = match maker.random.below(10) {
        0 => 0,
        1 if maker.random.percent(40) => left + 1,
        2 => left,
        _ => maker.random.from_to(1, 3).min(left),
    };
    let room = room(maker, number);
    let (spelled, counted) = (maker.number(first), maker.number(count));
    maker.line(&format!("clear {name} {spelled} {counted}{room}"));
    let known = &mut maker.cards[number];
    known.has_buffer = true;
    if first + count <= blocks && !known.locked && !known.low {
        let cleared = vec![0xFF; (count * known.block_size) as usize];
        known.suppose(first * known.block_size, &cleared);
    }
    if maker.random.percent(40) {
        maker.line(&format!("buffer {name}"));
    }
}

fn take(maker: &mut Maker, number: usize) {
    let name = maker.name(number);
    let place = maker.place(number);
    let left = maker.cards[number].seen().1.saturating_sub(place);
    let length = match maker.random.below(12) {
        0 => 0,
        1 => left + 1,
        2 => left.min(2048),
        3 => maker.edge(),
        _ => maker.random.from_to(1, 70).min(left),
    };
    let (place, length) = (maker.number(place), maker.number(length));
    maker.line(&format!("take {name} {place} {length}"));
}

fn word(maker: &mut Maker, number: usize) {
    let name = maker.name(number);
    let mut place = maker.place(number);
    if maker.random.percent(80) {
        place &= !1;
    }
    let value = maker.random.next() & maker.random.pick(&[0xFFFF, 0xFF00, 0x00FF]);
    let value = if maker.random.percent(50) {
        value
    } else {
        maker.random.pick(&[0xFFFF, 0, 0xFFFE, 0x7FFF, 0x0FF0])
    };
    let (place, value) = (maker.number(place), maker.number(value));
    maker.line(&format!("word {name} {place} {value}"));
}

fn wipe(maker: &mut Maker, number: usize) {
    let name = maker.name(number);
    let blocks = maker.seen_blocks(number);
    let block = maker.block(blocks);
    let block = maker.number(block);
    maker.line(&format!("wipe {name} {block}"));
}

fn lives(maker: &mut Maker, number: usize) {
    let name = maker.name(number);
    let block = maker.block(maker.cards[number].blocks);
    let lanes = maker.random.pick(&["even", "odd", "both"]);
    let count = match maker.random.below(14) {
        0 => 0xFFFF_FFFF,
        1 => 0,
        2..=4 => maker.random.from_to(1, 4),
        _ => maker.random.from_to(10, 90),
    };
    let (block, count) = (maker.number(block), maker.number(count));
    maker.line(&format!("lives {name} {block} {lanes} {count}"));
}

fn lock(maker: &mut Maker, number: usize, on: bool) {
    let name = maker.name(number);
    maker.line(&format!("lock {name} {}", if on { "on" } else { "off" }));
    if maker.cards[number].kind != Kind::Series100 {
        maker.cards[number].locked = on;
    }
}

fn supply(maker: &mut Maker, number: usize, good: bool) {
    let name = maker.name(number);
    maker.line(&format!("supply {name} {}", if good { "good" } else { "low" }));
    if maker.cards[number].kind != Kind::Series100 {
        maker.cards[number].low = !good;
    }
}

pub fn waits(maker: &mut Maker, number: usize) {
    let name = maker.name(number);
    let small = maker.cards[number].full_capacity() <= 128;
    let mut wait = || {
        let most = if small { 9 } else { 6 };
        match maker.random.below(most) {
            0 | 1 => 0,
            2..=5 => maker.random.from_to(1, 7),
            6 => maker.random.pick(&[999, 1_000]),
            7 => maker.random.pick(&[1_001, 0xFFFF_FFFF, 1 << 16]),
            _ => 30,
        }
    };
    let (write, wipe) = (wait(), wait());
    let known = &mut maker.cards[number];
    if known.is_simulated() {
        known.longest_wait = write.max(wipe);
    }
    let (write, wipe) = (maker.number(write), maker.number(wipe));
    maker.line(&format!("waits {name} {write} {wipe}"));
}

fn mark(maker: &mut Maker, number: usize) {
    let name = maker.name(number);
    let blocks = maker.cards[number].fence_blocks().unwrap_or(maker.cards[number].blocks);
    let block = maker.block(blocks);
    let on = if maker.random.percent(55) { "on" } else { "off" };
    let block = maker.number(block);
    maker.line(&format!("mark {name} {block} {on}"));
}
