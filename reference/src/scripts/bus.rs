//! Scripts of bus cycles and of slot calls.

use super::jobs;
use super::maker::Maker;
use crate::card::Kind;
use crate::random::Random;

const WIDTHS: [&str; 4] = ["word", "word", "byte", "odd"];

/// Bytes that a device knows as commands.
const COMMANDS: [u8; 9] = [0xFF, 0x90, 0x70, 0x40, 0x10, 0x20, 0xD0, 0x50, 0x00];

pub fn script(random: Random) -> String {
    let mut maker = Maker::new(random);
    for _ in 0..maker.random.pick(&[1, 1, 2]) {
        let kind = maker.random.pick(&[Kind::Series2, Kind::Series100]);
        maker.new_card_of(kind);
    }
    for number in 0..maker.cards.len() {
        if maker.random.percent(60) {
            jobs::waits(&mut maker, number);
        }
        for _ in 0..maker.random.pick(&[0, 0, 0, 1, 2]) {
            maker.lay(number);
        }
    }
    for _ in 0..maker.random.pick(&[5, 15, 15, 40, 100]) {
        let number = maker.some_card();
        step(&mut maker, number);
        if maker.random.percent(12) {
            jobs::step(&mut maker, number, jobs::Leaning::Anything);
        }
    }
    maker.look_at_all();
    maker.finish()
}

/// A few cycles that belong together, and mostly a look at what they did.
pub fn step(maker: &mut Maker, number: usize) {
    let address = address(maker, number);
    match maker.random.below(24) {
        20..=23 => across(maker, number),
        0..=4 => write(maker, number, address),
        5..=8 => wipe(maker, number, address),
        9 => idents(maker, number),
        10 => jobs::waits(maker, number),
        11 => low_supply(maker, number, address),
        12 => protected(maker, number, address),
        13 | 14 => slot_calls(maker, number),
        _ => loose_cycles(maker, number, address),
    }
    if maker.random.percent(60) {
        reads(maker, number, address);
    }
    if maker.random.percent(30) {
        maker.look_at(number);
    }
}

/// An address: mostly one that finds a word, also over its wrapped spellings.
fn address(maker: &mut Maker, number: usize) -> u64 {
    let capacity = maker.cards[number].card_capacity();
    let place = match maker.random.below(12) {
        0 => capacity.saturating_sub(1),
        1 => capacity.saturating_sub(2),
        2..=5 => maker.random.below(capacity) & !1,
        _ => maker.random.below(capacity),
    };
    let full = maker.cards[number].full_capacity();
    let last_wrap = (0xFFFF_FFFF - place) / full * full;
    match maker.random.below(32) {
        0 => place + (1 << 25),
        1 => place + (127 << 25),
        2 => place + full,
        3 => place + full * maker.random.from_to(1, 1000),
        4 => place + last_wrap,
        5 => maker.edge(),
        6 => capacity + maker.random.below(4),
        _ => place,
    }
}

fn raw_write(maker: &mut Maker, number: usize, width: &str, address: u64, value: u64) {
    let name = maker.name(number);
    let address = maker.number(address & 0xFFFF_FFFF);
    // The slot's own word cycle is the raw one, where it is accepted.
    let call = if width == "word" && maker.random.percent(20) {
        "slot"
    } else {
        "raw"
    };
    if call == "slot" {
        maker.line(&format!("slot {name} write {address} 0x{value:04X}"));
    } else {
        maker.line(&format!("raw {name} {width} write {address} 0x{value:04X}"));
    }
}

fn raw_read(maker: &mut Maker, number: usize, width: &str, address: u64) {
    let name = maker.name(number);
    let address = maker.number(address & 0xFFFF_FFFF);
    if width == "word" && maker.random.percent(20) {
        maker.line(&format!("slot {name} read {address}"));
    } else {
        maker.line(&format!("raw {name} {width} read {address}"));
    }
}

fn both(byte: u8) -> u64 {
    u64::from(byte) * 0x101
}

/// A command for both halves, mostly the same.
fn commands(maker: &mut Maker) -> u64 {
    let low = command(maker);
    let high = if maker.random.percent(60) { low } else { command(maker) };
    u64::from(high) << 8 | u64::from(low)
}

fn command(maker: &mut Maker) -> u8 {
    if maker.random.percent(85) {
        maker.random.pick(&COMMANDS)
    } else {
        maker.random.byte()
    }
}

fn width(maker: &mut Maker) -> &'static str {
    maker.random.pick(&WIDTHS)
}

/// Reads that show status, codes or contents; each may lower waits.
fn reads(maker: &mut Maker, number: usize, address: u64) {
    let name = maker.name(number);
    for _ in 0..maker.random.from_to(1, 4) {
        let near = match maker.random.below(6) {
            0 => self_or_other(maker, number, address),
            1 => address ^ 2,
            2 => address ^ 1,
            _ => address,
        };
        let width = width(maker);
        raw_read(maker, number, width, near);
    }
    if maker.random.percent(25) {
        maker.line(&format!("slot {name} sample"));
    }
    if maker.random.percent(35) {
        let value = maker.random.pick(&[0xFFFF, 0xFFFF, 0x5050, 0x7070]);
        let width = width(maker);
        raw_write(maker, number, width, address, value);
        raw_read(maker, number, "word", address);
    }
}

fn self_or_other(maker: &mut Maker, number: usize, place: u64) -> u64 {
    if maker.random.percent(50) {
        place
    } else {
        address(maker, number)
    }
}

fn write(maker: &mut Maker, number: usize, address: u64) {
    let width = width(maker);
    let armed = maker.random.pick(&[0x4040, 0x1010, 0x4010, 0x1040, 0x40FF, 0xFF40]);
    raw_write(maker, number, width, address, armed);
    if maker.random.percent(15) {
        raw_read(maker, number, "word", address);
    }
    let to = if maker.random.percent(85) {
        address
    } else {
        self_or_other(maker, number, address)
    };
    let data = maker.random.next() & maker.random.pick(&[0xFFFF, 0xFFFF, 0x00FF, 0xFF00, 0x0F0F]);
    raw_write(maker, number, width, to, data);
    settle(maker, number, address);
}

fn wipe(maker: &mut Maker, number: usize, address: u64) {
    let width = width(maker);
    raw_write(maker, number, width, address, 0x2020);
    let to = if maker.random.percent(85) {
        address
    } else {
        self_or_other(maker, number, address)
    };
    let confirmed = maker
        .random
        .pick(&[0xD0D0, 0xD0D0, 0xD0D0, 0xD0D0, 0xD012, 0x12D0, 0xFFFF, 0x2020]);
    raw_write(maker, number, width, to, confirmed);
    settle(maker, number, address);
}

/// What may follow a job: nothing, reads of status, samples, or bytes while it is busy.
fn settle(maker: &mut Maker, number: usize, address: u64) {
    let name = maker.name(number);
    match maker.random.below(6) {
        0 => {
            for _ in 0..maker.random.from_to(1, 8) {
                raw_read(maker, number, "word", address);
            }
        }
        1 => {
            for _ in 0..maker.random.from_to(1, 8) {
                maker.line(&format!("slot {name} sample"));
            }
        }
        2 => {
            let command = commands(maker);
            raw_write(maker, number, "word", address, command);
            raw_read(maker, number, "word", address);
        }
        3 => {
            raw_read(maker, number, "byte", address);
            raw_read(maker, number, "odd", address);
            raw_read(maker, number, "word", address);
        }
        _ => {}
    }
}

fn idents(maker: &mut Maker, number: usize) {
    let address = address(maker, number);
    let width = width(maker);
    raw_write(maker, number, width, address, both(0x90));
    for step in 0..4 {
        raw_read(maker, number, "word", address + step);
    }
    raw_read(maker, number, "byte", address + 2);
    raw_read(maker, number, "odd", address + 3);
}

fn low_supply(maker: &mut Maker, number: usize, address: u64) {
    let name = maker.name(number);
    maker.line(&format!("supply {name} low"));
    if maker.random.percent(50) {
        write(maker, number, address);
    } else {
        wipe(maker, number, address);
    }
    reads(maker, number, address);
    if maker.random.percent(85) {
        maker.line(&format!("supply {name} good"));
    }
    // Bit 3 stands until it is cleared.
    write(maker, number, address);
    reads(maker, number, address);
    if maker.random.percent(50) {
        raw_write(maker, number, "word", address, both(0x50));
        write(maker, number, address);
    }
}

fn protected(maker: &mut Maker, number: usize, address: u64) {
    let name = maker.name(number);
    if maker.random.percent(50) {
        raw_write(maker, number, "word", address, both(0x40));
    }
    maker.line(&format!("lock {name} on"));
    maker.line(&format!("slot {name} pin"));
    write(maker, number, address);
    reads(maker, number, address);
    if maker.random.percent(90) {
        maker.line(&format!("lock {name} off"));
    }
    reads(maker, number, address);
}

fn slot_calls(maker: &mut Maker, number: usize) {
    let name = maker.name(number);
    for _ in 0..maker.random.from_to(1, 4) {
        let place = address(maker, number) & 0xFFFF_FFFF;
        let value = commands(maker);
        let line = match maker.random.below(9) {
            0 => format!("slot {name} size"),
            1 | 2 => format!("slot {name} sample"),
            3 => format!("slot {name} reset"),
            4 => format!("slot {name} pin"),
            5 | 6 => format!("slot {name} read {place}"),
            _ => format!("slot {name} write {place} {value}"),
        };
        maker.line(&line);
    }
}

fn loose_cycles(maker: &mut Maker, number: usize, place: u64) {
    for _ in 0..maker.random.from_to(1, 6) {
        let at = self_or_other(maker, number, place);
        let width = width(maker);
        if maker.random.percent(60) {
            let value = if maker.random.percent(80) {
                commands(maker)
            } else {
                maker.random.next() & 0xFFFF
            };
            raw_write(maker, number, width, at, value);
        } else {
            raw_read(maker, number, width, at);
        }
    }
}

/// Brings devices of some pairs to different modes, makes one call of the medium or the writer,
/// and looks at what it left of the devices.
fn across(maker: &mut Maker, number: usize) {
    let known = &maker.cards[number];
    let pair_size = known.block_size * known.blocks_per_pair;
    let pairs = (known.card_capacity() / pair_size).min(4);
    for pair in 0..pairs {
        bring(maker, number, pair * pair_size);
    }
    let call = call(maker, number);
    let name = maker.name(number);
    let (command, words) = call.split_once(' ').unwrap_or((&call, ""));
    let locked = maker.random.percent(15);
    if locked {
        maker.line(&format!("lock {name} on"));
    }
    maker.line(format!("{command} {name} {words}").trim_end());
    if locked {
        maker.line(&format!("lock {name} off"));
    }
    let makes_buffer = ["put", "plan", "clear"].iter().any(|word| call.starts_with(word));
    maker.cards[number].has_buffer |= makes_buffer;
    for pair in 0..pairs {
        let place = pair * pair_size;
        raw_read(maker, number, "word", place);
        raw_read(maker, number, "word", place + pair_size - 2);
    }
    maker.line(&format!("slot {name} sample"));
}

/// Brings the devices of one pair to some mode, or has them busy.
fn bring(maker: &mut Maker, number: usize, place: u64) {
    let width = width(maker);
    let sent: &[u64] = match maker.random.below(8) {
        0 => &[],
        1 => &[0x9090],
        2 => &[0x7070],
        3 => &[0x4040],
        4 => &[0x2020],
        5 => &[0x2020, 0x1212],
        6 => &[0x4040, 0xFFFF],
        _ => &[0x7070, 0x9090],
    };
    for value in sent {
        raw_write(maker, number, width, place, *value);
    }
}

/// A call, without its name: accepted or refused by each of its tests.
fn call(maker: &mut Maker, number: usize) -> String {
    let known = &maker.cards[number];
    let (capacity, block_size) = (known.seen().1, known.block_size);
    let blocks = capacity / block_size;
    let last = capacity.saturating_sub(2);
    match maker.random.below(24) {
        0 | 1 => "take 0 0".into(),
        2 => format!("take {capacity} 0"),
        3 => format!("take {capacity} 1"),
        4 => format!("take {last} 2"),
        5 => "put 0 -".into(),
        6 => format!("put {capacity} -"),
        7 => format!("put {capacity} 00"),
        8 => "put 0 00 1".into(),
        9 => "put 0 FF".into(),
        10 => format!("put {last} 0000"),
        11 => "plan 0 -".into(),
        12 => "plan 0 00".into(),
        13 => format!("plan {last} FFFF 1"),
        14 => "clear 0 0".into(),
        15 => format!("clear {blocks} 0"),
        16 => format!("clear {blocks} 1"),
        17 => format!("clear {} 1", blocks.saturating_sub(1)),
        18 => format!("word {} 0", last + 1),
        19 => "word 1 0".into(),
        20 => format!("word {last} 0xFFFF"),
        21 => format!("wipe {blocks}"),
        22 => format!("wipe {}", blocks.saturating_sub(1)),
        _ => "show".into(),
    }
}
