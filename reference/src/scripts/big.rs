//! Scripts on cards as large as the real ones.

use super::maker::Maker;
use crate::card::Kind;
use crate::random::Random;

pub fn script(random: Random) -> String {
    let mut maker = Maker::new(random);
    let kind = maker.random.pick(&[Kind::Memory, Kind::Series2, Kind::Series100]);
    let block_size = maker.random.pick(&[131_072, 131_072, 65_536, 8_192]);
    let pairs = maker.random.pick(&[1, 2, 5, 10]);
    maker.new_card_sized(kind, block_size, 16, pairs);
    if maker.random.percent(30) {
        maker.lay(0);
    }
    let name = maker.name(0);
    for _ in 0..12 {
        let block = maker.block(16 * pairs);
        maker.line(&format!("lives {name} {block} both 100000"));
        step(&mut maker, block);
    }
    maker.line(&format!("show {name}"));
    maker.finish()
}

fn step(maker: &mut Maker, block: u64) {
    let name = maker.name(0);
    let block_size = maker.cards[0].block_size;
    let full = maker.cards[0].full_capacity();
    let border = (block * block_size).min(0xFFFF_FFFF);
    let near = border.saturating_sub(maker.random.below(9));
    let length = maker.random.from_to(1, 20);
    let bytes = maker.bytes(length);
    let hex = maker.hex(&bytes);
    let line = match maker.random.below(14) {
        0..=2 => format!("put {name} {near} {hex}"),
        3 => format!("put {name} {border} @many.bin"),
        4 => format!("plan {name} {near} {hex}"),
        5 => format!("clear {name} {block} {}", maker.random.below(3)),
        6 => format!("wipe {name} {block}"),
        7 => format!("word {name} {} 0x1234", near & !1),
        8 => format!("raw {name} word read {}", full - 1 + maker.random.below(3)),
        9 => format!(
            "raw {name} word write {near} 0x4040\nraw {name} word write {near} 0xF0F0\nraw {name} word read {near}"
        ),
        10 => format!(
            "raw {name} word write {near} 0x9090\nraw {name} byte read {}",
            near + (1 << 25)
        ),
        11 => format!("raw {name} odd read {}", near + full),
        12 => format!("slot {name} read {}", full - 2),
        _ => format!("slot {name} sample"),
    };
    maker.line(&line);
    maker.line(&format!("take {name} {near} 24"));
    maker.line(&format!("take {name} {} 16", full - 16));
}
