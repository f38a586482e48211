//! Scripts that count the longest waits out, sample by sample or read by read.

use super::maker::Maker;
use crate::card::Kind;
use crate::random::Random;

/// A little more than the longest wait.
const ENOUGH: u64 = 1_003;

pub fn script(random: Random) -> String {
    let mut maker = Maker::new(random);
    let kind = maker.random.pick(&[Kind::Series2, Kind::Series100]);
    maker.new_card_sized(kind, 4, 1, 2);
    let name = maker.name(0);
    let lives = maker.random.pick(&[0, 5, 5]);
    maker.line(&format!("lives {name} 0 both {lives}"));
    let write: u64 = maker.random.pick(&[998, 999, 1_000, 1_001, 0xFFFF_FFFF]);
    let wipe: u64 = maker.random.pick(&[998, 999, 1_000, 1_001, 0xFFFF_FFFF]);
    maker.line(&format!("waits {name} {write} {wipe}"));
    let (armed, sent) = maker
        .random
        .pick(&[(0x4040, 0x1234), (0x1010, 0xFF00), (0x2020, 0xD0D0)]);
    let width = maker.random.pick(&["word", "word", "byte", "odd"]);
    maker.line(&format!("raw {name} {width} write 0 {armed}"));
    maker.line(&format!("raw {name} {width} write 0 {sent}"));
    if maker.random.percent(50) {
        // A wait that is under way goes on as it is.
        maker.line(&format!("waits {name} 0 1"));
    }
    let samples = maker.random.pick(&[0, 50, 100]);
    let read = maker.random.pick(&["word", "byte", "odd"]);
    for _ in 0..ENOUGH {
        if maker.random.percent(samples) {
            maker.line(&format!("slot {name} sample"));
        } else {
            maker.line(&format!("raw {name} {read} read 0"));
        }
    }
    maker.line(&format!("slot {name} read 2"));
    maker.line(&format!("slot {name} sample"));
    maker.look_at_all();
    maker.finish()
}
