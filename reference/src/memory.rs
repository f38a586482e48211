//! The memory card: a medium in plain memory, with a lock switch and a supply switch.

use crate::fault::{Fault, Lanes};
use crate::held::{Held, Side};

pub struct MemoryCard {
    pub held: Held,
    pub locked: bool,
    pub low_supply: bool,
}

impl MemoryCard {
    pub fn new(held: Held) -> MemoryCard {
        MemoryCard {
            held,
            locked: false,
            low_supply: false,
        }
    }

    pub fn read(&self, place: u64, length: u64) -> Result<Vec<u8>, Fault> {
        if place + length > self.held.capacity() {
            return Err(Fault::off_the_card(place));
        }
        Ok((place..place + length).map(|at| self.held.byte(at)).collect())
    }

    pub fn write_word(&mut self, place: u64, word: u16) -> Result<(), Fault> {
        if place + 2 > self.held.capacity() {
            return Err(Fault::off_the_card(place));
        }
        if place % 2 == 1 {
            return Err(Fault::odd_place(place));
        }
        self.test_switches(place)?;
        let [low, high] = word.to_le_bytes();
        let even = self.held.write_lane(place, low);
        let odd = self.held.write_lane(place + 1, high);
        answer(place, even, odd)
    }

    /// A worn lane leaves its bytes as they were.
    pub fn wipe(&mut self, block: u64) -> Result<(), Fault> {
        let place = block * self.held.block_size();
        if block >= self.held.blocks() {
            return Err(Fault::off_the_card(place));
        }
        self.test_switches(place)?;
        let even = self.held.wipe_lane(block, Side::Even);
        let odd = self.held.wipe_lane(block, Side::Odd);
        answer(place, even, odd)
    }

    fn test_switches(&self, place: u64) -> Result<(), Fault> {
        if self.locked {
            Err(Fault::locked(place))
        } else if self.low_supply {
            Err(Fault::low_supply(place))
        } else {
            Ok(())
        }
    }
}

/// The answer of a begun job, by which of its lanes had lives.
fn answer(place: u64, even_alive: bool, odd_alive: bool) -> Result<(), Fault> {
    match Lanes::named(!even_alive, !odd_alive) {
        Some(worn) => Err(Fault::worn(place, worn)),
        None => Ok(()),
    }
}
