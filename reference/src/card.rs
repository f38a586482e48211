//! A card of any kind, as a medium and by its own calls.

use crate::driver;
use crate::fault::{Fault, Lanes};
use crate::geometry::Geometry;
use crate::held::{Held, Side};
use crate::memory::MemoryCard;
use crate::simulated::{Series, SimulatedCard};
use crate::slot::Slot;

#[derive(Clone, Copy, PartialEq, Eq, Debug)]
pub enum Kind {
    Memory,
    Series2,
    Series100,
}

pub enum Card {
    Memory(MemoryCard),
    Simulated(SimulatedCard),
}

impl Card {
    pub fn new(kind: Kind, geometry: Geometry, pattern: Vec<u8>, length: u64) -> Card {
        let held = Held::new(geometry, pattern, length);
        let simulated = |series, held| Card::Simulated(SimulatedCard::new(series, geometry, held));
        match kind {
            Kind::Memory => Card::Memory(MemoryCard::new(held)),
            Kind::Series2 => simulated(Series::Two, held),
            Kind::Series100 => simulated(Series::Hundred, held),
        }
    }

    pub fn held(&self) -> &Held {
        match self {
            Card::Memory(card) => &card.held,
            Card::Simulated(card) => &card.held,
        }
    }

    fn held_mut(&mut self) -> &mut Held {
        match self {
            Card::Memory(card) => &mut card.held,
            Card::Simulated(card) => &mut card.held,
        }
    }

    /// Whether all its blocks are locked: by the lock switch, or by the pin.
    pub fn is_locked(&self) -> bool {
        match self {
            Card::Memory(card) => card.locked,
            Card::Simulated(card) => card.pin(),
        }
    }

    pub fn supply_is_low(&self) -> bool {
        match self {
            Card::Memory(card) => card.low_supply,
            Card::Simulated(card) => card.low_supply,
        }
    }

    pub fn read(&mut self, place: u64, length: u64) -> Result<Vec<u8>, Fault> {
        match self {
            Card::Memory(card) => card.read(place, length),
            Card::Simulated(card) => driver::read(card, place, length),
        }
    }

    pub fn write_word(&mut self, place: u64, word: u16) -> Result<(), Fault> {
        match self {
            Card::Memory(card) => card.write_word(place, word),
            Card::Simulated(card) => driver::write_word(card, place, word),
        }
    }

    pub fn wipe(&mut self, block: u64) -> Result<(), Fault> {
        match self {
            Card::Memory(card) => card.wipe(block),
            Card::Simulated(card) => driver::wipe(card, block),
        }
    }

    pub fn set_lives(&mut self, block: u64, lanes: Lanes, count: u32) -> Result<(), Fault> {
        let held = self.held_mut();
        if block >= held.blocks() {
            return Err(Fault::off_the_card(block * held.block_size()));
        }
        for side in Side::BOTH {
            let spared = match side {
                Side::Even => Lanes::Odd,
                Side::Odd => Lanes::Even,
            };
            if lanes != spared {
                held.set_lives(block, side, count);
            }
        }
        Ok(())
    }

    /// Moves the lock switch, or the protect switch. Says whether the card has one.
    pub fn set_lock(&mut self, on: bool) -> bool {
        match self {
            Card::Memory(card) => card.locked = on,
            Card::Simulated(card) if card.series == Series::Two => card.protect = on,
            Card::Simulated(_) => return false,
        }
        true
    }

    /// Moves the supply switch. Says whether the card has one.
    pub fn set_supply(&mut self, low: bool) -> bool {
        match self {
            Card::Memory(card) => card.low_supply = low,
            Card::Simulated(card) if card.series == Series::Two => card.low_supply = low,
            Card::Simulated(_) => return false,
        }
        true
    }

    /// The card behind its bus, if it is one.
    pub fn simulated(&mut self) -> Option<&mut SimulatedCard> {
        match self {
            Card::Memory(_) => None,
            Card::Simulated(card) => Some(card),
        }
    }
}
