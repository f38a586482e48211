//! The Series 2 and the Series 100 card, down to their bus cycles.

use crate::device::{Device, PATIENCE, Shown, Tried};
use crate::fault::Fault;
use crate::geometry::Geometry;
use crate::held::{Held, Side};
use crate::slot::{Slot, SlotSize};
use std::collections::BTreeMap;

#[derive(Clone, Copy, PartialEq, Eq, Debug)]
pub enum Series {
    Two,
    Hundred,
}

/// The width of a bus cycle.
#[derive(Clone, Copy, PartialEq, Eq, Debug)]
pub enum Width {
    Word,
    Byte,
    OddByte,
}

/// Which device is reached over each half of the data bus.
struct Reach {
    low: Option<Side>,
    high: Option<Side>,
}

/// A half that is not driven.
const UNDRIVEN: u8 = 0xFF;

pub struct SimulatedCard {
    pub series: Series,
    geometry: Geometry,
    pub held: Held,
    /// Devices by pair and lane; one that is not here is as after reset.
    devices: BTreeMap<(u64, Side), Device>,
    pub protect: bool,
    pub low_supply: bool,
    write_wait: u32,
    wipe_wait: u32,
}

impl SimulatedCard {
    pub fn new(series: Series, geometry: Geometry, held: Held) -> SimulatedCard {
        SimulatedCard {
            series,
            geometry,
            held,
            devices: BTreeMap::new(),
            protect: false,
            low_supply: false,
            write_wait: 0,
            wipe_wait: 0,
        }
    }

    pub fn set_waits(&mut self, write: u32, wipe: u32) {
        self.write_wait = write.min(PATIENCE);
        self.wipe_wait = wipe.min(PATIENCE);
    }

    /// The even place of the word that an address finds, if it finds one.
    fn word_at(&self, address: u64) -> Option<u64> {
        let capacity = self.held.capacity();
        if capacity == 0 {
            return None;
        }
        let reduced = match self.series {
            Series::Two => address % (1 << 25),
            Series::Hundred => address % capacity,
        };
        if reduced < capacity {
            Some(reduced - reduced % 2)
        } else {
            None
        }
    }

    fn reach(&self, width: Width, address: u64) -> Reach {
        match (width, self.series) {
            (Width::Word, _) => Reach {
                low: Some(Side::Even),
                high: Some(Side::Odd),
            },
            (Width::Byte, Series::Two) => Reach {
                low: Some(Side::of(address)),
                high: None,
            },
            (Width::Byte, Series::Hundred) => Reach {
                low: Some(Side::Even),
                high: None,
            },
            (Width::OddByte, _) => Reach {
                low: None,
                high: Some(Side::Odd),
            },
        }
    }

    pub fn raw_read(&mut self, width: Width, address: u64) -> u16 {
        match self.word_at(address) {
            None => 0xFFFF,
            Some(word) => {
                let reach = self.reach(width, address);
                let low = self.shown_half(reach.low, word);
                let high = self.shown_half(reach.high, word);
                u16::from_le_bytes([low, high])
            }
        }
    }

    pub fn raw_write(&mut self, width: Width, address: u64, value: u16) {
        if self.pin() {
            return;
        }
        if let Some(word) = self.word_at(address) {
            let reach = self.reach(width, address);
            let [low, high] = value.to_le_bytes();
            self.send_half(reach.low, word, low);
            self.send_half(reach.high, word, high);
        }
    }

    fn shown_half(&mut self, side: Option<Side>, word: u64) -> u8 {
        match side {
            Some(side) => self.shown(side, word),
            None => UNDRIVEN,
        }
    }

    fn send_half(&mut self, side: Option<Side>, word: u64, byte: u8) {
        if let Some(side) = side {
            self.send(side, word, byte);
        }
    }

    fn pair_of(&self, place: u64) -> u64 {
        place / self.geometry.block_size / self.geometry.blocks_per_pair
    }

    /// What one device of the word's pair shows.
    fn shown(&mut self, side: Side, word: u64) -> u8 {
        let key = (self.pair_of(word), side);
        let shown = match self.devices.get_mut(&key) {
            Some(device) => device.read(),
            None => Device::default().read(),
        };
        match shown {
            Shown::Contents => self.held.byte(side.place_in(word)),
            Shown::Codes => [0x89, 0xA2][(word / 2 % 2) as usize],
            Shown::Status(status) => status,
        }
    }

    /// A byte reaches one device of the word's pair, with all that follows.
    fn send(&mut self, side: Side, word: u64, byte: u8) {
        let key = (self.pair_of(word), side);
        let mut device = self.devices.get(&key).copied().unwrap_or_default();
        match device.take(byte) {
            Tried::Nothing => {}
            Tried::Write(data) => {
                if device.may_begin(self.low_supply) {
                    let alive = self.held.write_lane(side.place_in(word), data);
                    device.wrote(alive, self.write_wait);
                }
            }
            Tried::Wipe => {
                if device.may_begin(self.low_supply) {
                    let alive = self.wipe_lane(word / self.geometry.block_size, side);
                    device.wiped(alive, self.wipe_wait);
                }
            }
        }
        self.devices.insert(key, device);
    }

    /// A worn lane is left at 00H throughout.
    fn wipe_lane(&mut self, block: u64, side: Side) -> bool {
        let alive = self.held.wipe_lane(block, side);
        if !alive {
            self.held.fill_lane(block, side, 0x00);
        }
        alive
    }

    fn test_word(&self, place: u64) -> Result<(), Fault> {
        if place + 2 > self.held.capacity() {
            Err(Fault::off_the_card(place))
        } else if place % 2 == 1 {
            Err(Fault::odd_place(place))
        } else {
            Ok(())
        }
    }
}

impl Slot for SimulatedCard {
    fn size(&self) -> SlotSize {
        SlotSize {
            block_size: self.geometry.block_size,
            blocks_per_pair: self.geometry.blocks_per_pair,
            pairs: if self.held.blocks() == 0 {
                0
            } else {
                self.geometry.pairs
            },
        }
    }

    fn read_word(&mut self, place: u64) -> Result<u16, Fault> {
        self.test_word(place)?;
        let low = self.shown(Side::Even, place);
        let high = self.shown(Side::Odd, place);
        Ok(u16::from_le_bytes([low, high]))
    }

    fn write_word(&mut self, place: u64, word: u16) -> Result<(), Fault> {
        self.test_word(place)?;
        if !self.pin() {
            let [low, high] = word.to_le_bytes();
            self.send(Side::Even, place, low);
            self.send(Side::Odd, place, high);
        }
        Ok(())
    }

    fn sample(&mut self) -> bool {
        let ready = self.devices.values().all(Device::is_ready);
        self.devices.values_mut().for_each(Device::lower_wait);
        ready
    }

    fn reset(&mut self) {
        self.devices.clear();
    }

    fn pin(&self) -> bool {
        self.protect
    }
}
