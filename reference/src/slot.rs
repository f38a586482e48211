//! The calls of a slot: a card as it stands behind its bus.

use crate::fault::Fault;

#[derive(Clone, Copy, PartialEq, Eq, Debug)]
pub struct SlotSize {
    pub block_size: u64,
    pub blocks_per_pair: u64,
    pub pairs: u64,
}

impl SlotSize {
    pub fn blocks(&self) -> u64 {
        self.blocks_per_pair * self.pairs
    }

    pub fn capacity(&self) -> u64 {
        self.block_size * self.blocks()
    }
}

pub trait Slot {
    fn size(&self) -> SlotSize;
    fn read_word(&mut self, place: u64) -> Result<u16, Fault>;
    fn write_word(&mut self, place: u64, word: u16) -> Result<(), Fault>;
    /// Whether all waits are 0; each above 0 is then one lower.
    fn sample(&mut self) -> bool;
    fn reset(&mut self);
    fn pin(&self) -> bool;
}
