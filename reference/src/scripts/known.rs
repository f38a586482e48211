//! What the maker of a script knows of a card that its script has made.

use crate::card::Kind;

#[derive(Clone, Copy)]
pub enum Over {
    Window { first: u64, count: u64 },
    Fence,
}

pub struct Known {
    pub name: String,
    pub kind: Kind,
    pub block_size: u64,
    pub blocks_per_pair: u64,
    pub pairs: u64,
    /// The card's own blocks; 0 for a card without blocks.
    pub blocks: u64,
    pub layers: Vec<Over>,
    /// A guess of the contents, as if every put had been done. Empty for a large card.
    pub guess: Vec<u8>,
    pub has_buffer: bool,
    pub locked: bool,
    pub low: bool,
    pub longest_wait: u64,
}

impl Known {
    pub fn is_simulated(&self) -> bool {
        self.kind != Kind::Memory
    }

    pub fn card_capacity(&self) -> u64 {
        self.block_size * self.blocks
    }

    /// The capacity that the geometry asks for.
    pub fn full_capacity(&self) -> u64 {
        self.block_size * self.blocks_per_pair * self.pairs
    }

    /// First block and number of blocks, as seen through so many layers.
    pub fn run_through(&self, layers: usize) -> (u64, u64) {
        let mut run = (0, self.blocks);
        for layer in &self.layers[..layers] {
            if let Over::Window { first, count } = layer {
                run = if first + count <= run.1 {
                    (run.0 + first, *count)
                } else {
                    (0, 0)
                };
            }
        }
        run
    }

    /// First place on the card and capacity, as seen from the top.
    pub fn seen(&self) -> (u64, u64) {
        let (first, count) = self.run_through(self.layers.len());
        (first * self.block_size, count * self.block_size)
    }

    /// The blocks of the topmost fence.
    pub fn fence_blocks(&self) -> Option<u64> {
        let fence = self.layers.iter().rposition(|layer| matches!(layer, Over::Fence))?;
        Some(self.run_through(fence).1)
    }

    /// The guess of the bytes from a place seen from the top on.
    pub fn guessed(&self, place: u64, length: u64) -> Vec<u8> {
        let base = self.seen().0;
        let at = |place: u64| self.guess.get((base + place) as usize).copied().unwrap_or(0xFF);
        (place..place + length).map(at).collect()
    }

    pub fn suppose(&mut self, place: u64, bytes: &[u8]) {
        let base = self.seen().0;
        for (at, byte) in (base + place..).zip(bytes) {
            if let Some(held) = self.guess.get_mut(at as usize) {
                *held = *byte;
            }
        }
    }
}
