//! A card with the layers over it. Every call goes down the layers, the topmost first.

use crate::card::Card;
use crate::fault::Fault;
use crate::held::Side;
use std::collections::BTreeSet;

pub enum Layer {
    Window { first: u64, count: u64 },
    Fence { marks: BTreeSet<u64> },
}

pub struct Pile {
    pub card: Card,
    /// The lowest layer first.
    pub layers: Vec<Layer>,
}

/// What a medium means of one block.
pub struct BlockMeaning {
    pub locked: bool,
    pub even_lives: u32,
    pub odd_lives: u32,
}

impl Pile {
    pub fn new(card: Card) -> Pile {
        Pile {
            card,
            layers: Vec::new(),
        }
    }

    pub fn block_size(&self) -> u64 {
        self.card.held().block_size()
    }

    pub fn blocks(&self) -> u64 {
        blocks(&self.card, &self.layers)
    }

    pub fn capacity(&self) -> u64 {
        self.block_size() * self.blocks()
    }

    pub fn read(&mut self, place: u64, length: u64) -> Result<Vec<u8>, Fault> {
        read(&mut self.card, &self.layers, place, length)
    }

    pub fn write_word(&mut self, place: u64, word: u16) -> Result<(), Fault> {
        write_word(&mut self.card, &self.layers, place, word)
    }

    pub fn wipe(&mut self, block: u64) -> Result<(), Fault> {
        wipe(&mut self.card, &self.layers, block)
    }

    pub fn block(&self, block: u64) -> BlockMeaning {
        meaning(&self.card, &self.layers, block)
    }

    /// The number of layers below the topmost fence, if there is a fence.
    pub fn topmost_fence(&self) -> Option<usize> {
        self.layers
            .iter()
            .rposition(|layer| matches!(layer, Layer::Fence { .. }))
    }

    /// Sets or clears a mark of the fence that lies on so many layers.
    pub fn mark(&mut self, fence: usize, block: u64, on: bool) -> Result<(), Fault> {
        if block >= blocks(&self.card, &self.layers[..fence]) {
            return Err(Fault::off_the_card(block * self.block_size()));
        }
        if let Layer::Fence { marks } = &mut self.layers[fence] {
            if on {
                marks.insert(block);
            } else {
                marks.remove(&block);
            }
        }
        Ok(())
    }
}

fn blocks(card: &Card, layers: &[Layer]) -> u64 {
    match layers.split_last() {
        None => card.held().blocks(),
        Some((Layer::Fence { .. }, below)) => blocks(card, below),
        Some((Layer::Window { first, count }, below)) => {
            let fits = first + count <= blocks(card, below);
            if fits { *count } else { 0 }
        }
    }
}

/// A window that does not fit shows no byte, so its empty read goes down to place 0.
fn base(card: &Card, below: &[Layer], first: u64, count: u64) -> u64 {
    let fits = first + count <= blocks(card, below);
    if fits { first * card.held().block_size() } else { 0 }
}

fn read(card: &mut Card, layers: &[Layer], place: u64, length: u64) -> Result<Vec<u8>, Fault> {
    match layers.split_last() {
        None => card.read(place, length),
        Some((Layer::Fence { .. }, below)) => read(card, below, place, length),
        Some((Layer::Window { first, count }, below)) => {
            if place + length > blocks(card, layers) * card.held().block_size() {
                return Err(Fault::off_the_card(place));
            }
            let base = base(card, below, *first, *count);
            read(card, below, base + place, length).map_err(|fault| fault.counted_from(base))
        }
    }
}

fn write_word(card: &mut Card, layers: &[Layer], place: u64, word: u16) -> Result<(), Fault> {
    let block_size = card.held().block_size();
    let on_card = place + 2 <= blocks(card, layers) * block_size;
    match layers.split_last() {
        None => card.write_word(place, word),
        Some((Layer::Fence { marks }, below)) => {
            if on_card && place % 2 == 0 && marks.contains(&(place / block_size)) {
                return Err(Fault::locked(place));
            }
            write_word(card, below, place, word)
        }
        Some((Layer::Window { first, count }, below)) => {
            if !on_card {
                return Err(Fault::off_the_card(place));
            }
            let base = base(card, below, *first, *count);
            write_word(card, below, base + place, word).map_err(|fault| fault.counted_from(base))
        }
    }
}

fn wipe(card: &mut Card, layers: &[Layer], block: u64) -> Result<(), Fault> {
    let block_size = card.held().block_size();
    let on_card = block < blocks(card, layers);
    match layers.split_last() {
        None => card.wipe(block),
        Some((Layer::Fence { marks }, below)) => {
            if on_card && marks.contains(&block) {
                return Err(Fault::locked(block * block_size));
            }
            wipe(card, below, block)
        }
        Some((Layer::Window { first, count }, below)) => {
            if !on_card {
                return Err(Fault::off_the_card(block * block_size));
            }
            let base = base(card, below, *first, *count);
            wipe(card, below, first + block).map_err(|fault| fault.counted_from(base))
        }
    }
}

/// What a block of the medium means; asked only of blocks that are there.
fn meaning(card: &Card, layers: &[Layer], block: u64) -> BlockMeaning {
    match layers.split_last() {
        None => BlockMeaning {
            locked: card.is_locked(),
            even_lives: card.held().lives(block, Side::Even),
            odd_lives: card.held().lives(block, Side::Odd),
        },
        Some((Layer::Fence { marks }, below)) => {
            let under = meaning(card, below, block);
            BlockMeaning {
                locked: under.locked || marks.contains(&block),
                ..under
            }
        }
        Some((Layer::Window { first, .. }, below)) => meaning(card, below, first + block),
    }
}
