//! The bytes and the lives that a card holds, lane by lane, as what differs from the ground.

use crate::geometry::Geometry;
use std::collections::BTreeMap;

#[derive(Clone, Copy, PartialEq, Eq, PartialOrd, Ord, Debug)]
pub enum Side {
    Even,
    Odd,
}

impl Side {
    pub const BOTH: [Side; 2] = [Side::Even, Side::Odd];

    pub fn of(place: u64) -> Side {
        if place % 2 == 0 { Side::Even } else { Side::Odd }
    }

    /// The place of this side's byte in the word at an even place.
    pub fn place_in(self, word: u64) -> u64 {
        match self {
            Side::Even => word,
            Side::Odd => word + 1,
        }
    }
}

/// What a lane holds where nothing was written since.
#[derive(Clone, Copy, Default)]
enum Ground {
    /// The card's first contents.
    #[default]
    First,
    /// One byte throughout: the lane was wiped.
    Plain(u8),
}

/// One lane of one block. A lane that nothing ever happened to is not kept.
#[derive(Clone, Default)]
struct Lane {
    ground: Ground,
    /// Bytes that differ from the ground, by their place on the card.
    differing: BTreeMap<u64, u8>,
    lives: u32,
}

pub struct Held {
    block_size: u64,
    blocks: u64,
    /// The first contents, repeated over the whole card; no longer than it.
    pattern: Vec<u8>,
    lanes: BTreeMap<(u64, Side), Lane>,
}

impl Held {
    /// Holds `pattern` repeated; without blocks if `length` is not the capacity.
    pub fn new(geometry: Geometry, mut pattern: Vec<u8>, length: u64) -> Held {
        let whole = length == geometry.capacity() && !pattern.is_empty();
        let blocks = if whole {
            geometry.blocks_per_pair * geometry.pairs
        } else {
            0
        };
        pattern.truncate((blocks * geometry.block_size) as usize);
        pattern.shrink_to_fit();
        Held {
            block_size: geometry.block_size,
            blocks,
            pattern,
            lanes: BTreeMap::new(),
        }
    }

    pub fn block_size(&self) -> u64 {
        self.block_size
    }

    pub fn blocks(&self) -> u64 {
        self.blocks
    }

    pub fn capacity(&self) -> u64 {
        self.block_size * self.blocks
    }

    fn key(&self, place: u64) -> (u64, Side) {
        (place / self.block_size, Side::of(place))
    }

    fn first_byte(&self, place: u64) -> u8 {
        self.pattern[(place % self.pattern.len() as u64) as usize]
    }

    pub fn byte(&self, place: u64) -> u8 {
        match self.lanes.get(&self.key(place)) {
            None => self.first_byte(place),
            Some(lane) => match (lane.differing.get(&place), lane.ground) {
                (Some(byte), _) => *byte,
                (None, Ground::Plain(byte)) => byte,
                (None, Ground::First) => self.first_byte(place),
            },
        }
    }

    fn set_byte(&mut self, place: u64, byte: u8) {
        let first = self.first_byte(place);
        let key = self.key(place);
        let lane = self.lanes.entry(key).or_default();
        let ground = match lane.ground {
            Ground::First => first,
            Ground::Plain(plain) => plain,
        };
        if byte == ground {
            lane.differing.remove(&place);
        } else {
            lane.differing.insert(place, byte);
        }
    }

    /// Turns every byte of a lane to one byte.
    pub fn fill_lane(&mut self, block: u64, side: Side, byte: u8) {
        let lane = self.lanes.entry((block, side)).or_default();
        lane.ground = Ground::Plain(byte);
        lane.differing.clear();
    }

    pub fn lives(&self, block: u64, side: Side) -> u32 {
        self.lanes.get(&(block, side)).map_or(0, |lane| lane.lives)
    }

    pub fn set_lives(&mut self, block: u64, side: Side, count: u32) {
        self.lanes.entry((block, side)).or_default().lives = count;
    }

    /// Takes a life from a lane; says whether it had one.
    fn lose_life(&mut self, block: u64, side: Side) -> bool {
        match self.lanes.get_mut(&(block, side)) {
            Some(lane) if lane.lives > 0 => {
                lane.lives -= 1;
                true
            }
            _ => false,
        }
    }

    /// A lane's part of a word write. A worn lane keeps its byte. Says whether it had lives.
    pub fn write_lane(&mut self, place: u64, asked: u8) -> bool {
        let (block, side) = self.key(place);
        let alive = self.lose_life(block, side);
        if alive {
            let old = self.byte(place);
            self.set_byte(place, old & asked);
        }
        alive
    }

    /// A lane's part of a wipe. Says whether it had lives; a worn lane is left to the card.
    pub fn wipe_lane(&mut self, block: u64, side: Side) -> bool {
        let alive = self.lose_life(block, side);
        if alive {
            self.fill_lane(block, side, 0xFF);
        }
        alive
    }
}
