//! A block size, blocks to a device pair, and pairs, all within the limits.

use crate::fault::Fault;

#[derive(Clone, Copy, PartialEq, Eq, Debug)]
pub struct Geometry {
    pub block_size: u64,
    pub blocks_per_pair: u64,
    pub pairs: u64,
}

impl Geometry {
    pub fn new(block_size: u64, blocks_per_pair: u64, pairs: u64) -> Result<Geometry, Fault> {
        let block_sizes: Vec<u64> = (1..=17).map(|power| 1 << power).collect();
        let within =
            block_sizes.contains(&block_size) && (1..=16).contains(&blocks_per_pair) && (1..=10).contains(&pairs);
        if within {
            Ok(Geometry {
                block_size,
                blocks_per_pair,
                pairs,
            })
        } else {
            Err(Fault::no_such_geometry())
        }
    }

    pub fn capacity(&self) -> u64 {
        self.block_size * self.blocks_per_pair * self.pairs
    }
}
