//! The maker of a script: the text so far, and the cards that it has made.

use super::known::{Known, Over};
use crate::card::Kind;
use crate::random::Random;

/// Contents are guessed only of cards up to this capacity.
const GUESSED: u64 = 16_384;

/// Numbers at which something ends.
const EDGES: [u64; 16] = [
    0xFFFF_FFFF,
    0xFFFF_FFFE,
    0xFFFF_FFFD,
    0x8000_0000,
    0x7FFF_FFFF,
    0xFFFF,
    0x1_0000,
    0x1FF_FFFE,
    0x1FF_FFFF,
    0x200_0000,
    0x200_0001,
    0x200_0002,
    20_971_518,
    20_971_519,
    20_971_520,
    131_072,
];

pub struct Maker {
    pub random: Random,
    pub cards: Vec<Known>,
    pub text: String,
    /// Whether lines are sometimes spelled with tabs, comments and the like.
    pub ornate: bool,
}

impl Maker {
    pub fn new(mut random: Random) -> Maker {
        let ornate = random.percent(30);
        Maker {
            random,
            cards: Vec::new(),
            text: String::new(),
            ornate,
        }
    }

    /// The script. Some end without a line end, some have a carriage return in every line.
    pub fn finish(mut self) -> String {
        if self.random.percent(5) {
            self.text = self.text.replace("\r\n", "\n").replace('\n', "\r\n");
        }
        if self.random.percent(10) {
            self.text.truncate(self.text.trim_end().len());
        }
        self.text
    }

    pub fn line(&mut self, words: &str) {
        if self.ornate && self.random.percent(15) {
            self.ornate_line(words);
        } else {
            self.text.push_str(words);
            self.text.push('\n');
        }
    }

    fn ornate_line(&mut self, words: &str) {
        let spelled = match self.random.below(8) {
            0 => format!("  {words}"),
            1 => format!("{words} \t "),
            2 => words.replace(' ', "\t"),
            3 => words.replace(' ', "   "),
            4 => format!("{words}# as asked"),
            5 => format!("{words} # put {words} # and more"),
            6 => format!("# {words}\n\n \t\n{words}"),
            _ => format!("\t{words}\r"),
        };
        self.text.push_str(&spelled);
        self.text.push('\n');
    }

    /// A number, spelled in one of the ways there are.
    pub fn number(&mut self, value: u64) -> String {
        match self.random.below(40) {
            0 | 1 => format!("0x{value:X}"),
            2 | 3 => format!("0x{value:x}"),
            4 => format!("000{value}"),
            5 => format!("0x0000000000{value:X}"),
            _ => value.to_string(),
        }
    }

    pub fn hex(&mut self, bytes: &[u8]) -> String {
        if bytes.is_empty() {
            return "-".into();
        }
        let small = self.random.percent(20);
        bytes
            .iter()
            .map(|byte| {
                if small {
                    format!("{byte:02x}")
                } else {
                    format!("{byte:02X}")
                }
            })
            .collect()
    }

    pub fn bytes(&mut self, length: u64) -> Vec<u8> {
        (0..length).map(|_| self.random.byte()).collect()
    }

    /// A number at or near one where something ends.
    pub fn edge(&mut self) -> u64 {
        self.random.pick(&EDGES)
    }

    /// One of the cards, mostly one that shows some blocks.
    pub fn some_card(&mut self) -> usize {
        let number = self.random.below(self.cards.len() as u64) as usize;
        if self.seen_blocks(number) > 0 || self.random.percent(20) {
            return number;
        }
        let full = (0..self.cards.len()).find(|other| self.seen_blocks(*other) > 0);
        match full {
            Some(other) => other,
            None if self.cards.len() < 5 => {
                self.new_card();
                self.cards.len() - 1
            }
            None => number,
        }
    }

    pub fn name(&self, number: usize) -> String {
        self.cards[number].name.clone()
    }

    fn new_name(&mut self) -> String {
        const NAMES: [&str; 12] = [
            "a", "b", "c", "card", "-", "0x12", "@few.bin", "Karte", "ä", "on", "x=1", "a.b",
        ];
        let plain = format!("c{}", self.cards.len());
        let fancy = self.random.pick(&NAMES).to_string();
        let taken = self.cards.iter().any(|card| card.name == fancy);
        if taken || self.random.percent(70) { plain } else { fancy }
    }

    pub fn new_card(&mut self) {
        let kind = self
            .random
            .pick(&[Kind::Memory, Kind::Series2, Kind::Series2, Kind::Series100]);
        self.new_card_of(kind);
    }

    pub fn new_card_of(&mut self, kind: Kind) {
        let block_size = self.random.pick(&[2, 2, 4, 4, 4, 8, 8, 16, 32, 64]);
        let blocks_per_pair = self.random.pick(&[1, 1, 2, 2, 3, 4, 5, 16]);
        let pairs = self.random.pick(&[1, 1, 2, 2, 3, 10]);
        if self.random.percent(10) {
            self.refused_geometry();
        }
        self.new_card_sized(kind, block_size, blocks_per_pair, pairs);
        self.give_lives(self.cards.len() - 1);
    }

    /// A card line that answers fault 7.
    fn refused_geometry(&mut self) {
        let sizes: [(u64, u64, u64); 12] = [
            (3, 1, 1),
            (0, 1, 1),
            (1, 1, 1),
            (262_144, 1, 1),
            (4, 0, 1),
            (4, 17, 1),
            (4, 1, 0),
            (4, 1, 11),
            (0xFFFF_FFFF, 0xFFFF_FFFF, 0xFFFF_FFFF),
            (6, 2, 2),
            (65_535, 16, 10),
            (0x8000_0000, 1, 1),
        ];
        let (block_size, to_pair, pairs) = self.random.pick(&sizes);
        let kind = self.random.pick(&["memory", "series2", "series100"]);
        self.line(&format!("card refused {kind} {block_size} {to_pair} {pairs}"));
        if self.random.percent(30) {
            self.line("show refused");
        }
    }

    pub fn new_card_sized(&mut self, kind: Kind, block_size: u64, blocks_per_pair: u64, pairs: u64) {
        let name = self.new_name();
        let word = match kind {
            Kind::Memory => "memory",
            Kind::Series2 => "series2",
            Kind::Series100 => "series100",
        };
        let mut line = format!("card {name} {word} {block_size} {blocks_per_pair} {pairs}");
        let capacity = block_size * blocks_per_pair * pairs;
        let mut pattern = vec![0xFF];
        let mut length = capacity;
        if self.random.percent(60) {
            pattern = self.contents(capacity);
            line += &format!(" {}", self.hex(&pattern));
            if self.random.percent(20) {
                length = self.length(capacity);
                line += &format!(" {}", self.number(length));
            }
        }
        self.line(&line);
        let blocks = if length == capacity { blocks_per_pair * pairs } else { 0 };
        let guessed = if capacity <= GUESSED && blocks > 0 { capacity } else { 0 };
        let guess = pattern.iter().copied().cycle().take(guessed as usize).collect();
        self.cards.push(Known {
            name,
            kind,
            block_size,
            blocks_per_pair,
            pairs,
            blocks,
            layers: Vec::new(),
            guess,
            has_buffer: false,
            locked: false,
            low: false,
            longest_wait: 0,
        });
    }

    fn contents(&mut self, capacity: u64) -> Vec<u8> {
        match self.random.below(8) {
            0 => vec![0x00],
            1 | 2 => vec![0xFF],
            3 => {
                let length = self.random.from_to(1, 9);
                self.bytes(length)
            }
            4 => self.bytes(capacity.min(512)),
            5 => self.bytes(capacity.min(64) + 3),
            6 => vec![0xFF, 0xFF, 0x0F, 0xF0, 0x55],
            _ => vec![0xFF, 0x00],
        }
    }

    /// The length of a byte array: the capacity, or one that makes a card without blocks.
    fn length(&mut self, capacity: u64) -> u64 {
        match self.random.below(16) {
            0 => 0,
            1 => capacity - 1,
            2 => capacity + 1,
            3 => 0xFFFF_FFFF,
            4 => capacity / 2,
            5 => capacity * 2,
            _ => capacity,
        }
    }

    /// Gives most lanes of a new card lives.
    fn give_lives(&mut self, number: usize) {
        let blocks = self.cards[number].blocks;
        let style = self.random.below(16);
        if style == 0 || blocks == 0 {
            return;
        }
        let name = self.name(number);
        for block in 0..blocks.min(48) {
            let count = match style {
                1 => self.random.below(4),
                2 => self.random.from_to(1, 9),
                3 => self.random.pick(&[0, 1, 2, 5, 100]),
                4 => self.random.pick(&[0xFFFF_FFFF, 0xFFFF_FFFE, 1000]),
                _ => self.random.from_to(40, 200),
            };
            let lanes = if style <= 3 {
                self.random.pick(&["even", "odd", "both", "both"])
            } else {
                "both"
            };
            let count = self.number(count);
            self.line(&format!("lives {name} {block} {lanes} {count}"));
        }
    }

    /// A place as seen through the layers, mostly one that is there.
    pub fn place(&mut self, number: usize) -> u64 {
        let (_, capacity) = self.cards[number].seen();
        let block_size = self.cards[number].block_size;
        match self.random.below(40) {
            0 => capacity,
            1 => self.random.pick(&[capacity + 1, capacity + 2, capacity + block_size]),
            2 | 3 => capacity.saturating_sub(1),
            4 | 5 => capacity.saturating_sub(2),
            6 => self.edge(),
            7..=11 => self.random.below(capacity / block_size) * block_size,
            12..=14 => (self.random.from_to(1, (capacity / block_size).max(1)) * block_size).saturating_sub(1),
            15..=22 => self.random.below(capacity) & !1,
            _ => self.random.below(capacity),
        }
    }

    /// The number of a block as seen through the layers, mostly one that is there.
    pub fn block(&mut self, blocks: u64) -> u64 {
        match self.random.below(40) {
            0 => blocks,
            1 => blocks + self.random.below(200),
            2 => self.random.pick(&[0xFFFF_FFFF, 0x8000_0000, 160, 159, 161]),
            _ => self.random.below(blocks),
        }
    }

    pub fn seen_blocks(&self, number: usize) -> u64 {
        let known = &self.cards[number];
        known.run_through(known.layers.len()).1
    }

    /// Lays a layer, sometimes a third one.
    pub fn lay(&mut self, number: usize) {
        let name = self.name(number);
        let blocks = self.seen_blocks(number);
        let layer = if self.random.percent(45) {
            Over::Fence
        } else {
            self.window(blocks)
        };
        match layer {
            Over::Fence => self.line(&format!("layer {name} fence")),
            Over::Window { first, count } => {
                let (first, count) = (self.number(first), self.number(count));
                self.line(&format!("layer {name} window {first} {count}"));
            }
        }
        if self.cards[number].layers.len() < 2 {
            self.cards[number].layers.push(layer);
        }
    }

    fn window(&mut self, blocks: u64) -> Over {
        let first = self.random.below(blocks + 1);
        match self.random.below(24) {
            0 => Over::Window {
                first,
                count: blocks - first + 1,
            },
            1 => Over::Window {
                first: self.edge(),
                count: self.random.pick(&[0, 1, 0xFFFF_FFFF]),
            },
            2 => Over::Window {
                first,
                count: self.edge(),
            },
            3 => Over::Window { first, count: 0 },
            4 => Over::Window {
                first: blocks + 1,
                count: 0,
            },
            5 => Over::Window {
                first: 0,
                count: blocks,
            },
            6..=9 => Over::Window {
                first,
                count: blocks - first,
            },
            _ => {
                let first = self.random.below(blocks);
                Over::Window {
                    first,
                    count: self.random.below(blocks - first) + 1,
                }
            }
        }
    }

    /// Looks at what a card means and holds.
    pub fn look_at(&mut self, number: usize) {
        let name = self.name(number);
        let (_, capacity) = self.cards[number].seen();
        if self.random.percent(80) {
            if capacity <= 1024 {
                self.line(&format!("take {name} 0 {capacity}"));
            } else {
                let place = self.random.below(capacity - 256);
                self.line(&format!("take {name} {place} 256"));
            }
        }
        if self.random.percent(60) {
            self.line(&format!("show {name}"));
        }
        if self.cards[number].has_buffer && self.random.percent(40) {
            self.line(&format!("buffer {name}"));
        }
    }

    pub fn look_at_all(&mut self) {
        for number in 0..self.cards.len() {
            let name = self.name(number);
            let (_, capacity) = self.cards[number].seen();
            self.line(&format!("show {name}"));
            self.line(&format!("take {name} 0 {}", capacity.min(4096)));
            self.line(&format!("buffer {name}"));
        }
    }
}
