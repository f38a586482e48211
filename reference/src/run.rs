//! Carrying out a script, line by line, and printing its record.

use crate::card::Card;
use crate::command::{self, Command, Name, Why, shown};
use crate::fault::Fault;
use crate::geometry::Geometry;
use crate::pile::{Layer, Pile};
use crate::simulated::SimulatedCard;
use crate::slot::Slot;
use crate::writer::{self, Answer, Buffer, Doing, Laid, UNTOUCHED};
use std::collections::{BTreeMap, BTreeSet};
use std::fmt::Write as _;
use std::io::{self, Write};

/// A pile of layers over a card goes no higher.
const MOST_LAYERS: usize = 2;

/// What stands under a name.
struct Standing {
    pile: Pile,
    /// The buffer as the last put, plan or clear left it.
    buffer: Option<Buffer>,
}

#[derive(Default)]
struct Shelf {
    standing: BTreeMap<Name, Standing>,
}

/// A record behind its line's number.
enum Record {
    Text(String),
    Buffer(Buffer),
}

/// Carries out a whole script.
pub fn run(script: &[u8], out: &mut dyn Write) -> io::Result<()> {
    let mut shelf = Shelf::default();
    for (number, line) in (1u64..).zip(command::lines(script)) {
        let words = command::words(line);
        if words.is_empty() {
            continue;
        }
        write!(out, "{number}: ")?;
        match shelf.carry_out(&words) {
            Ok(Record::Text(text)) => writeln!(out, "{text}")?,
            Ok(Record::Buffer(buffer)) => write_buffer(&buffer, out)?,
            Err(why) => writeln!(out, "error {why}")?,
        }
    }
    out.flush()
}

/// A buffer is printed piece by piece, since its room may be very large.
fn write_buffer(buffer: &Buffer, out: &mut dyn Write) -> io::Result<()> {
    if buffer.room == 0 {
        return writeln!(out, "ok bytes=-");
    }
    write!(out, "ok bytes={}", hex(&buffer.changed))?;
    let piece = hex(&[UNTOUCHED; 4096]);
    let mut left = 2 * (buffer.room - buffer.changed.len() as u64);
    while left > 0 {
        let now = left.min(piece.len() as u64);
        out.write_all(&piece.as_bytes()[..now as usize])?;
        left -= now;
    }
    writeln!(out)
}

fn hex(bytes: &[u8]) -> String {
    const DIGITS: &[u8; 16] = b"0123456789ABCDEF";
    let digit = |half: u8| char::from(DIGITS[usize::from(half)]);
    bytes
        .iter()
        .flat_map(|byte| [digit(byte >> 4), digit(byte & 15)])
        .collect()
}

fn done() -> Result<Record, Why> {
    Ok(Record::Text("ok".into()))
}

fn text(said: impl Into<String>) -> Result<Record, Why> {
    Ok(Record::Text(said.into()))
}

/// The record of a call that answers nothing, or a fault.
fn plain(answer: Result<(), Fault>) -> Result<Record, Why> {
    match answer {
        Ok(()) => done(),
        Err(fault) => text(fault.to_string()),
    }
}

fn bytes_or_none(bytes: &[u8]) -> String {
    if bytes.is_empty() { "-".into() } else { hex(bytes) }
}

impl Shelf {
    fn carry_out(&mut self, words: &[&[u8]]) -> Result<Record, Why> {
        let (name, command) = command::command(words)?;
        if let Command::Card {
            kind,
            block_size,
            blocks_per_pair,
            pairs,
            pattern,
            length,
        } = command
        {
            if self.standing.contains_key(&name) {
                return Err(format!("{} is there already", shown(&name)));
            }
            let geometry = match Geometry::new(block_size, blocks_per_pair, pairs) {
                Ok(geometry) => geometry,
                Err(fault) => return text(fault.to_string()),
            };
            let length = length.unwrap_or(geometry.capacity());
            let card = Card::new(kind, geometry, pattern, length);
            self.standing.insert(
                name,
                Standing {
                    pile: Pile::new(card),
                    buffer: None,
                },
            );
            return done();
        }
        match self.standing.get_mut(&name) {
            Some(standing) => standing.carry_out(command),
            None => Err(format!("{} is not there", shown(&name))),
        }
    }
}

impl Standing {
    fn carry_out(&mut self, command: Command) -> Result<Record, Why> {
        match command {
            Command::Card { .. } => Err("a card is there already".into()),
            Command::Lives { block, lanes, count } => plain(self.pile.card.set_lives(block, lanes, count)),
            Command::Lock { on } => part(self.pile.card.set_lock(on), "lock"),
            Command::Supply { low } => part(self.pile.card.set_supply(low), "supply"),
            Command::Waits { write, wipe } => {
                self.simulated()?.set_waits(write, wipe);
                done()
            }
            Command::Window { first, count } => self.lay(Layer::Window { first, count }),
            Command::Fence => self.lay(Layer::Fence { marks: BTreeSet::new() }),
            Command::Mark { block, on } => match self.pile.topmost_fence() {
                Some(fence) => plain(self.pile.mark(fence, block, on)),
                None => Err("there is no fence".into()),
            },
            Command::Put { place, bytes, room } => self.put(place, &bytes, room, Doing::Jobs),
            Command::Plan { place, bytes, room } => self.put(place, &bytes, room, Doing::Counting),
            Command::Clear { first, count, room } => {
                let room = room.unwrap_or(self.pile.block_size());
                let answer = writer::clear(&mut self.pile, first, count, room);
                self.keep(answer)
            }
            Command::Buffer => match &self.buffer {
                Some(buffer) => Ok(Record::Buffer(buffer.clone())),
                None => Err("there was no put, plan or clear yet".into()),
            },
            Command::Take { place, length } => match self.pile.read(place, length) {
                Ok(bytes) => text(format!("ok bytes={}", bytes_or_none(&bytes))),
                Err(fault) => text(fault.to_string()),
            },
            Command::Word { place, value } => plain(self.pile.write_word(place, value)),
            Command::Wipe { block } => plain(self.pile.wipe(block)),
            Command::Show => text(self.show()),
            Command::RawRead { width, place } => {
                let value = self.simulated()?.raw_read(width, place);
                text(format!("ok value=0x{value:04X}"))
            }
            Command::RawWrite { width, place, value } => {
                self.simulated()?.raw_write(width, place, value);
                done()
            }
            slot_call => slot(self.simulated()?, slot_call),
        }
    }

    fn simulated(&mut self) -> Result<&mut SimulatedCard, Why> {
        self.pile
            .card
            .simulated()
            .ok_or_else(|| "a memory card has no such part".to_string())
    }

    fn lay(&mut self, layer: Layer) -> Result<Record, Why> {
        if self.pile.layers.len() == MOST_LAYERS {
            return Err("it would be a third layer".into());
        }
        self.pile.layers.push(layer);
        done()
    }

    fn put(&mut self, place: u64, bytes: &[u8], room: Option<u64>, doing: Doing) -> Result<Record, Why> {
        let room = room.unwrap_or(self.pile.block_size());
        let answer = writer::put(&mut self.pile, place, Laid::Bytes(bytes), room, doing);
        self.keep(answer)
    }

    /// Keeps the buffer of a call of the writer, and tells its answer.
    fn keep(&mut self, answer: Answer) -> Result<Record, Why> {
        let said = match answer.fault {
            Some(fault) => fault.to_string(),
            None => "ok".into(),
        };
        self.buffer = Some(answer.buffer);
        text(format!(
            "{said} wipes={} words={}",
            answer.counts.wipes, answer.counts.words
        ))
    }

    fn show(&self) -> String {
        let supply = if self.pile.card.supply_is_low() { "low" } else { "good" };
        let blocks = self.pile.blocks();
        let mut said = format!(
            "ok block-size={} blocks={blocks} supply={supply}",
            self.pile.block_size()
        );
        for number in 0..blocks {
            let block = self.pile.block(number);
            let lock = if block.locked { "locked" } else { "open" };
            let _ = write!(
                said,
                "\n block {number} {lock} even={} odd={}",
                block.even_lives, block.odd_lives
            );
        }
        said
    }
}

fn part(is_there: bool, what: &str) -> Result<Record, Why> {
    if is_there {
        done()
    } else {
        Err(format!("the card has no {what}"))
    }
}

/// A call of the card's slot.
fn slot(card: &mut SimulatedCard, call: Command) -> Result<Record, Why> {
    match call {
        Command::SlotSize => {
            let size = card.size();
            text(format!(
                "ok block-size={} blocks-per-pair={} pairs={}",
                size.block_size, size.blocks_per_pair, size.pairs
            ))
        }
        Command::SlotSample => text(format!("ok ready={}", card.sample())),
        Command::SlotReset => {
            card.reset();
            done()
        }
        Command::SlotPin => text(if card.pin() { "ok pin=on" } else { "ok pin=off" }),
        Command::SlotRead { place } => match card.read_word(place) {
            Ok(value) => text(format!("ok value=0x{value:04X}")),
            Err(fault) => text(fault.to_string()),
        },
        Command::SlotWrite { place, value } => plain(card.write_word(place, value)),
        _ => Err("no call of a slot".into()),
    }
}
