//! The block writer: put, clear and plan are one routine. Take is the medium's read.

use crate::fault::Fault;
use crate::pile::Pile;

/// What a call lays over the contents.
pub enum Laid<'a> {
    Bytes(&'a [u8]),
    Repeated { byte: u8, length: u64 },
}

impl Laid<'_> {
    fn length(&self) -> u64 {
        match self {
            Laid::Bytes(bytes) => bytes.len() as u64,
            Laid::Repeated { length, .. } => *length,
        }
    }

    fn byte(&self, at: u64) -> u8 {
        match self {
            Laid::Bytes(bytes) => bytes[at as usize],
            Laid::Repeated { byte, .. } => *byte,
        }
    }
}

/// What a buffer holds before each call.
pub const UNTOUCHED: u8 = 0xAA;

/// A block buffer. Only what a call changed at its beginning is kept.
#[derive(Clone, PartialEq, Eq, Debug)]
pub struct Buffer {
    pub room: u64,
    pub changed: Vec<u8>,
}

#[derive(Clone, Copy, PartialEq, Eq, Debug, Default)]
pub struct Counts {
    pub wipes: u64,
    pub words: u64,
}

#[derive(Clone, Copy, PartialEq, Eq, Debug)]
pub enum Doing {
    Jobs,
    Counting,
}

pub struct Answer {
    pub fault: Option<Fault>,
    pub counts: Counts,
    pub buffer: Buffer,
}

/// Put, or with `Doing::Counting` plan.
pub fn put(pile: &mut Pile, place: u64, laid: Laid, room: u64, doing: Doing) -> Answer {
    let mut answer = Answer {
        fault: None,
        counts: Counts::default(),
        buffer: Buffer {
            room,
            changed: Vec::new(),
        },
    };
    answer.fault = put_blocks(pile, place, &laid, doing, &mut answer).err();
    answer
}

pub fn clear(pile: &mut Pile, first: u64, count: u64, room: u64) -> Answer {
    let block_size = pile.block_size();
    let laid = Laid::Repeated {
        byte: 0xFF,
        length: count * block_size,
    };
    put(pile, first * block_size, laid, room, Doing::Jobs)
}

fn put_blocks(pile: &mut Pile, place: u64, laid: &Laid, doing: Doing, answer: &mut Answer) -> Result<(), Fault> {
    let block_size = pile.block_size();
    let end = place + laid.length();
    if end > pile.capacity() {
        return Err(Fault::off_the_card(place));
    }
    if answer.buffer.room < block_size {
        return Err(Fault::short_buffer(place));
    }
    if laid.length() == 0 {
        return Ok(());
    }
    for block in place / block_size..=(end - 1) / block_size {
        let first = block * block_size;
        let present = pile.read(first, block_size)?;
        let mut wanted = present.clone();
        for at in place.max(first)..end.min(first + block_size) {
            wanted[(at - first) as usize] = laid.byte(at - place);
        }
        answer.buffer.changed = wanted.clone();
        bring(pile, block, &present, &wanted, doing, &mut answer.counts)?;
    }
    Ok(())
}

/// Brings one block from its present to its wanted contents.
fn bring(
    pile: &mut Pile,
    block: u64,
    present: &[u8],
    wanted: &[u8],
    doing: Doing,
    counts: &mut Counts,
) -> Result<(), Fault> {
    let rises = present.iter().zip(wanted).any(|(now, then)| !now & then != 0);
    let mut before = present.to_vec();
    if rises {
        let job = match doing {
            Doing::Jobs => pile.wipe(block),
            Doing::Counting => Ok(()),
        };
        count(job, &mut counts.wipes)?;
        before.fill(0xFF);
    }
    let first = block * pile.block_size();
    for (number, (now, then)) in before.chunks(2).zip(wanted.chunks(2)).enumerate() {
        if now != then {
            let place = first + 2 * number as u64;
            let job = match doing {
                Doing::Jobs => pile.write_word(place, u16::from_le_bytes([then[0], then[1]])),
                Doing::Counting => Ok(()),
            };
            count(job, &mut counts.words)?;
        }
    }
    Ok(())
}

/// Counts a job that was begun: one that is done, or that met a worn lane.
fn count(job: Result<(), Fault>, begun: &mut u64) -> Result<(), Fault> {
    let was_begun = match &job {
        Ok(()) => true,
        Err(fault) => fault.number == 6,
    };
    if was_begun {
        *begun += 1;
    }
    job
}
