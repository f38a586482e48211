//! The driver: what makes a medium of a slot, spelled out as the cycles it makes.

use crate::device::{LOW_SUPPLY, READY, WIPE_ERROR, WRITE_ERROR};
use crate::fault::{Fault, Lanes};
use crate::slot::Slot;

pub fn read(slot: &mut dyn Slot, place: u64, length: u64) -> Result<Vec<u8>, Fault> {
    if place + length > slot.size().capacity() {
        return Err(Fault::off_the_card(place));
    }
    make_ready(slot);
    let mut bytes = Vec::with_capacity(length as usize);
    let mut at = place;
    while at < place + length {
        let [low, high] = slot.read_word(at - at % 2)?.to_le_bytes();
        if at % 2 == 0 {
            bytes.push(low);
            at += 1;
        }
        if at < place + length {
            bytes.push(high);
            at += 1;
        }
    }
    Ok(bytes)
}

pub fn write_word(slot: &mut dyn Slot, place: u64, word: u16) -> Result<(), Fault> {
    if place + 2 > slot.size().capacity() {
        return Err(Fault::off_the_card(place));
    }
    if place % 2 == 1 {
        return Err(Fault::odd_place(place));
    }
    if slot.pin() {
        return Err(Fault::locked(place));
    }
    make_ready(slot);
    slot.write_word(place, 0x4040)?;
    slot.write_word(place, word)?;
    judge(place, status_when_ready(slot, place)?)
}

pub fn wipe(slot: &mut dyn Slot, block: u64) -> Result<(), Fault> {
    let place = block * slot.size().block_size;
    if block >= slot.size().blocks() {
        return Err(Fault::off_the_card(place));
    }
    if slot.pin() {
        return Err(Fault::locked(place));
    }
    make_ready(slot);
    slot.write_word(place, 0x2020)?;
    slot.write_word(place, 0xD0D0)?;
    judge(place, status_when_ready(slot, place)?)
}

/// Samples until all devices are ready, and resets them.
fn make_ready(slot: &mut dyn Slot) {
    while !slot.sample() {}
    slot.reset();
}

/// Reads status until both devices of the pair are ready.
fn status_when_ready(slot: &mut dyn Slot, place: u64) -> Result<[u8; 2], Fault> {
    loop {
        let [even, odd] = slot.read_word(place)?.to_le_bytes();
        if even & odd & READY != 0 {
            return Ok([even, odd]);
        }
    }
}

/// The answer of a job, by the bits of both status bytes.
fn judge(place: u64, [even, odd]: [u8; 2]) -> Result<(), Fault> {
    if (even | odd) & LOW_SUPPLY != 0 {
        return Err(Fault::low_supply(place));
    }
    let worn = |status: u8| status & (WRITE_ERROR | WIPE_ERROR) != 0;
    match Lanes::named(worn(even), worn(odd)) {
        Some(lanes) => Err(Fault::worn(place, lanes)),
        None => Ok(()),
    }
}
