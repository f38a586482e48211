//! All 256 bytes in every mode of a device, by every kind of cycle: one script for each case.

use std::fmt::Write as _;

/// How a device is brought to where the byte meets it.
#[derive(Clone, Copy, Debug)]
enum Before {
    Array,
    Ident,
    Status,
    WriteArmed,
    WriteArmedOtherwise,
    WipeArmed,
    WithErrors,
    WithoutSupply,
    Busy,
}

const BEFORE: [Before; 9] = [
    Before::Array,
    Before::Ident,
    Before::Status,
    Before::WriteArmed,
    Before::WriteArmedOtherwise,
    Before::WipeArmed,
    Before::WithErrors,
    Before::WithoutSupply,
    Before::Busy,
];

/// The call that brings the byte, with its address.
const CYCLES: [&str; 6] = [
    "word write 4",
    "byte write 4",
    "byte write 5",
    "odd write 4",
    "odd write 5",
    "slot",
];

/// Takes a number from what is left of another, digit by digit.
fn digit(left: &mut u64, choices: u64) -> u64 {
    let digit = *left % choices;
    *left /= choices;
    digit
}

pub fn script(number: u64) -> String {
    let mut left = number;
    let before = BEFORE[digit(&mut left, BEFORE.len() as u64) as usize];
    let cycle = CYCLES[digit(&mut left, CYCLES.len() as u64) as usize];
    let series = ["series2", "series100"][digit(&mut left, 2) as usize];
    let lives = [100_000, 0, 100][digit(&mut left, 3) as usize];
    let waits = ["0 0", "2 1", "0 3", "1000 1000"][digit(&mut left, 4) as usize];
    let mut text = format!("# {before:?} {cycle}\ncard d {series} 8 1 2 A5C3FF0F\n");
    for block in 0..2 {
        let _ = writeln!(text, "lives d {block} both {lives}");
    }
    let _ = writeln!(text, "waits d {waits}");
    for byte in 0..256u64 {
        bring(&mut text, before, waits);
        let value = byte | (byte ^ (number & 0xFF)) << 8;
        if cycle == "slot" {
            let _ = writeln!(text, "slot d write 4 {value}");
        } else {
            let _ = writeln!(
                text,
                "raw d {cycle} 0x{:04x}",
                if cycle.starts_with("odd") {
                    byte << 8 | value >> 8
                } else {
                    value
                }
            );
        }
        look(&mut text, byte);
    }
    text.push_str("show d\ntake d 0 16\n");
    text
}

fn bring(text: &mut String, before: Before, waits: &str) {
    text.push_str("slot d reset\n");
    match before {
        Before::Array => {}
        Before::Ident => text.push_str("raw d word write 4 0x9090\n"),
        Before::Status => text.push_str("raw d word write 4 0x7070\n"),
        Before::WriteArmed => text.push_str("raw d word write 4 0x4040\n"),
        Before::WriteArmedOtherwise => text.push_str("raw d word write 6 0x1010\n"),
        Before::WipeArmed => text.push_str("raw d word write 4 0x2020\n"),
        Before::WithErrors => text.push_str("raw d word write 4 0x2020\nraw d word write 4 0x1212\n"),
        Before::WithoutSupply => {
            text.push_str("supply d low\nraw d word write 4 0x4040\nraw d word write 4 0x0000\nsupply d good\n");
        }
        Before::Busy => {
            let _ = writeln!(
                text,
                "waits d 3 3\nraw d word write 4 0x4040\nraw d word write 4 0xFFFF\nwaits d {waits}"
            );
        }
    }
}

/// What shows status, codes, contents and lives, and tells the armed modes from each other.
fn look(text: &mut String, byte: u64) {
    text.push_str("raw d word read 4\nraw d word read 6\nraw d byte read 5\n");
    if byte % 2 == 0 {
        text.push_str("raw d word write 4 0xD0D0\nraw d word read 4\nslot d sample\nslot d read 4\n");
    } else {
        text.push_str("raw d word write 6 0xF77F\nslot d read 6\nraw d odd read 6\n");
    }
    text.push_str("raw d word write 4 0xFFFF\nraw d word read 4\n");
    if byte % 8 == 7 {
        text.push_str("show d\ntake d 0 16\n");
    }
}
