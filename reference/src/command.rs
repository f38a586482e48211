//! Reading the lines of a script: words, numbers, bytes, commands.

use crate::card::Kind;
use crate::fault::Lanes;
use crate::simulated::Width;
use std::ffi::OsStr;
use std::fs::File;
use std::io::Read;
use std::os::unix::ffi::OsStrExt;

/// No byte of a HEX past this count ever matters: it is one more than any card can hold.
const MOST_BYTES: u64 = 20_971_520 + 1;

pub type Name = Vec<u8>;

/// Why a line cannot be carried out.
pub type Why = String;

#[derive(Clone, PartialEq, Eq, Debug)]
pub enum Command {
    Card {
        kind: Kind,
        block_size: u64,
        blocks_per_pair: u64,
        pairs: u64,
        pattern: Vec<u8>,
        length: Option<u64>,
    },
    Lives {
        block: u64,
        lanes: Lanes,
        count: u32,
    },
    Lock {
        on: bool,
    },
    Supply {
        low: bool,
    },
    Waits {
        write: u32,
        wipe: u32,
    },
    Window {
        first: u64,
        count: u64,
    },
    Fence,
    Mark {
        block: u64,
        on: bool,
    },
    Put {
        place: u64,
        bytes: Vec<u8>,
        room: Option<u64>,
    },
    Plan {
        place: u64,
        bytes: Vec<u8>,
        room: Option<u64>,
    },
    Clear {
        first: u64,
        count: u64,
        room: Option<u64>,
    },
    Buffer,
    Take {
        place: u64,
        length: u64,
    },
    Word {
        place: u64,
        value: u16,
    },
    Wipe {
        block: u64,
    },
    RawRead {
        width: Width,
        place: u64,
    },
    RawWrite {
        width: Width,
        place: u64,
        value: u16,
    },
    SlotSize,
    SlotSample,
    SlotReset,
    SlotPin,
    SlotRead {
        place: u64,
    },
    SlotWrite {
        place: u64,
        value: u16,
    },
    Show,
}

/// The lines of a script. What follows the last line end is a line too.
pub fn lines(script: &[u8]) -> impl Iterator<Item = &[u8]> {
    script.split(|byte| *byte == b'\n')
}

/// The words of a line, without its comment.
pub fn words(line: &[u8]) -> Vec<&[u8]> {
    let line = line.strip_suffix(b"\r").unwrap_or(line);
    let said = line.split(|byte| *byte == b'#').next().unwrap_or(line);
    said.split(|byte| matches!(byte, b' ' | b'\t'))
        .filter(|word| !word.is_empty())
        .collect()
}

/// A decimal number, or a hexadecimal one after 0x, of at most so many.
fn number(word: &[u8], most: u64) -> Result<u64, Why> {
    let (digits, radix) = match word.strip_prefix(b"0x") {
        Some(digits) => (digits, 16),
        None => (word, 10),
    };
    if digits.is_empty() {
        return Err(format!("{} is no number", shown(word)));
    }
    let mut value: u64 = 0;
    for byte in digits {
        let digit = (*byte as char).to_digit(radix);
        let digit = digit.ok_or_else(|| format!("{} is no number", shown(word)))?;
        value = value * u64::from(radix) + u64::from(digit);
        if value > most {
            // What is too large stays so; the digits after it are still looked at.
            value = most + 1;
        }
    }
    if value > most {
        Err(format!("{} does not fit", shown(word)))
    } else {
        Ok(value)
    }
}

fn wide(word: &[u8]) -> Result<u64, Why> {
    number(word, u64::from(u32::MAX))
}

fn count32(word: &[u8]) -> Result<u32, Why> {
    wide(word).map(|value| value as u32)
}

fn value16(word: &[u8]) -> Result<u16, Why> {
    number(word, u64::from(u16::MAX)).map(|value| value as u16)
}

/// HEX: pairs of digits, `-`, or `@FILE`.
fn bytes(word: &[u8]) -> Result<Vec<u8>, Why> {
    if word == b"-" {
        return Ok(Vec::new());
    }
    if let Some(name) = word.strip_prefix(b"@") {
        return file(name);
    }
    if word.len() % 2 == 1 {
        return Err("an odd digit in the bytes".into());
    }
    let digit = |byte: u8| (byte as char).to_digit(16);
    word.chunks(2)
        .map(|pair| Some((digit(pair[0])? * 16 + digit(pair[1])?) as u8))
        .collect::<Option<Vec<u8>>>()
        .ok_or_else(|| "another letter in the bytes".into())
}

/// The bytes of a file, as far as they can matter. Only a plain file has bytes.
fn file(name: &[u8]) -> Result<Vec<u8>, Why> {
    let path = OsStr::from_bytes(name);
    let cannot = |_| format!("{} cannot be read", shown(name));
    if !std::fs::metadata(path).map_err(cannot)?.is_file() {
        return Err(format!("{} is no plain file", shown(name)));
    }
    let mut held = Vec::new();
    File::open(path)
        .map_err(cannot)?
        .take(MOST_BYTES)
        .read_to_end(&mut held)
        .map_err(cannot)?;
    Ok(held)
}

fn on_or_off(word: &[u8]) -> Result<bool, Why> {
    match word {
        b"on" => Ok(true),
        b"off" => Ok(false),
        _ => Err(out_of_place(word)),
    }
}

fn kind(word: &[u8]) -> Result<Kind, Why> {
    match word {
        b"memory" => Ok(Kind::Memory),
        b"series2" => Ok(Kind::Series2),
        b"series100" => Ok(Kind::Series100),
        _ => Err(out_of_place(word)),
    }
}

fn lanes(word: &[u8]) -> Result<Lanes, Why> {
    match word {
        b"even" => Ok(Lanes::Even),
        b"odd" => Ok(Lanes::Odd),
        b"both" => Ok(Lanes::Both),
        _ => Err(out_of_place(word)),
    }
}

fn width(word: &[u8]) -> Result<Width, Why> {
    match word {
        b"word" => Ok(Width::Word),
        b"byte" => Ok(Width::Byte),
        b"odd" => Ok(Width::OddByte),
        _ => Err(out_of_place(word)),
    }
}

fn low_or_good(word: &[u8]) -> Result<bool, Why> {
    match word {
        b"low" => Ok(true),
        b"good" => Ok(false),
        _ => Err(out_of_place(word)),
    }
}

/// An optional last word, of those that stand behind the others.
fn last(words: &[&[u8]]) -> Result<Option<u64>, Why> {
    match words {
        [] => Ok(None),
        [room] => wide(room).map(Some),
        _ => Err("a word too many".into()),
    }
}

fn out_of_place(word: &[u8]) -> Why {
    format!("{} is out of place", shown(word))
}

pub fn shown(word: &[u8]) -> String {
    let mut text = String::from_utf8_lossy(word).into_owned();
    text.retain(|letter| !letter.is_control());
    if text.chars().count() > 40 {
        text = text.chars().take(40).collect::<String>() + "...";
    }
    format!("`{text}`")
}

/// Reads a line's words as a whole.
pub fn command(words: &[&[u8]]) -> Result<(Name, Command), Why> {
    let (head, rest) = words.split_first().ok_or("no words")?;
    let (name, rest) = rest
        .split_first()
        .ok_or_else(|| "a word too few, or no command".to_string())?;
    let command = match (*head, rest) {
        (b"card", [kind_word, size, to_pair, pairs, more @ ..]) => {
            let (pattern, length) = match more.split_first() {
                Some((hex, length)) => (bytes(hex)?, last(length)?),
                None => (vec![0xFF], None),
            };
            if pattern.is_empty() {
                return Err("the bytes of a new card are empty".into());
            }
            Command::Card {
                kind: kind(kind_word)?,
                block_size: wide(size)?,
                blocks_per_pair: wide(to_pair)?,
                pairs: wide(pairs)?,
                pattern,
                length,
            }
        }
        (b"lives", [block, side, count]) => Command::Lives {
            block: wide(block)?,
            lanes: lanes(side)?,
            count: count32(count)?,
        },
        (b"lock", [switch]) => Command::Lock { on: on_or_off(switch)? },
        (b"supply", [switch]) => Command::Supply {
            low: low_or_good(switch)?,
        },
        (b"waits", [write, wipe]) => Command::Waits {
            write: count32(write)?,
            wipe: count32(wipe)?,
        },
        (b"layer", [b"window", first, count]) => Command::Window {
            first: wide(first)?,
            count: wide(count)?,
        },
        (b"layer", [b"fence"]) => Command::Fence,
        (b"mark", [block, switch]) => Command::Mark {
            block: wide(block)?,
            on: on_or_off(switch)?,
        },
        (b"put", [place, hex, more @ ..]) => Command::Put {
            place: wide(place)?,
            bytes: bytes(hex)?,
            room: last(more)?,
        },
        (b"plan", [place, hex, more @ ..]) => Command::Plan {
            place: wide(place)?,
            bytes: bytes(hex)?,
            room: last(more)?,
        },
        (b"clear", [first, count, more @ ..]) => Command::Clear {
            first: wide(first)?,
            count: wide(count)?,
            room: last(more)?,
        },
        (b"buffer", []) => Command::Buffer,
        (b"take", [place, length]) => Command::Take {
            place: wide(place)?,
            length: wide(length)?,
        },
        (b"word", [place, value]) => Command::Word {
            place: wide(place)?,
            value: value16(value)?,
        },
        (b"wipe", [block]) => Command::Wipe { block: wide(block)? },
        (b"raw", [over, b"read", place]) => Command::RawRead {
            width: width(over)?,
            place: wide(place)?,
        },
        (b"raw", [over, b"write", place, value]) => Command::RawWrite {
            width: width(over)?,
            place: wide(place)?,
            value: value16(value)?,
        },
        (b"slot", [b"size"]) => Command::SlotSize,
        (b"slot", [b"sample"]) => Command::SlotSample,
        (b"slot", [b"reset"]) => Command::SlotReset,
        (b"slot", [b"pin"]) => Command::SlotPin,
        (b"slot", [b"read", place]) => Command::SlotRead { place: wide(place)? },
        (b"slot", [b"write", place, value]) => Command::SlotWrite {
            place: wide(place)?,
            value: value16(value)?,
        },
        (b"show", []) => Command::Show,
        _ => return Err(format!("{} with these words is no command", shown(head))),
    };
    Ok((name.to_vec(), command))
}
