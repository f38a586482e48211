//! Faults: a number, a place, and with number 6 the worn lanes.

use std::fmt;

/// The lanes that a call or a fault names.
#[derive(Clone, Copy, PartialEq, Eq, Debug)]
pub enum Lanes {
    Even,
    Odd,
    Both,
}

impl Lanes {
    /// The lanes of which it is said that they are named, if any is.
    pub fn named(even: bool, odd: bool) -> Option<Lanes> {
        match (even, odd) {
            (true, true) => Some(Lanes::Both),
            (true, false) => Some(Lanes::Even),
            (false, true) => Some(Lanes::Odd),
            (false, false) => None,
        }
    }
}

impl fmt::Display for Lanes {
    fn fmt(&self, out: &mut fmt::Formatter) -> fmt::Result {
        out.write_str(match self {
            Lanes::Even => "even",
            Lanes::Odd => "odd",
            Lanes::Both => "both",
        })
    }
}

#[derive(Clone, Copy, PartialEq, Eq, Debug)]
pub struct Fault {
    pub number: u8,
    pub place: u64,
    pub lanes: Option<Lanes>,
}

impl Fault {
    fn plain(number: u8, place: u64) -> Fault {
        Fault {
            number,
            place,
            lanes: None,
        }
    }

    pub fn off_the_card(place: u64) -> Fault {
        Fault::plain(1, place)
    }

    pub fn odd_place(place: u64) -> Fault {
        Fault::plain(2, place)
    }

    pub fn short_buffer(place: u64) -> Fault {
        Fault::plain(3, place)
    }

    pub fn locked(place: u64) -> Fault {
        Fault::plain(4, place)
    }

    pub fn low_supply(place: u64) -> Fault {
        Fault::plain(5, place)
    }

    pub fn worn(place: u64, lanes: Lanes) -> Fault {
        Fault {
            number: 6,
            place,
            lanes: Some(lanes),
        }
    }

    pub fn no_such_geometry() -> Fault {
        Fault::plain(7, 0)
    }

    /// The same fault as it is counted from `base` on.
    pub fn counted_from(self, base: u64) -> Fault {
        Fault {
            place: self.place - base,
            ..self
        }
    }
}

impl fmt::Display for Fault {
    fn fmt(&self, out: &mut fmt::Formatter) -> fmt::Result {
        write!(out, "fault {} place={} lanes=", self.number, self.place)?;
        match self.lanes {
            Some(lanes) => write!(out, "{lanes}"),
            None => out.write_str("-"),
        }
    }
}
