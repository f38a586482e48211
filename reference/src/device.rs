//! A flash device: its mode, its wait and its error bits. Its bytes and lives are the card's.

/// The longest wait of a device.
pub const PATIENCE: u32 = 1_000;

pub const READY: u8 = 0x80;
pub const WIPE_ERROR: u8 = 0x20;
pub const WRITE_ERROR: u8 = 0x10;
pub const LOW_SUPPLY: u8 = 0x08;

#[derive(Clone, Copy, PartialEq, Eq, Debug, Default)]
pub enum Mode {
    #[default]
    Array,
    Ident,
    Status,
    WriteArmed,
    WipeArmed,
}

/// The default device is one as after reset.
#[derive(Clone, Copy, PartialEq, Eq, Debug, Default)]
pub struct Device {
    pub mode: Mode,
    pub wait: u32,
    pub wipe_error: bool,
    pub write_error: bool,
    pub low_supply: bool,
}

/// The job that a byte has a device try.
#[derive(Clone, Copy, PartialEq, Eq, Debug)]
pub enum Tried {
    Nothing,
    Write(u8),
    Wipe,
}

/// What a read of a device shows.
#[derive(Clone, Copy, PartialEq, Eq, Debug)]
pub enum Shown {
    Contents,
    Codes,
    Status(u8),
}

impl Device {
    pub fn is_ready(&self) -> bool {
        self.wait == 0
    }

    /// Takes a byte, by mode and byte together.
    pub fn take(&mut self, byte: u8) -> Tried {
        if !self.is_ready() {
            return Tried::Nothing;
        }
        match self.mode {
            Mode::Array | Mode::Ident | Mode::Status => {
                self.take_command(byte);
                Tried::Nothing
            }
            Mode::WriteArmed => {
                self.mode = Mode::Status;
                Tried::Write(byte)
            }
            Mode::WipeArmed => {
                self.mode = Mode::Status;
                if byte == 0xD0 {
                    return Tried::Wipe;
                }
                self.wipe_error = true;
                self.write_error = true;
                Tried::Nothing
            }
        }
    }

    fn take_command(&mut self, byte: u8) {
        self.mode = match byte {
            0x90 => Mode::Ident,
            0x70 => Mode::Status,
            0x40 | 0x10 => Mode::WriteArmed,
            0x20 => Mode::WipeArmed,
            _ => Mode::Array,
        };
        if byte == 0x50 {
            self.wipe_error = false;
            self.write_error = false;
            self.low_supply = false;
        }
    }

    /// Whether a tried job may begin. One that may not sets bit 3.
    pub fn may_begin(&mut self, supply_is_low: bool) -> bool {
        if supply_is_low {
            self.low_supply = true;
        }
        !self.low_supply
    }

    /// A write has begun, on a lane that had lives or was worn.
    pub fn wrote(&mut self, alive: bool, wait: u32) {
        self.write_error |= !alive;
        self.wait = wait;
    }

    /// A wipe has begun, on a lane that had lives or was worn.
    pub fn wiped(&mut self, alive: bool, wait: u32) {
        self.wipe_error |= !alive;
        self.wait = wait;
    }

    pub fn status(&self) -> u8 {
        let bits = [
            (self.is_ready(), READY),
            (self.wipe_error, WIPE_ERROR),
            (self.write_error, WRITE_ERROR),
            (self.low_supply, LOW_SUPPLY),
        ];
        bits.iter().filter(|(stands, _)| *stands).map(|(_, bit)| bit).sum()
    }

    /// What a read shows; a device that shows its status then lowers its wait.
    pub fn read(&mut self) -> Shown {
        match self.mode {
            Mode::Array => Shown::Contents,
            Mode::Ident => Shown::Codes,
            Mode::Status | Mode::WriteArmed | Mode::WipeArmed => {
                let status = self.status();
                self.lower_wait();
                Shown::Status(status)
            }
        }
    }

    pub fn lower_wait(&mut self) {
        self.wait = self.wait.saturating_sub(1);
    }
}
