//! Document 01 ("The intended build and its rules") in plain Rust, with the requests of document 02 that have landed: what the
//! proved library is compared with.
//!
//! It is written from those papers alone, sentence by sentence, to be read beside it: lists instead of areas, one
//! pass for each rule, no care for speed. Nothing of the library is used here, and nothing here is used by the library.
//!
//! A refusal is its number in document 01's table, in `Err`; where a packet is read, with its offset: a `Fault`.
#![forbid(unsafe_code)]

mod buffer;
mod log;
mod reading;
mod reception;
mod sizes;
mod writing;

pub use buffer::{draw, fresh, is_well_formed, offer, Buffer, Drawn, Verdicts};
pub use log::*;
pub use reading::{read, step_ticks, Fault, Reading};
pub use reception::*;
pub use sizes::*;
pub use writing::{write_packet, write_payload};

/// What a call is told about the stream. Document 01: kind, channels, plain payload type, redundancy type.
#[derive(Clone, Copy, Debug, Default, PartialEq, Eq)]
pub struct Settings {
    pub format: u8,
    pub channels: u8,
    pub payload_type: u8,
    pub redundancy_type: u8,
}

impl Settings {
    /// "Settings: kind 1 to 3; channels 1 or 2 (kind 3: only 1); plain payload type 0 to 127; redundancy type 0 to
    /// 127 and not the plain one, or 128 for none." Document 02: "kinds 4 and 5", "mono"; "Channels go to 1 to 6 for kinds 1 and 2".
    pub fn in_range(&self) -> bool {
        let format = (1..=5).contains(&self.format);
        let channels = match self.format {
            3..=5 => self.channels == 1,
            _ => (1..=MAX_CHANNELS).contains(&self.channels),
        };
        let plain = self.payload_type <= 127;
        let redundancy =
            self.redundancy_type == NO_REDUNDANCY || (self.redundancy_type <= 127 && self.redundancy_type != self.payload_type);
        format && channels && plain && redundancy
    }
}

/// One frame as the packet has it: document 01's row, taken apart.
#[derive(Clone, Copy, Debug, PartialEq, Eq)]
pub struct Row {
    pub time: u32,
    /// 0 no data, 1 sound, 2 SID; document 02: 5 damaged sound, 6 damaged SID (document 01: sort)
    pub class: u32,
    pub channel: u32,
    /// document 02, P6: of "the primary block or a plain payload"
    pub primary: bool,
    pub start: u32,
    pub length: u32,
}

impl Row {
    /// "A row is: timestamp; 256 × sort + channel; start in the packet; length." Document 02: the mark "in bit 16 (65,536) of the second
    /// word".
    pub fn words(&self) -> [u32; ROW_WORDS] {
        let mark = if self.primary { PRIMARY } else { 0 };
        [self.time, mark + 256 * self.class + self.channel, self.start, self.length]
    }

    /// A row's words taken apart. Bits above the mark stay with the class, which then is one that no kind has.
    pub fn from_words(words: &[u32]) -> Row {
        let primary = words[1] & PRIMARY != 0;
        let tag = words[1] & !PRIMARY;
        Row { time: words[0], class: tag / 256, channel: tag % 256, primary, start: words[2], length: words[3] }
    }
}
