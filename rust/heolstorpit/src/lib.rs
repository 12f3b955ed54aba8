//! RTP packets of G.719, GSM-HR, AMR and AMR-WB sound: read into frame rows, gathered and drawn in time order, written; reception
//! reports; and logs of frames, written and read.
//!
//! Safe Rust over the proved library `libheolstorpit.a`. Everything is done in memory that the caller lends: nothing
//! is allocated and nothing is kept. Each function refuses what it cannot do, says why, and then has changed nothing.
//!
//! Frame classes, formats and refusals are enums over the library's numbers. They stay open: a number that has no name here is a value like
//! any other and keeps its number, so that what a later library adds is neither lost nor taken for something else.
//!
//! [`raw`] has the same calls with the answers as C gets them.
#![deny(unsafe_code)]
#![warn(missing_docs)]

mod answers;
mod log;
mod numbered;
pub mod raw;
mod reception;
mod refusal;
mod rows;
mod sizes;

pub use answers::{Frame, LogFrame, Reading, Report, Verdicts};
pub use log::LogReader;
#[cfg(feature = "log")]
pub use log::{write_log, LogFrames};
pub use numbered::{Class, Format};
pub use reception::Reception;
pub use refusal::{Fault, Refusal};
pub use rows::Row;
pub use sizes::*;

/// What was agreed with the sender. Settings out of range are refused with [`Refusal::SettingsOutOfRange`] when they are used.
#[derive(Clone, Copy, Debug, PartialEq, Eq, Hash)]
pub struct Settings {
    /// how the payloads are laid out
    pub format: Format,
    /// 1 to [`MAX_CHANNELS`]; for GSM-HR, AMR and AMR-WB only 1
    pub channels: u8,
    /// RTP payload type of the sound, 0 to 127
    pub payload_type: u8,
    /// RTP payload type of redundancy payloads (RFC 2198), 0 to 127 and another; or [`NO_REDUNDANCY`]
    pub redundancy_type: u8,
}

impl From<raw::Settings> for Settings {
    #[inline]
    fn from(raw: raw::Settings) -> Settings {
        let raw::Settings { format, channels, payload_type, redundancy_type } = raw;
        Settings { format: Format::from(format), channels, payload_type, redundancy_type }
    }
}

impl From<Settings> for raw::Settings {
    #[inline]
    fn from(settings: Settings) -> raw::Settings {
        let Settings { format, channels, payload_type, redundancy_type } = settings;
        raw::Settings { format: format.number(), channels, payload_type, redundancy_type }
    }
}

/// Reads a packet into the row area, which has at least [`ROW_AREA`] words. Words after the last row stay. A refusal says where in the
/// packet.
#[cfg(feature = "read")]
pub fn read(settings: Settings, packet: &[u8], rows: &mut [u32]) -> Result<Reading, Fault> {
    raw::read(settings.into(), packet, rows).result()
}

/// Writes one payload for the rows, which point into `bytes`, at the front of `out`; answers its length. The mode request is that of
/// [`Header`].
#[cfg(feature = "write")]
pub fn write_payload(settings: Settings, mode_request: u8, rows: &[u32], bytes: &[u8], out: &mut [u8]) -> Result<usize, Refusal> {
    raw::write_payload(settings.into(), mode_request, rows, bytes, out).result()
}

/// What a packet to be written says of itself beside its rows.
#[derive(Clone, Copy, Debug, PartialEq, Eq, Hash)]
pub struct Header {
    /// mode request (CMR), put into every block of AMR and AMR-WB; formats that have none leave it out. Over [`NO_MODE_REQUEST`] it is
    /// refused with [`Refusal::SettingsOutOfRange`] in every format
    pub mode_request: u8,
    /// the marker bit
    pub marker: bool,
    /// RTP sequence number
    pub sequence: u16,
    /// SSRC
    pub source: u32,
}

/// Writes one packet at the front of `out`; answers its length. `counts` has the number of rows of each list: up to
/// [`MAX_REDUNDANT`] redundant lists, then the primary list; `rows` has the lists one after another.
#[cfg(feature = "write")]
pub fn write_packet(
    settings: Settings,
    header: Header,
    counts: &[u32],
    rows: &[u32],
    bytes: &[u8],
    out: &mut [u8],
) -> Result<usize, Refusal> {
    let Header { mode_request, marker, sequence, source } = header;
    raw::write_packet(settings.into(), mode_request, u8::from(marker), sequence, source, counts, rows, bytes, out).result()
}

/// A reorder buffer. It holds which frames lie where in the store; the store is lent with each call, as the last call left it.
#[derive(Clone, Copy, Debug, PartialEq, Eq)]
pub struct Buffer(raw::Buffer);

impl Buffer {
    /// A fresh buffer.
    #[cfg(feature = "buffer")]
    pub fn new(settings: Settings) -> Result<Buffer, Refusal> {
        raw::new(settings.into()).result()
    }

    /// Reads the packet into the row area, which has at least [`ROW_AREA`] words, and keeps its frames in the store, which has
    /// at least [`STORE_BYTES`] bytes. A refusal says where in the packet.
    #[cfg(feature = "buffer")]
    pub fn offer(&mut self, packet: &[u8], rows: &mut [u32], store: &mut [u8]) -> Result<Verdicts, Fault> {
        let answer = raw::offer(self.0, packet, rows, store);
        self.0 = answer.buffer;
        answer.result()
    }

    /// Draws the earliest frame to the front of the area, which has at least [`DRAW_AREA`] bytes; nothing where none is held.
    #[cfg(feature = "buffer")]
    pub fn draw(&mut self, store: &[u8], area: &mut [u8]) -> Result<Option<Frame>, Refusal> {
        let answer = raw::draw(self.0, store, area);
        self.0 = answer.buffer;
        answer.result()
    }

    /// The number of frames held.
    pub fn held(&self) -> usize {
        self.0.occupied.iter().map(|word| word.count_ones() as usize).sum()
    }

    /// The settings that the buffer was made with.
    pub fn settings(&self) -> Settings {
        self.0.settings.into()
    }

    /// The state as C has it.
    pub fn as_raw(&self) -> &raw::Buffer {
        &self.0
    }

    /// A buffer from a state as C has it. One that no call leaves is refused when it is used.
    pub fn from_raw(state: raw::Buffer) -> Buffer {
        Buffer(state)
    }
}
