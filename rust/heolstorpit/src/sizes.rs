//! The papers' figures, each said once: what follows from others is computed. They are those of include/heolstorpit.h.

/// Bytes of a packet, at least.
pub const MIN_PACKET: usize = 12;
/// Bytes of a packet, at most.
pub const MAX_PACKET: usize = 2048;
/// Bytes of a payload written alone, at most.
pub const MAX_PAYLOAD: usize = 2036;
/// Channels of G.719, at most; the other formats have one.
pub const MAX_CHANNELS: u8 = 6;
/// Rows of a packet, at most.
pub const MAX_ROWS: usize = 384;
/// Words of a row.
pub const ROW_WORDS: usize = 4;
/// Words of a row area that is read into, at least.
pub const ROW_AREA: usize = MAX_ROWS * ROW_WORDS;
/// Frames that a buffer holds, at most.
pub const SLOTS: usize = 192;
/// Bytes of a slot of the store: the longest frame.
pub const SLOT_BYTES: usize = 320;
/// Bytes of a store, at least.
pub const STORE_BYTES: usize = SLOTS * SLOT_BYTES;
/// Bytes of the area that a frame is drawn to, at least.
pub const DRAW_AREA: usize = SLOT_BYTES;
/// Redundant lists of a packet written, at most.
pub const MAX_REDUNDANT: usize = 4;
/// The bit of a row's second word, and of a tag in a buffer, that says: primary.
pub const PRIMARY: u32 = 65_536;
/// The redundancy type that says: none.
pub const NO_REDUNDANCY: u8 = 128;
/// The mode request that says: none. It is the greatest.
pub const NO_MODE_REQUEST: u8 = 15;
/// Bytes of a log's first field, which has the settings.
pub const LOG_FIRST: usize = 7;
/// Bytes of a frame's field in a log before the frame's own.
pub const LOG_FRAME: usize = 9;
/// Bytes of a log's last field, which has the number of frames.
pub const LOG_LAST: usize = 7;
