//! The figures of document 01's "Sizes", those that document 02's P12 changes among them, and the numbers of its refusals.

pub const HEADER_BYTES: usize = 12;
pub const MIN_PACKET: usize = 12;
pub const MAX_PACKET: usize = 2048;
/// "a payload written alone at most 2,036 bytes"
pub const MAX_PAYLOAD: usize = 2036;
/// document 02: "Channels go to 1 to 6 for kinds 1 and 2"
pub const MAX_CHANNELS: u8 = 6;
/// document 02: "rows to 384"
pub const MAX_ROWS: usize = 384;
pub const ROW_WORDS: usize = 4;
/// the row area read into; document 02: "row area to 1,536 words"
pub const ROW_AREA: usize = 1536;
/// what the byte of an entry "counting frame-blocks" can say
pub const MAX_RUN: usize = 255;
/// document 02: "A run over 255 frame-blocks is written as 254, then the rest."
pub const CUT_RUN: usize = 254;
pub const SLOTS: usize = 192;
pub const SLOT_BYTES: usize = 320;
pub const STORE_BYTES: usize = 61_440;
pub const DRAW_AREA: usize = 320;
pub const MAX_REDUNDANT: usize = 4;
pub const MAX_OFFSET: u32 = 16_383;
pub const MAX_BLOCK: usize = 1_023;
/// "128 for none"
pub const NO_REDUNDANCY: u8 = 128;
/// document 02: "Rows, no-data ones too, carry it in bit 16 (65,536) of the second word"; the mark of an entry in its tag too
pub const PRIMARY: u32 = 65_536;
/// F: the first bit of a table entry or block header, 1 where another follows
pub const F_BIT: u8 = 0b1000_0000;
/// document 02: the quality bit of an entry of kinds 4 and 5
pub const QUALITY_BIT: u8 = 0b0000_0100;
/// M: the first bit of the packet's second byte
pub const M_BIT: u8 = 0b1000_0000;
/// version 2, in the first two bits of a packet
pub const VERSION_2: u8 = 0b1000_0000;
/// "one frame-block is 960 ticks"; kind 3: "Step 160 ticks"; document 02: "Steps are 160 and 320 ticks"
pub const G719_STEP: u32 = 960;
pub const GSM_HR_STEP: u32 = 160;
pub const AMR_STEP: u32 = 160;
pub const AMR_WB_STEP: u32 = 320;
/// document 02: "over 15 given is a setting out of range"
pub const MAX_MODE_REQUEST: u8 = 15;
/// document 02: "15 if there is none or in kinds 1 to 3"
pub const NO_MODE_REQUEST: u8 = 15;
/// the bytes of frames of AMR's types 0 to 8 and of AMR-WB's 0 to 9, the last of each a SID
pub const AMR_LENGTHS: [u32; 9] = [12, 13, 15, 17, 19, 20, 26, 31, 5];
pub const AMR_WB_LENGTHS: [u32; 10] = [17, 23, 32, 36, 40, 46, 50, 58, 60, 5];

/// document 02: the tags of a log's fields; "Other tags are passed over by length"
pub const SETTINGS_TAG: u8 = 1;
pub const FRAME_TAG: u8 = 2;
pub const END_TAG: u8 = 3;
/// "one-byte tag, two-byte length"
pub const FIELD_HEAD: usize = 3;
/// tag 1: "4 bytes: kind, channels, plain type, redundancy type"
pub const SETTINGS_BYTES: usize = 4;
/// tag 2: "4-byte time, a byte each of channel and sort"
pub const FRAME_HEAD: usize = 6;
/// tag 3: "a 4-byte count"
pub const COUNT_BYTES: usize = 4;
/// whole fields: the first, what a frame's has before the frame, and the last
pub const LOG_FIRST: usize = FIELD_HEAD + SETTINGS_BYTES;
pub const LOG_FRAME: usize = FIELD_HEAD + FRAME_HEAD;
pub const LOG_LAST: usize = FIELD_HEAD + COUNT_BYTES;
/// "a place under 7"
pub const LEAST_PLACE: u64 = 7;
/// "over 2^32 − 1 rows"
pub const MOST_LOG_ROWS: u64 = (1 << 32) - 1;

pub const BAD_PACKET_LENGTH: u32 = 1;
pub const BAD_VERSION: u32 = 2;
pub const HEADER_PAST_END: u32 = 3;
pub const BAD_PADDING: u32 = 4;
pub const OTHER_TYPE: u32 = 5;
pub const TABLE_PAST_END: u32 = 6;
pub const RESERVED_CODE: u32 = 7;
pub const NO_FRAME_BLOCKS: u32 = 8;
pub const TOO_MANY_ROWS: u32 = 9;
pub const BAD_DATA_LENGTH: u32 = 10;
pub const BAD_SETTINGS: u32 = 11;
pub const AREA_TOO_SHORT: u32 = 12;
pub const NOT_WRITABLE: u32 = 13;
pub const ROW_OUTSIDE: u32 = 14;
pub const BAD_BUFFER: u32 = 15;
/// document 02, P3
pub const CUT_FIELD: u32 = 17;
pub const MISPLACED_TAG: u32 = 18;
pub const NOT_ALLOWED: u32 = 19;
pub const WRONG_COUNT: u32 = 20;
