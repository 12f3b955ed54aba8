//! Reading a packet: "The RTP header", "Redundancy", "G.719 tables of contents", "GSM-HR tables"; document 02, P1: AMR and AMR-WB; P2: say
//! where; P6: heard first-hand or not.

use crate::*;

/// What reading answers beside the rows.
#[derive(Clone, Copy, Debug, Default, PartialEq, Eq)]
pub struct Reading {
    pub rows: u32,
    pub marker: u32,
    pub sequence: u32,
    pub timestamp: u32,
    pub source: u32,
    pub mode_request: u32,
}

/// Why reading refuses, and where. Document 02: "Refusals 6 to 10 shall also give an offset in the whole packet"; "Everything else gives
/// 0."
#[derive(Clone, Copy, Debug, PartialEq, Eq)]
pub struct Fault {
    pub refusal: u32,
    pub offset: u32,
}

/// A refusal that gives no offset.
impl From<u32> for Fault {
    fn from(refusal: u32) -> Fault {
        Fault { refusal, offset: 0 }
    }
}

/// A refusal at this place of the packet.
fn fault(refusal: u32, at: usize) -> Fault {
    Fault { refusal, offset: at as u32 }
}

/// Reads a packet into the row area. The answer and the words after the last row stay as document 01 says; a refusal
/// changes no word.
pub fn read(settings: Settings, packet: &[u8], area: &mut [u32]) -> Result<Reading, Fault> {
    if !settings.in_range() {
        return Err(BAD_SETTINGS.into());
    }
    if area.len() < ROW_AREA {
        return Err(AREA_TOO_SHORT.into());
    }
    let (reading, rows) = packet_rows(settings, packet)?;
    for (i, row) in rows.iter().enumerate() {
        area[ROW_WORDS * i..ROW_WORDS * (i + 1)].copy_from_slice(&row.words());
    }
    Ok(reading)
}

/// The header's fields and the rows of a packet, or the first refusal of 1 to 10 that applies.
pub(crate) fn packet_rows(settings: Settings, packet: &[u8]) -> Result<(Reading, Vec<Row>), Fault> {
    if packet.len() < MIN_PACKET || packet.len() > MAX_PACKET {
        return Err(BAD_PACKET_LENGTH.into());
    }
    let version = packet[0] >> 6;
    let padded = packet[0] & 0b0010_0000 != 0;
    let extended = packet[0] & 0b0001_0000 != 0;
    let sources = (packet[0] & 0b0000_1111) as usize;
    let marker = (packet[1] >> 7) as u32;
    let payload_type = packet[1] & 127;
    let sequence = big_endian(&packet[2..4]);
    let timestamp = big_endian(&packet[4..8]);
    let source = big_endian(&packet[8..12]);
    if version != 2 {
        return Err(BAD_VERSION.into());
    }

    // "Then 4 × CC bytes. With X: two bytes passed over, a 16-bit count, and that many 32-bit words."
    let mut start = HEADER_BYTES + 4 * sources;
    if start > packet.len() {
        return Err(HEADER_PAST_END.into());
    }
    if extended {
        if start + 4 > packet.len() {
            return Err(HEADER_PAST_END.into());
        }
        let words = big_endian(&packet[start + 2..start + 4]) as usize;
        start += 4 + 4 * words;
        if start > packet.len() {
            return Err(HEADER_PAST_END.into());
        }
    }

    // "With P, the last byte of the packet says how many end bytes are padding, itself included: at least 1, at most
    // the bytes after the headers."
    let mut end = packet.len();
    if padded {
        let padding = packet[packet.len() - 1] as usize;
        if padding < 1 || padding > packet.len() - start {
            return Err(BAD_PADDING.into());
        }
        end -= padding;
    }

    // "reading answers that of the last plain payload or block with rows, 15 if there is none or in kinds 1 to 3"
    let mut found = Found { rows: Vec::new(), mode_request: NO_MODE_REQUEST };
    if payload_type == settings.payload_type {
        let plain = Part { start, end, time: timestamp, primary: true };
        payload_rows(settings, packet, plain, &mut found)?;
    } else if payload_type == settings.redundancy_type {
        redundancy_rows(settings, packet, start, end, timestamp, &mut found)?;
    } else {
        return Err(OTHER_TYPE.into());
    }
    let Found { rows, mode_request } = found;
    let reading = Reading { rows: rows.len() as u32, marker, sequence, timestamp, source, mode_request: mode_request as u32 };
    Ok((reading, rows))
}

/// What the payloads of a packet gave so far.
struct Found {
    rows: Vec<Row>,
    mode_request: u8,
}

/// A plain payload or a block: it lies at `start..end` of the packet, its first frame-block at `time`. Document 02: is it "the primary
/// block or a plain payload"?
struct Part {
    start: usize,
    end: usize,
    time: u32,
    primary: bool,
}

struct Block {
    payload_type: u8,
    time: u32,
    length: usize,
    primary: bool,
}

/// The redundancy payload that lies at `start..end` of the packet.
fn redundancy_rows(settings: Settings, packet: &[u8], start: usize, end: usize, timestamp: u32, found: &mut Found) -> Result<(), Fault> {
    // "all block headers are walked first (6)"; document 02: "the first byte of the ... block header at fault", or where a missing one
    // would start
    let mut blocks = Vec::new();
    let mut at = start;
    let last_type = loop {
        if at + 1 > end {
            return Err(fault(TABLE_PAST_END, at));
        }
        let payload_type = packet[at] & 127;
        if packet[at] & F_BIT == 0 {
            at += 1;
            break payload_type;
        }
        if at + 4 > end {
            return Err(fault(TABLE_PAST_END, at));
        }
        // "F = 1, type 7 bits, offset 14 bits, length 10 bits"
        let rest = big_endian(&packet[at + 1..at + 4]);
        let offset = rest >> 10;
        let length = (rest & 1023) as usize;
        // "A block's time is the packet's timestamp less its offset, modulo 2^32."
        blocks.push(Block { payload_type, time: timestamp.wrapping_sub(offset), length, primary: false });
        at += 4;
    };

    // "then lengths summed (10)"; "the last takes all that remains"; document 02: "the first byte after the ... block headers"
    let summed: usize = blocks.iter().map(|b| b.length).sum();
    if summed > end - at {
        return Err(fault(BAD_DATA_LENGTH, at));
    }
    // the last block is the primary one
    blocks.push(Block { payload_type: last_type, time: timestamp, length: end - at - summed, primary: true });

    // "then each block is read as a payload, in order". "Only blocks of the plain type give rows; others, a nested
    // redundancy type included, are passed over. A block of length 0 gives no rows."
    for block in blocks {
        if block.payload_type == settings.payload_type && block.length != 0 {
            let part = Part { start: at, end: at + block.length, time: block.time, primary: block.primary };
            payload_rows(settings, packet, part, found)?;
        }
        at += block.length;
    }
    Ok(())
}

/// A group of frame-blocks of one length: a table entry. `steps[i]` is the number of steps from the frame-block before.
struct Entry {
    class: u32,
    length: u32,
    steps: Vec<u32>,
}

/// Reads one payload of the packet; its rows are added to those found.
fn payload_rows(settings: Settings, packet: &[u8], part: Part, found: &mut Found) -> Result<(), Fault> {
    let Part { start, end, time, primary } = part;
    let channels = settings.channels as usize;
    let mut entries: Vec<Entry> = Vec::new();
    let mut so_far = found.rows.len();
    let mut at = start;
    let mut mode_request = NO_MODE_REQUEST;
    if is_amr(settings.format) {
        // "Payload header: 4-bit mode request, 4 reserved bits." An empty payload is 6, "where an empty payload ... would start"
        if at + 1 > end {
            return Err(fault(TABLE_PAST_END, at));
        }
        mode_request = packet[at] >> 4;
        at += 1;
    }
    loop {
        // 6 to 9 are "the first byte of the entry ... at fault", or where a missing one would start.
        // 6: a table entry runs past the end
        let size = match settings.format {
            1 => 2,
            2 if at + 2 <= end => 2 + (packet[at + 1] as usize).div_ceil(2),
            2 => 2,
            _ => 1,
        };
        if at + size > end {
            return Err(fault(TABLE_PAST_END, at));
        }
        // 7: reserved L or type
        let code = match settings.format {
            3 => (packet[at] >> 4) & 7,
            // "Entry: F, type 4 bits, quality bit, two padding bits."
            4 | 5 => (packet[at] >> 3) & 15,
            _ => (packet[at] >> 2) & 31,
        };
        let good = !is_amr(settings.format) || packet[at] & QUALITY_BIT != 0;
        let Some((class, length)) = frame_of(settings.format, code, good) else {
            return Err(fault(RESERVED_CODE, at));
        };
        // 8: frame-block count 0
        let blocks = match settings.format {
            3..=5 => 1,
            _ => packet[at + 1] as usize,
        };
        if blocks == 0 {
            return Err(fault(NO_FRAME_BLOCKS, at));
        }
        // 9: more rows so far than there may be
        so_far += blocks * channels;
        if so_far > MAX_ROWS {
            return Err(fault(TOO_MANY_ROWS, at));
        }
        let steps = (0..blocks)
            .map(|i| {
                if i == 0 && entries.is_empty() {
                    // "the payload's first frame-block stands at the payload's time"; document 02: "only the first entry's DIS1 is
                    // passed over"
                    0
                } else if settings.format != 2 {
                    // "Kind 1 always steps by one"
                    1
                } else {
                    // "one 4-bit displacement per frame-block, high half first"; "the step is displacement + 1"; document 02: "In a
                    // later entry it counts the frame-blocks between the previous group's last and this group's first"
                    let pair = packet[at + 2 + i / 2];
                    let displacement = if i % 2 == 0 { pair >> 4 } else { pair & 15 };
                    displacement as u32 + 1
                }
            })
            .collect();
        entries.push(Entry { class, length, steps });
        let another = packet[at] & F_BIT != 0;
        at += size;
        if !another {
            break;
        }
    }

    // 10: bytes too few or left over after the tables; document 02: "the first byte after the tables"
    let sound: usize = entries.iter().map(|e| e.steps.len() * channels * e.length as usize).sum();
    if sound != end - at {
        return Err(fault(BAD_DATA_LENGTH, at));
    }

    // "Sound follows the last entry: frame-block by frame-block, channels 0, 1 within each", and so on to the last channel
    let mut now = time;
    for entry in &entries {
        for step in &entry.steps {
            now = now.wrapping_add(step * step_ticks(settings.format));
            for channel in 0..channels as u32 {
                found.rows.push(Row { time: now, class: entry.class, channel, primary, start: at as u32, length: entry.length });
                at += entry.length as usize;
            }
        }
    }
    found.mode_request = mode_request;
    Ok(())
}

/// Class and length of the frames that a table code announces, with the quality bit set ("good") or not; nothing where the code
/// is reserved.
pub(crate) fn frame_of(format: u8, code: u8, good: bool) -> Option<(u32, u32)> {
    let code = code as u32;
    match format {
        // "L = 0 is no data; 8 to 22 is 80 + 10 × (L − 8) bytes; 23 to 27 is 240 + 20 × (L − 23)"
        1 | 2 => match code {
            0 => Some((0, 0)),
            8..=22 => Some((1, 80 + 10 * (code - 8))),
            23..=27 => Some((1, 240 + 20 * (code - 23))),
            _ => None,
        },
        // "Type 0 is sound and 2 is SID, 14 bytes each; 7 is no data; the rest are reserved."
        3 => match code {
            0 => Some((1, 14)),
            2 => Some((2, 14)),
            7 => Some((0, 0)),
            _ => None,
        },
        // "AMR types 0 to 8 take 12, 13, 15, 17, 19, 20, 26, 31, 5 bytes", "each 5 a SID"; "Type 15 is no data"; "AMR 9 to 14 ... are
        // refusal 7"
        4 => match code {
            0..=7 => Some((sound(good), AMR_LENGTHS[code as usize])),
            8 => Some((sid(good), AMR_LENGTHS[8])),
            15 => Some((0, 0)),
            _ => None,
        },
        // "AMR-WB types 0 to 9 take 17, 23, 32, 36, 40, 46, 50, 58, 60, 5"; "Type 15 is no data, and so is 14 in AMR-WB"; "AMR-WB 10 to
        // 13 are refusal 7"
        _ => match code {
            0..=8 => Some((sound(good), AMR_WB_LENGTHS[code as usize])),
            9 => Some((sid(good), AMR_WB_LENGTHS[9])),
            14 | 15 => Some((0, 0)),
            _ => None,
        },
    }
}

/// "With quality bit 0 the sort is 5 for sound and 6 for SID"
fn sound(good: bool) -> u32 {
    if good {
        1
    } else {
        5
    }
}

fn sid(good: bool) -> u32 {
    if good {
        2
    } else {
        6
    }
}

/// The code and the quality bit that announce frames of this class and length, if there are some. "No data ... is written as type
/// 15 with it set": the bit set comes first, and the greatest code.
pub(crate) fn code_of(format: u8, class: u32, length: u32) -> Option<(u8, bool)> {
    let all = [true, false].into_iter().flat_map(|good| (0..32).rev().map(move |code| (code, good)));
    all.into_iter().find(|(code, good)| frame_of(format, *code, *good) == Some((class, length)))
}

/// Document 02: "kinds 4 and 5 for their AMR and AMR-WB radios".
pub(crate) fn is_amr(format: u8) -> bool {
    format == 4 || format == 5
}

/// The ticks of one step of a format.
pub fn step_ticks(format: u8) -> u32 {
    match format {
        3 => GSM_HR_STEP,
        4 => AMR_STEP,
        5 => AMR_WB_STEP,
        _ => G719_STEP,
    }
}

pub(crate) fn big_endian(bytes: &[u8]) -> u32 {
    bytes.iter().fold(0, |number, byte| number * 256 + *byte as u32)
}
