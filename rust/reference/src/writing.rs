//! Writing a payload and a packet.
//!
//! Refusal 13 is "no plain payload within 2,036 bytes reads to the list given". The payload that document 01's rule
//! gives is made, read back by `reading`, and held against the list: where it does not read to the list, the answer is
//! 13. (That no other payload reads to it either is what the library proves; tests/exact_13.rs tries all small ones.)

use crate::reading::{code_of, is_amr, packet_rows, step_ticks};
use crate::*;

/// Writes one payload for the list of rows, which point into `bytes`. Document 02: "The mode request is read and written: one
/// number, put in every block"; kinds 1 to 3 "write none".
pub fn write_payload(settings: Settings, mode_request: u8, rows: &[u32], bytes: &[u8], out: &mut [u8]) -> Result<u32, u32> {
    let list = rows_asked(settings, mode_request, rows, bytes)?;
    let payload = payload_of(settings, mode_request, &list, bytes).ok_or(NOT_WRITABLE)?;
    put(&payload, out)
}

/// Writes one packet: redundant lists, then the primary list, `counts` saying how many rows each has.
#[allow(clippy::too_many_arguments)]
pub fn write_packet(
    settings: Settings,
    mode_request: u8,
    marker: bool,
    sequence: u16,
    source: u32,
    counts: &[u32],
    rows: &[u32],
    bytes: &[u8],
    out: &mut [u8],
) -> Result<u32, u32> {
    let list = rows_asked(settings, mode_request, rows, bytes)?;
    let head = Head { mode_request, marker, sequence, source };
    let packet = packet_of(settings, head, counts, &list, bytes).ok_or(NOT_WRITABLE)?;
    put(&packet, out)
}

/// The rows of a word area; 11, 14, and 13 for an area that is no whole number of rows.
fn rows_asked(settings: Settings, mode_request: u8, words: &[u32], bytes: &[u8]) -> Result<Vec<Row>, u32> {
    if !settings.in_range() {
        return Err(BAD_SETTINGS);
    }
    // "over 15 given is a setting out of range", in every kind
    if mode_request > MAX_MODE_REQUEST {
        return Err(BAD_SETTINGS);
    }
    // "14 is asked of its whole rows only"
    let list: Vec<Row> = words.chunks_exact(ROW_WORDS).map(Row::from_words).collect();
    if list.iter().any(|row| row.start as u64 + row.length as u64 > bytes.len() as u64) {
        return Err(ROW_OUTSIDE);
    }
    // "An empty frame list is 13, and so is a word area that is no whole number of rows"
    if list.is_empty() || words.len() % ROW_WORDS != 0 {
        return Err(NOT_WRITABLE);
    }
    Ok(list)
}

/// "the area written to is shorter than the bytes to be written" is 12; "bytes of the area past those written stay".
fn put(written: &[u8], out: &mut [u8]) -> Result<u32, u32> {
    if out.len() < written.len() {
        return Err(AREA_TOO_SHORT);
    }
    out[..written.len()].copy_from_slice(written);
    Ok(written.len() as u32)
}

/// The payload for a list alone, or nothing where that is 13.
fn payload_of(settings: Settings, mode_request: u8, list: &[Row], bytes: &[u8]) -> Option<Vec<u8>> {
    let payload = canonical(settings, mode_request, list, bytes)?;
    if payload.len() > MAX_PAYLOAD {
        return None;
    }
    let first = list.first()?;
    if reads_to(settings, &payload, first.time, list, bytes) {
        Some(payload)
    } else {
        None
    }
}

/// Does this plain payload, at this time, read to the list: "the same times, channels, sorts, lengths and frame bytes;
/// starts may differ"? Document 02: "every writer ignores that bit", the mark.
pub(crate) fn reads_to(settings: Settings, payload: &[u8], time: u32, list: &[Row], bytes: &[u8]) -> bool {
    let mut packet = header(false, settings.payload_type, 0, time, 0);
    packet.extend_from_slice(payload);
    let Ok((_, back)) = packet_rows(settings, &packet) else {
        return false;
    };
    back.len() == list.len()
        && back.iter().zip(list).all(|(b, l)| {
            (b.time, b.channel, b.class, b.length) == (l.time, l.channel, l.class, l.length) && frame(&packet, b) == frame(bytes, l)
        })
}

fn frame<'a>(bytes: &'a [u8], row: &Row) -> &'a [u8] {
    &bytes[row.start as usize..(row.start + row.length) as usize]
}

/// "In kinds 1 and 2 writing uses one entry for each longest run of frame-blocks of equal length, channels of a
/// frame-block together and equal in length; in kind 3, one entry a frame." So in kinds 4 and 5, after the payload header. Document 02: "A
/// run over 255 frame-blocks is written as 254, then the rest."
/// Nothing where a class and length has no code, or a step no displacement.
fn canonical(settings: Settings, mode_request: u8, list: &[Row], bytes: &[u8]) -> Option<Vec<u8>> {
    let channels = settings.channels as usize;
    let mut payload = Vec::new();
    if is_amr(settings.format) {
        payload.push(mode_request << 4);
    }
    if settings.format >= 3 {
        for (i, row) in list.iter().enumerate() {
            let another = if i + 1 < list.len() { F_BIT } else { 0 };
            let (code, good) = code_of(settings.format, row.class, row.length)?;
            payload.push(match settings.format {
                3 => another + 16 * code,
                _ => another + 8 * code + if good { QUALITY_BIT } else { 0 },
            });
        }
    } else {
        let blocks: Vec<&[Row]> = list.chunks(channels).collect();
        let runs: Vec<&[&[Row]]> = blocks.chunk_by(|a, b| a[0].length == b[0].length).flat_map(cut).collect();
        let mut before = None;
        for (i, run) in runs.iter().enumerate() {
            let first = run[0][0];
            let another = if i + 1 < runs.len() { F_BIT } else { 0 };
            let (code, _) = code_of(settings.format, first.class, first.length)?;
            payload.push(another + 4 * code);
            payload.push(u8::try_from(run.len()).ok()?);
            if settings.format == 2 {
                // the first entry's DIS1 is 0, and so are the padding bits; a later entry's DIS1 is set (document 02), like any other
                // displacement
                let mut displacements = Vec::new();
                for block in *run {
                    let time = block[0].time;
                    displacements.push(match before {
                        None => 0,
                        Some(before) => displacement(before, time)?,
                    });
                    before = Some(time);
                }
                if displacements.len() % 2 == 1 {
                    displacements.push(0);
                }
                payload.extend(displacements.chunks(2).map(|two| 16 * two[0] + two[1]));
            }
        }
    }
    for row in list {
        payload.extend_from_slice(frame(bytes, row));
    }
    Some(payload)
}

/// A run as the entries that it is written with.
fn cut<'a, 'b>(run: &'a [&'b [Row]]) -> Vec<&'a [&'b [Row]]> {
    if run.len() <= MAX_RUN {
        return vec![run];
    }
    let (first, rest) = run.split_at(CUT_RUN);
    vec![first, rest]
}

/// The frame-blocks between two neighbours at these times; nothing where four bits cannot say it.
fn displacement(before: u32, time: u32) -> Option<u8> {
    let ticks = time.wrapping_sub(before);
    if ticks % step_ticks(2) != 0 || ticks == 0 || ticks / step_ticks(2) > 16 {
        return None;
    }
    Some((ticks / step_ticks(2) - 1) as u8)
}

/// What the caller gives of a packet beside its lists.
#[derive(Clone, Copy)]
struct Head {
    mode_request: u8,
    marker: bool,
    sequence: u16,
    source: u32,
}

/// The packet for the lists, or nothing where that is 13.
fn packet_of(settings: Settings, head: Head, counts: &[u32], rows: &[Row], bytes: &[u8]) -> Option<Vec<u8>> {
    let Head { mode_request, marker, sequence, source } = head;
    // "no count or more than five counts are given, the counts don't make up the area"
    if counts.is_empty() || counts.len() > MAX_REDUNDANT + 1 {
        return None;
    }
    if counts.iter().map(|count| *count as u64).sum::<u64>() != rows.len() as u64 {
        return None;
    }
    // "128 rows", with document 02's figure
    if rows.len() > MAX_ROWS {
        return None;
    }
    // "a list alone is 13"
    let mut lists = Vec::new();
    let mut rest = rows;
    for count in counts {
        let (list, after) = rest.split_at(*count as usize);
        lists.push((list.first()?.time, payload_of(settings, mode_request, list, bytes)?));
        rest = after;
    }
    let (timestamp, primary) = lists.pop()?;

    // "With no redundant list the packet is plain."
    if lists.is_empty() {
        let mut packet = header(marker, settings.payload_type, sequence, timestamp, source);
        packet.extend(primary);
        return if packet.len() > MAX_PACKET { None } else { Some(packet) };
    }
    // "redundant lists come with redundancy type 128"
    if settings.redundancy_type == NO_REDUNDANCY {
        return None;
    }
    let mut packet = header(marker, settings.redundancy_type, sequence, timestamp, source);
    for (time, payload) in &lists {
        // "an offset or length is too large"
        let offset = timestamp.wrapping_sub(*time);
        if offset > MAX_OFFSET || payload.len() > MAX_BLOCK {
            return None;
        }
        let word = (offset << 10) + payload.len() as u32;
        packet.push(F_BIT + settings.payload_type);
        packet.extend_from_slice(&word.to_be_bytes()[1..]);
    }
    packet.push(settings.payload_type);
    for (_, payload) in lists {
        packet.extend(payload);
    }
    packet.extend(primary);
    if packet.len() > MAX_PACKET {
        None
    } else {
        Some(packet)
    }
}

/// The twelve bytes of the RTP header. "The writer uses no CC, X or P".
fn header(marker: bool, payload_type: u8, sequence: u16, timestamp: u32, source: u32) -> Vec<u8> {
    let mut bytes = vec![VERSION_2, if marker { M_BIT + payload_type } else { payload_type }];
    bytes.extend_from_slice(&sequence.to_be_bytes());
    bytes.extend_from_slice(&timestamp.to_be_bytes());
    bytes.extend_from_slice(&source.to_be_bytes());
    bytes
}
