//! Logs: built field by field, then spoiled in a way whose refusal is known, or damaged anyhow; cursors of a log; and lists of rows to be
//! written to one.

use crate::{bad_settings, List, Random};
use reference::{
    LogCursor, Row, Settings, AMR_LENGTHS, AMR_WB_LENGTHS, COUNT_BYTES, END_TAG, FIELD_HEAD, FRAME_HEAD, FRAME_TAG, LEAST_PLACE, PRIMARY,
    ROW_WORDS, SETTINGS_BYTES, SETTINGS_TAG, SLOT_BYTES,
};

/// A field as it is laid down; the length it says need not be that of its content.
#[derive(Clone, Debug)]
pub struct LogField {
    pub tag: u8,
    pub length: u16,
    pub content: Vec<u8>,
}

impl LogField {
    pub fn new(tag: u8, content: Vec<u8>) -> LogField {
        LogField { tag, length: content.len() as u16, content }
    }

    /// Tag 1.
    pub fn first(s: Settings) -> LogField {
        LogField::new(SETTINGS_TAG, vec![s.format, s.channels, s.payload_type, s.redundancy_type])
    }

    /// Tag 2.
    pub fn frame(time: u32, channel: u8, class: u8, bytes: &[u8]) -> LogField {
        LogField::new(FRAME_TAG, [&time.to_be_bytes()[..], &[channel, class], bytes].concat())
    }

    /// Tag 3.
    pub fn last(count: u32) -> LogField {
        LogField::new(END_TAG, count.to_be_bytes().to_vec())
    }
}

/// The bytes of these fields.
pub fn log_bytes(fields: &[LogField]) -> Vec<u8> {
    let mut bytes = Vec::new();
    for field in fields {
        bytes.push(field.tag);
        bytes.extend(field.length.to_be_bytes());
        bytes.extend(&field.content);
    }
    bytes
}

/// Classes and lengths of the frames that a format has, those of no data left out.
pub fn log_frames(format: u8) -> Vec<(u8, usize)> {
    let amr = |lengths: &[u32]| -> Vec<(u8, usize)> {
        let sid = lengths.len() - 1;
        let classes = |i: usize| if i == sid { [2, 6] } else { [1, 5] };
        (0..lengths.len()).flat_map(|i| classes(i).map(|class| (class, lengths[i] as usize))).collect()
    };
    match format {
        3 => vec![(1, 14), (2, 14)],
        4 => amr(&AMR_LENGTHS),
        5 => amr(&AMR_WB_LENGTHS),
        _ => (80..=220).step_by(10).chain((240..=320).step_by(20)).map(|length| (1, length)).collect(),
    }
}

fn time(r: &mut Random) -> u32 {
    match r.below(4) {
        0 => r.pick(&[0, 1, 255, 256, 65_536, 1 << 24, (1 << 31) - 1, 1 << 31, u32::MAX]),
        _ => r.word(),
    }
}

/// A frame that the settings allow.
pub fn log_frame(r: &mut Random, s: Settings) -> LogField {
    let (class, length) = r.pick(&log_frames(s.format));
    let bytes = r.bytes(length);
    LogField::frame(time(r), r.below(s.channels as usize) as u8, class, &bytes)
}

/// A field that is passed over; often its content looks like fields of a log.
pub fn log_other(r: &mut Random, s: Settings) -> LogField {
    let tag = match r.below(3) {
        0 => r.pick(&[0, 4, 5, 127, 128, 254, 255]),
        _ => r.within(4, 255) as u8,
    };
    let content = match r.below(12) {
        0 | 1 => Vec::new(),
        2 => log_bytes(&[LogField::first(s), LogField::last(0)]),
        3 => log_bytes(&[log_frame(r, s)]),
        4 => log_bytes(&[LogField::last(r.below(4) as u32)]),
        5 => vec![r.below(4) as u8; r.within(1, 9)],
        6 => {
            let length = r.pick(&[255, 256, 257, 511, 512, 1024]);
            r.bytes(length)
        }
        _ => {
            let length = r.within(1, 20);
            r.bytes(length)
        }
    };
    LogField::new(tag, content)
}

/// A log with as many frames, and other fields between as often, in percent.
pub fn log_fields(r: &mut Random, s: Settings, frames: usize, others: usize) -> Vec<LogField> {
    let mut fields = vec![LogField::first(s)];
    for i in 0..=frames {
        while r.percent(others) {
            fields.push(log_other(r, s));
        }
        if i < frames {
            fields.push(log_frame(r, s));
        }
    }
    fields.push(LogField::last(frames as u32));
    fields
}

/// Where the fields of a log start, and where the last one ends, as far as it can be followed.
pub fn log_places(log: &[u8]) -> Vec<u64> {
    let mut places = vec![0];
    let mut at = 0;
    while at + FIELD_HEAD <= log.len() {
        at += FIELD_HEAD + u16::from_be_bytes([log[at + 1], log[at + 2]]) as usize;
        places.push(at as u64);
    }
    places
}

/// A log that was spoiled in one way, and what that makes of it: the frames before the field at fault, and the refusal.
#[derive(Clone, Debug)]
pub struct SpoiledLog {
    pub log: Vec<u8>,
    pub way: &'static str,
    pub frames: usize,
    pub refusal: u32,
}

/// The ways to spoil a log, with the refusals that they lead to.
pub const LOG_SPOILS: [(&str, u32); 18] = [
    ("first tag other than 1", 18),
    ("empty log", 18),
    ("second tag 1", 18),
    ("byte after tag 3", 18),
    ("log stops before tag 3", 18),
    ("tag or length cut", 17),
    ("content cut", 17),
    ("length past the end", 17),
    ("tag 1 of another length", 19),
    ("settings out of range", 19),
    ("frame of under 6 bytes", 19),
    ("channel out of range", 19),
    ("class 0", 19),
    ("class that the format has not", 19),
    ("length that the format has not", 19),
    ("tag 3 of another length", 19),
    ("wrong count", 20),
    ("wrong count, and bytes after it", 20),
];

/// Spoils a log of these settings in one of `LOG_SPOILS`, by number.
pub fn spoiled_log(r: &mut Random, s: Settings, spoil: usize) -> SpoiledLog {
    let (way, refusal) = LOG_SPOILS[spoil];
    let frames = r.below(5);
    let mut fields = log_fields(r, s, frames, 25);
    // the field at fault, and how many bytes are left of the log, or are put after it
    let mut at = r.below(fields.len());
    let between = r.within(1, fields.len() - 1);
    let mut keep = None;
    let mut after = Vec::new();
    match way {
        "first tag other than 1" => {
            at = 0;
            match r.below(5) {
                0 => drop(fields.remove(0)),
                1 => fields.insert(0, log_other(r, s)),
                2 => fields.swap(0, between),
                3 => keep = Some(1),
                _ => {}
            }
            if fields[0].tag == SETTINGS_TAG {
                fields[0].tag = r.pick(&[0, 2, 3, 4, 128, 129, 255]);
            }
        }
        "empty log" => {
            at = 0;
            keep = Some(0);
        }
        "second tag 1" => {
            at = between;
            let mut second = LogField::first(if r.percent(80) { s } else { bad_settings(r) });
            match r.below(4) {
                0 => second.content.truncate(r.below(SETTINGS_BYTES)),
                1 => second.length = r.word() as u16,
                2 => second = LogField::new(SETTINGS_TAG, r.bytes(30)),
                _ => {}
            }
            fields.insert(at, second);
        }
        "byte after tag 3" => {
            at = fields.len();
            after = match r.below(4) {
                0 => vec![r.below(4) as u8],
                1 => log_bytes(&[fields[fields.len() - 1].clone()]),
                2 => log_bytes(&[log_other(r, s)]),
                _ => {
                    let length = r.within(1, 12);
                    r.bytes(length)
                }
            };
        }
        "log stops before tag 3" => {
            at = between;
            fields.truncate(at);
        }
        "tag or length cut" => keep = Some(log_bytes(&fields[..at]).len() + r.within(1, FIELD_HEAD - 1)),
        "content cut" => {
            while fields[at].content.is_empty() {
                at = r.below(fields.len());
            }
            keep = Some(log_bytes(&fields[..at]).len() + FIELD_HEAD + r.below(fields[at].content.len()));
        }
        "length past the end" => {
            let rest = log_bytes(&fields[at..]).len() - FIELD_HEAD;
            fields[at].length = r.pick(&[rest + 1, rest + 1, rest + 2, rest + 256, 32_768, 65_535]).max(rest + 1) as u16;
        }
        "tag 1 of another length" => {
            at = 0;
            let length = r.pick(&[0, 1, 2, 3, 5, 6, 8, 260, 1024]);
            let mut content = log_bytes(&fields[..1])[FIELD_HEAD..].to_vec();
            content.resize(length, 0);
            fields[0] = LogField::new(SETTINGS_TAG, content);
        }
        "settings out of range" => {
            at = 0;
            fields[0] = LogField::first(bad_settings(r));
        }
        "tag 3 of another length" => {
            at = fields.len() - 1;
            let length = r.pick(&[0, 1, 2, 3, 5, 6, 8, 260, 1024]);
            fields[at].content.resize(length, 0);
            fields[at].length = length as u16;
        }
        "wrong count" | "wrong count, and bytes after it" => {
            at = fields.len() - 1;
            let count = frames as u32;
            let wrong = match r.below(5) {
                0 => count.wrapping_sub(1),
                1 => count | 1 << r.within(3, 31),
                2 => count.swap_bytes().max(1) + (count == 1) as u32,
                3 => fields.len() as u32,
                _ => count + 1,
            };
            fields[at] = LogField::last(if wrong == count { count + 1 } else { wrong });
            if way != "wrong count" {
                let length = r.within(1, 9);
                after = r.bytes(length);
            }
        }
        _ => {
            at = between;
            let mut frame = log_frame(r, s);
            let all = log_frames(s.format);
            match way {
                "frame of under 6 bytes" => frame.content.truncate(r.below(FRAME_HEAD)),
                "channel out of range" => frame.content[4] = s.channels.max(r.pick(&[1, 2, 3, 6, 7, 128, 255])),
                "class 0" => {
                    frame.content[5] = 0;
                    if r.percent(50) {
                        frame.content.truncate(FRAME_HEAD);
                    }
                }
                "class that the format has not" => {
                    let length = frame.content.len() - FRAME_HEAD;
                    while all.contains(&(frame.content[5], length)) {
                        frame.content[5] = if r.percent(80) { r.below(9) as u8 } else { r.byte() };
                    }
                }
                _ => {
                    let class = frame.content[5];
                    let other = r.within(1, 5) as u8;
                    let mut length = r.pick(&log_frames(other)).1;
                    while all.contains(&(class, length)) {
                        length = match r.below(3) {
                            0 => r.pick(&[0, 1, 5, 14, 31, 60, 79, 80, 81, 220, 230, 240, 320, 321, 330, 340]),
                            1 => r.pick(&all).1 + 256 * r.within(1, 3),
                            _ => r.below(700),
                        };
                    }
                    frame.content.resize(FRAME_HEAD + length, 7);
                }
            }
            frame.length = frame.content.len() as u16;
            fields.insert(at, frame);
        }
    }
    let frames = fields[..at].iter().filter(|field| field.tag == FRAME_TAG).count();
    let mut log = log_bytes(&fields);
    log.truncate(keep.unwrap_or(log.len()));
    log.extend(after);
    SpoiledLog { log, way, frames, refusal }
}

/// Damages the bytes of a log.
pub fn damage_log(r: &mut Random, log: &mut Vec<u8>) {
    if log.is_empty() {
        log.push(r.byte());
        return;
    }
    let places = log_places(log);
    let at = match r.below(3) {
        // in the head of a field
        0 => (r.pick(&places) as usize + r.below(FIELD_HEAD + FRAME_HEAD)).min(log.len() - 1),
        _ => r.below(log.len()),
    };
    match r.below(9) {
        0 => log[at] ^= 1 << r.below(8),
        1 => log[at] = r.byte(),
        2 => log[at] = r.pick(&[0, 1, 2, 3, 4, 255]),
        3 => drop(log.remove(at)),
        4 => log.insert(at, r.pick(&[0, 1, 2, 3, 255])),
        5 => log.truncate(at),
        6 => {
            let length = r.within(1, 12);
            log.extend(r.bytes(length));
        }
        7 => {
            // a part of it once more
            let end = r.within(at, log.len() - 1);
            let part = log[at..=end].to_vec();
            log.splice(at..at, part);
        }
        _ => {
            let end = r.within(at, log.len() - 1);
            log.drain(at..=end);
        }
    }
}

/// A cursor of this log: one that its reading comes by, or one with numbers around the edges.
pub fn log_cursor(r: &mut Random, s: Settings, log: &[u8]) -> LogCursor {
    let settings = match r.below(12) {
        0 => bad_settings(r),
        1 => crate::other_settings(r, s),
        2 => Settings::default(),
        _ => s,
    };
    let length = log.len() as u64;
    let place = match r.below(10) {
        0 => r.pick(&[0, 1, LEAST_PLACE - 1, LEAST_PLACE, LEAST_PLACE + 1, LEAST_PLACE + 3]),
        1 => (length + 1).wrapping_sub(r.below(4) as u64),
        2 => r.pick(&[length + 1, length + 256, 1 << 31, 1 << 32, (1 << 32) + LEAST_PLACE, (1 << 32) + length, 1 << 63, u64::MAX]),
        3 => r.below(log.len() + 1) as u64,
        4 => (1u64 << r.within(32, 63)) + r.pick(&log_places(log)),
        _ => r.pick(&log_places(log)),
    };
    let count = match r.below(8) {
        0 => r.pick(&[place.wrapping_sub(1), place, place.wrapping_add(1)]),
        1 => r.pick(&[u32::MAX as u64, 1 << 32, (1 << 32) + 1, 1 << 63, u64::MAX]),
        2 => (1u64 << r.within(32, 63)) + r.below(4) as u64,
        3 => r.below(300) as u64,
        _ => r.below(6) as u64,
    };
    LogCursor { settings, place, count }
}

/// Rows that can be written to a log, at any times, their frames anywhere in a byte area, overlapping or not.
pub fn log_list(r: &mut Random, s: Settings, rows: usize) -> List {
    let size = SLOT_BYTES + r.below(300);
    let all = log_frames(s.format);
    let mut words = Vec::new();
    for _ in 0..rows {
        let (class, length) = r.pick(&all);
        let start = match r.below(10) {
            0 => size - length,
            1 => 0,
            _ => r.below(size - length + 1),
        };
        let (channel, primary) = (r.below(s.channels as usize) as u32, r.percent(50));
        let row = Row { time: time(r), class: class as u32, channel, primary, start: start as u32, length: length as u32 };
        words.extend(row.words());
    }
    List { words, bytes: r.bytes(size) }
}

/// What a list for a log is spoiled by, with the refusals.
pub const LOG_LIST_SPOILS: [(&str, u32); 11] = [
    ("row past the bytes", 14),
    ("row far past the bytes", 14),
    ("row of no data past the bytes", 14),
    ("fewer bytes", 14),
    ("part of a row", 19),
    ("row of no data", 19),
    ("row's channel out of range", 19),
    ("row's class not of the format", 19),
    ("row's length not of the format", 19),
    ("bit above the mark", 19),
    ("class of a byte and more", 19),
];

/// Spoils a list of at least one row in one of `LOG_LIST_SPOILS`, by number.
pub fn spoil_log_list(r: &mut Random, s: Settings, list: &mut List, spoil: usize) {
    let at = ROW_WORDS * r.below(list.rows());
    let size = list.bytes.len() as u32;
    let all = log_frames(s.format);
    let length = list.words[at + 3] as usize;
    match LOG_LIST_SPOILS[spoil].0 {
        "row past the bytes" => list.words[at + 2] = size - length as u32 + 1,
        "row far past the bytes" => match r.below(3) {
            // the sum passes 32 bits too
            0 => list.words[at + 2] = r.pick(&[size + 1, 1 << 31, u32::MAX, 0u32.wrapping_sub(length as u32)]),
            1 => list.words[at + 3] = r.pick(&[size + 1, 1 << 31, u32::MAX, 0u32.wrapping_sub(list.words[at + 2]).max(size + 1)]),
            _ => list.words[at + 2..at + 4].fill(u32::MAX),
        },
        "row of no data past the bytes" => {
            list.words[at + 1] = r.pick(&[0, PRIMARY]);
            list.words[at + 2..at + 4].copy_from_slice(&[size + 1, 0]);
        }
        "fewer bytes" => {
            let end = list.words.chunks_exact(ROW_WORDS).map(|row| row[2] + row[3]).max().unwrap_or(1);
            list.bytes.truncate(r.below(end as usize));
        }
        "part of a row" => match r.below(2) {
            0 => list.words.truncate(list.words.len() - r.within(1, 3)),
            // words that would be of a row outside
            _ => list.words.extend(vec![u32::MAX; r.within(1, 3)]),
        },
        "row of no data" => {
            list.words[at + 1] = r.pick(&[0, PRIMARY]) + r.below(s.channels as usize) as u32;
            if r.percent(70) {
                list.words[at + 2..at + 4].copy_from_slice(&[r.pick(&[0, 1, size - 1, size]), 0]);
            }
        }
        "row's channel out of range" => {
            let channel = r.pick(&[1, 2, 3, 6, 7, 128, 255]).max(s.channels as u32);
            list.words[at + 1] = list.words[at + 1] & !255 | channel;
        }
        "row's class not of the format" => {
            let mut class = (list.words[at + 1] & !PRIMARY) / 256;
            while all.contains(&(class as u8, length)) {
                class = if r.percent(80) { r.within(1, 8) as u32 } else { r.within(1, 255) as u32 };
            }
            list.words[at + 1] = (list.words[at + 1] & (PRIMARY | 255)) + 256 * class;
        }
        "row's length not of the format" => {
            let class = ((list.words[at + 1] & !PRIMARY) / 256) as u8;
            let mut other = length;
            while all.contains(&(class, other)) || other > size as usize {
                other = if r.percent(50) { r.below(size as usize + 1) } else { r.pick(&[0, 5, 14, 31, 60, 79, 81, 225, 230, 319]) };
            }
            list.words[at + 2..at + 4].copy_from_slice(&[r.below(size as usize - other + 1) as u32, other as u32]);
        }
        "bit above the mark" => list.words[at + 1] |= 1 << r.within(17, 31),
        _ => list.words[at + 1] |= r.pick(&[1, 2, 3, 256, 32_767]) * 2 * PRIMARY,
    }
}

/// Bytes of the log of a list that can be written.
pub fn log_length(list: &List) -> usize {
    let frames: usize = list.words.chunks_exact(ROW_WORDS).map(|row| FIELD_HEAD + FRAME_HEAD + row[3] as usize).sum();
    FIELD_HEAD + SETTINGS_BYTES + frames + FIELD_HEAD + COUNT_BYTES
}
