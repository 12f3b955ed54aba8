//! A kept log: document 02's P3.
//!
//! Two readers, on purpose. `read_log` takes the whole log apart into fields and then judges them, one after another; `log_open` and
//! `log_step` walk the bytes from a place. The steps have to come to what the whole log is: `cases/tests/logs.rs` sees to that.

use crate::reading::{big_endian, code_of};
use crate::*;
use std::ops::Range;

/// A record that is refused has the number of a malformed buffer.
pub const BAD_CURSOR: u32 = BAD_BUFFER;

/// "a record that keeps the lent part and its place, the settings and the count"; the part is given with each call here.
#[derive(Clone, Copy, Debug, Default, PartialEq, Eq)]
pub struct LogCursor {
    pub settings: Settings,
    pub place: u64,
    pub count: u64,
}

/// A frame of a log; its bytes are `length` of the log's, from `start`.
#[derive(Clone, Copy, Debug, PartialEq, Eq)]
pub struct LogFrame {
    pub time: u32,
    pub channel: u32,
    /// document 02: sort
    pub class: u32,
    pub start: u64,
    pub length: u64,
}

/// What a step shows: "the next frame as a part of the log or .. the end".
#[derive(Clone, Copy, Debug, PartialEq, Eq)]
pub enum LogStep {
    Frame(LogFrame),
    End,
}

/// A whole log: what it says up to its end, or up to the field at fault.
#[derive(Clone, Debug, Default, PartialEq, Eq)]
pub struct WholeLog {
    /// nothing where the first field is at fault
    pub settings: Option<Settings>,
    pub frames: Vec<LogFrame>,
    /// 0 where the log is whole
    pub refusal: u32,
}

/// Where the content of the field at this place lies: "one-byte tag, two-byte length, content"; nothing where the field is cut.
fn content_at(log: &[u8], place: usize) -> Option<Range<usize>> {
    let start = place + FIELD_HEAD;
    if start > log.len() {
        return None;
    }
    let length = big_endian(&log[place + 1..start]) as usize;
    if length > log.len() - start {
        return None;
    }
    Some(start..start + length)
}

/// "4 bytes: kind, channels, plain type, redundancy type"; 19 also for "settings out of range".
fn settings_in(content: &[u8]) -> Result<Settings, u32> {
    let [format, channels, payload_type, redundancy_type] = *content else {
        return Err(NOT_ALLOWED);
    };
    let settings = Settings { format, channels, payload_type, redundancy_type };
    if settings.in_range() {
        Ok(settings)
    } else {
        Err(NOT_ALLOWED)
    }
}

/// "4-byte time, a byte each of channel and sort, the frame bytes"
fn frame_in(settings: Settings, log: &[u8], content: Range<usize>) -> Result<LogFrame, u32> {
    if content.len() < FRAME_HEAD {
        return Err(NOT_ALLOWED);
    }
    let head = &log[content.start..content.start + FRAME_HEAD];
    let (time, channel, class) = (big_endian(&head[..4]), head[4] as u32, head[5] as u32);
    let length = content.len() - FRAME_HEAD;
    if !is_allowed(settings, channel, class, length as u32) {
        return Err(NOT_ALLOWED);
    }
    Ok(LogFrame { time, channel, class, start: (content.start + FRAME_HEAD) as u64, length: length as u64 })
}

/// "a 4-byte count"
fn count_in(content: &[u8]) -> Result<u32, u32> {
    if content.len() != COUNT_BYTES {
        return Err(NOT_ALLOWED);
    }
    Ok(big_endian(content))
}

/// Is there such a frame under the settings: one that a packet can bring, and not "sort 0"?
fn is_allowed(settings: Settings, channel: u32, class: u32, length: u32) -> bool {
    class != 0 && channel < settings.channels as u32 && code_of(settings.format, class, length).is_some()
}

struct Field {
    tag: u8,
    /// nothing where the field is cut
    content: Option<Range<usize>>,
}

/// The log as fields, to its last byte; a cut one can only be the last.
fn fields_of(log: &[u8]) -> Vec<Field> {
    let mut fields = Vec::new();
    let mut at = 0;
    while at < log.len() {
        let content = content_at(log, at);
        fields.push(Field { tag: log[at], content: content.clone() });
        at = content.map_or(log.len(), |content| content.end);
    }
    fields
}

/// Reads a whole log.
pub fn read_log(log: &[u8]) -> WholeLog {
    let mut whole = WholeLog::default();
    whole.refusal = judge_fields(log, fields_of(log), &mut whole).err().unwrap_or(0);
    whole
}

/// "The first field at fault decides, and within a field the order is 18, 17, 19, 20."
fn judge_fields(log: &[u8], fields: Vec<Field>, whole: &mut WholeLog) -> Result<(), u32> {
    let mut ended = false;
    for field in fields {
        // 18: "A tag other than 1 at the start, a second tag 1, any byte after tag 3"
        if ended || (field.tag == SETTINGS_TAG) != whole.settings.is_none() {
            return Err(MISPLACED_TAG);
        }
        // 17
        let Some(content) = field.content else {
            return Err(CUT_FIELD);
        };
        // 19, also for "a known tag of wrong length"; then 20
        match (field.tag, whole.settings) {
            (SETTINGS_TAG, _) => whole.settings = Some(settings_in(&log[content])?),
            (FRAME_TAG, Some(settings)) => whole.frames.push(frame_in(settings, log, content)?),
            (END_TAG, _) => {
                if count_in(&log[content])? as usize != whole.frames.len() {
                    return Err(WRONG_COUNT);
                }
                ended = true;
            }
            _ => {}
        }
    }
    // 18: "a log that stops before tag 1 or tag 3"
    if ended {
        Ok(())
    } else {
        Err(MISPLACED_TAG)
    }
}

/// Opens a log: its first field. A refused opening leaves a record of zeros.
pub fn log_open(log: &[u8]) -> (LogCursor, Result<(), u32>) {
    match first_field(log) {
        Ok((settings, place)) => (LogCursor { settings, place, count: 0 }, Ok(())),
        Err(refusal) => (LogCursor::default(), Err(refusal)),
    }
}

fn first_field(log: &[u8]) -> Result<(Settings, u64), u32> {
    // "a log that stops before tag 1", "A tag other than 1 at the start"
    if log.is_empty() || log[0] != SETTINGS_TAG {
        return Err(MISPLACED_TAG);
    }
    let content = content_at(log, 0).ok_or(CUT_FIELD)?;
    let place = content.end as u64;
    Ok((settings_in(&log[content])?, place))
}

/// A step: "the next frame .. or, the record unmoved, the end or the refusal".
pub fn log_step(cursor: &LogCursor, log: &[u8]) -> (LogCursor, Result<LogStep, u32>) {
    let mut after = *cursor;
    let answer = walk(&mut after, log);
    match answer {
        Ok(LogStep::Frame(_)) => (after, answer),
        _ => (*cursor, answer),
    }
}

/// Walks on to the next frame or the end.
fn walk(cursor: &mut LogCursor, log: &[u8]) -> Result<LogStep, u32> {
    // "A record's settings out of range (zero after a refused first field) are 11"
    if !cursor.settings.in_range() {
        return Err(BAD_SETTINGS);
    }
    // "a place under 7 or past its part, or a count over the place, is 15"
    if cursor.place < LEAST_PLACE || cursor.place > log.len() as u64 || cursor.count > cursor.place {
        return Err(BAD_CURSOR);
    }
    while (cursor.place as usize) < log.len() {
        let place = cursor.place as usize;
        let tag = log[place];
        // "a second tag 1"
        if tag == SETTINGS_TAG {
            return Err(MISPLACED_TAG);
        }
        let content = content_at(log, place).ok_or(CUT_FIELD)?;
        cursor.place = content.end as u64;
        match tag {
            FRAME_TAG => {
                let frame = frame_in(cursor.settings, log, content)?;
                cursor.count += 1;
                return Ok(LogStep::Frame(frame));
            }
            END_TAG => {
                let end = content.end;
                let count = count_in(&log[content])?;
                if count as u64 != cursor.count {
                    return Err(WRONG_COUNT);
                }
                // "any byte after tag 3"
                if end < log.len() {
                    return Err(MISPLACED_TAG);
                }
                return Ok(LogStep::End);
            }
            // "Other tags are passed over by length"
            _ => {}
        }
    }
    // "a log that stops before .. tag 3"
    Err(MISPLACED_TAG)
}

/// Writes a log: "its order is 11, 14, 19 (part rows, no-data, rows the settings don't allow, over 2^32 − 1 rows), 12".
pub fn log_write(settings: Settings, words: &[u32], bytes: &[u8], out: &mut [u8]) -> Result<u64, u32> {
    if !settings.in_range() {
        return Err(BAD_SETTINGS);
    }
    let list: Vec<Row> = words.chunks_exact(ROW_WORDS).map(Row::from_words).collect();
    if list.iter().any(|row| row.start as u64 + row.length as u64 > bytes.len() as u64) {
        return Err(ROW_OUTSIDE);
    }
    let allowed = |row: &Row| is_allowed(settings, row.channel, row.class, row.length);
    if words.len() % ROW_WORDS != 0 || list.len() as u64 > MOST_LOG_ROWS || !list.iter().all(allowed) {
        return Err(NOT_ALLOWED);
    }
    let log = log_of(settings, &list, bytes);
    if out.len() < log.len() {
        return Err(AREA_TOO_SHORT);
    }
    out[..log.len()].copy_from_slice(&log);
    Ok(log.len() as u64)
}

/// The log of rows that may be written.
fn log_of(settings: Settings, list: &[Row], bytes: &[u8]) -> Vec<u8> {
    let Settings { format, channels, payload_type, redundancy_type } = settings;
    let mut log = Vec::new();
    put_field(&mut log, SETTINGS_TAG, &[format, channels, payload_type, redundancy_type]);
    for row in list {
        let mut content = row.time.to_be_bytes().to_vec();
        content.push(row.channel as u8);
        content.push(row.class as u8);
        content.extend_from_slice(&bytes[row.start as usize..][..row.length as usize]);
        put_field(&mut log, FRAME_TAG, &content);
    }
    put_field(&mut log, END_TAG, &(list.len() as u32).to_be_bytes());
    log
}

fn put_field(log: &mut Vec<u8>, tag: u8, content: &[u8]) {
    log.push(tag);
    log.extend_from_slice(&(content.len() as u16).to_be_bytes());
    log.extend_from_slice(content);
}
