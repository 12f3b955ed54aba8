//! The reorder buffer (document 01: the take): fresh, offer, draw.
//!
//! A call unpacks the buffer into a list of entries, works on the list, and packs it again.

use crate::reading::{code_of, packet_rows};
use crate::*;

/// The buffer as the library lays it out. The first `n` of the entries are used, in time order, `n` the number of
/// ones in `occupied`. A tag is 65,536 × mark + 256 × class + channel. `drawn` is 1 once a pair was drawn, then kept in `last_time` and
/// `last_channel`.
#[derive(Clone, Copy, Debug, PartialEq, Eq)]
pub struct Buffer {
    pub times: [u32; SLOTS],
    pub tags: [u32; SLOTS],
    pub lengths: [u32; SLOTS],
    pub slots: [u32; SLOTS],
    pub occupied: [u64; 3],
    pub last_time: u32,
    pub last_channel: u32,
    pub drawn: u32,
    pub settings: Settings,
}

impl Buffer {
    pub fn zero() -> Buffer {
        Buffer {
            times: [0; SLOTS],
            tags: [0; SLOTS],
            lengths: [0; SLOTS],
            slots: [0; SLOTS],
            occupied: [0; 3],
            last_time: 0,
            last_channel: 0,
            drawn: 0,
            settings: Settings::default(),
        }
    }

    /// "the number held is their count of ones"
    pub fn held(&self) -> usize {
        self.occupied.iter().map(|word| word.count_ones() as usize).sum()
    }
}

/// How many rows of an offered packet got each verdict.
#[derive(Clone, Copy, Debug, Default, PartialEq, Eq)]
pub struct Verdicts {
    pub late: u32,
    pub far: u32,
    pub repeated: u32,
    pub better: u32,
    pub no_room: u32,
    pub inserted: u32,
}

/// What a draw hands out: a frame, or that there is none.
#[derive(Clone, Copy, Debug, PartialEq, Eq)]
pub enum Drawn {
    Frame { time: u32, channel: u32, class: u32, length: u32, primary: bool },
    Empty,
}

#[derive(Clone, Copy)]
struct Pair {
    time: u32,
    channel: u32,
}

#[derive(Clone, Copy)]
struct Entry {
    pair: Pair,
    class: u32,
    length: u32,
    slot: u32,
    /// document 02, P6: "has any copy judged new, better or repeat for it been the primary block or a plain payload?"
    primary: bool,
}

/// "time t is after h if t − h modulo 2^32 lies in 1 to 2^31 − 1"
fn time_after(t: u32, h: u32) -> bool {
    let ahead = t.wrapping_sub(h);
    (1..=(1 << 31) - 1).contains(&ahead)
}

/// "Pairs (time, channel) compare by time, then channel."
fn after(p: Pair, q: Pair) -> bool {
    time_after(p.time, q.time) || (p.time == q.time && p.channel > q.channel)
}

/// "Times lie within fewer than 2^31 ticks if from some time all are at most 2^31 − 1 ahead, modulo 2^32." If some time
/// will do, so will one of the times themselves, the earliest seen from there.
fn in_a_stretch(times: &[u32]) -> bool {
    times.is_empty() || times.iter().any(|base| times.iter().all(|time| time.wrapping_sub(*base) <= (1 << 31) - 1))
}

fn marked(occupied: &[u64; 3], slot: u32) -> bool {
    occupied[slot as usize / 64] >> (slot % 64) & 1 == 1
}

/// The entries in use, and the last pair drawn.
struct Model {
    settings: Settings,
    entries: Vec<Entry>,
    last: Option<Pair>,
}

/// The model of a buffer, or nothing where the buffer is not well-formed (document 01: not sound).
fn unpack(buffer: &Buffer) -> Option<Model> {
    let settings = buffer.settings;
    let held = buffer.held();
    let entries: Vec<Entry> = (0..held)
        .map(|i| Entry {
            pair: Pair { time: buffer.times[i], channel: buffer.tags[i] % 256 },
            class: buffer.tags[i] % PRIMARY / 256,
            length: buffer.lengths[i],
            slot: buffer.slots[i],
            primary: buffer.tags[i] / PRIMARY == 1,
        })
        .collect();
    let last = Pair { time: buffer.last_time, channel: buffer.last_channel };

    let ascending = entries.windows(2).all(|two| after(two[1].pair, two[0].pair));
    let times: Vec<u32> = entries.iter().map(|e| e.pair.time).collect();
    let stretch = in_a_stretch(&times);
    // As many entries as marks: distinct and each marked makes them exactly those marked.
    let mut slots: Vec<u32> = entries.iter().map(|e| e.slot).collect();
    slots.sort();
    let distinct = slots.windows(2).all(|two| two[0] != two[1]);
    let exactly_marked = slots.iter().all(|slot| (*slot as usize) < SLOTS && marked(&buffer.occupied, *slot));
    // "sorts 1 or 2 and lengths as the kind allows"; document 02: "A sound take allows the new sorts and lengths."
    let frames = entries.iter().all(|e| e.class != 0 && code_of(settings.format, e.class, e.length).is_some());
    // a mark is 0 or 1
    let marks = (0..held).all(|i| buffer.tags[i] / PRIMARY <= 1);
    let channels = entries.iter().all(|e| e.pair.channel < settings.channels as u32);
    let unused_zero = (held..SLOTS).all(|i| buffer.times[i] == 0 && buffer.tags[i] == 0 && buffer.lengths[i] == 0 && buffer.slots[i] == 0);
    let after_last = match buffer.drawn {
        // "No pair drawn yet is kept as zeros."
        0 => last.time == 0 && last.channel == 0,
        1 => last.channel < settings.channels as u32 && entries.iter().all(|e| after(e.pair, last)),
        _ => false,
    };

    if ascending && stretch && distinct && exactly_marked && frames && marks && channels && unused_zero && after_last {
        Some(Model { settings, entries, last: if buffer.drawn == 1 { Some(last) } else { None } })
    } else {
        None
    }
}

fn pack(model: &Model) -> Buffer {
    let mut buffer = Buffer::zero();
    buffer.settings = model.settings;
    for (i, entry) in model.entries.iter().enumerate() {
        buffer.times[i] = entry.pair.time;
        let mark = if entry.primary { PRIMARY } else { 0 };
        buffer.tags[i] = mark + 256 * entry.class + entry.pair.channel;
        buffer.lengths[i] = entry.length;
        buffer.slots[i] = entry.slot;
        buffer.occupied[entry.slot as usize / 64] |= 1 << (entry.slot % 64);
    }
    if let Some(last) = model.last {
        buffer.drawn = 1;
        buffer.last_time = last.time;
        buffer.last_channel = last.channel;
    }
    buffer
}

/// Is the buffer what document 01 calls a sound take?
pub fn is_well_formed(buffer: &Buffer) -> bool {
    unpack(buffer).is_some()
}

/// A fresh buffer; "asked for with settings out of range is 11 and comes back all zero".
pub fn fresh(settings: Settings) -> (Buffer, Result<(), u32>) {
    let mut buffer = Buffer::zero();
    if !settings.in_range() {
        return (buffer, Err(BAD_SETTINGS));
    }
    buffer.settings = settings;
    (buffer, Ok(()))
}

/// Offers a packet: reads it into the row area, judges its rows, keeps frames in the store.
pub fn offer(buffer: &Buffer, packet: &[u8], area: &mut [u32], store: &mut [u8]) -> (Buffer, Result<Verdicts, Fault>) {
    match offered(buffer, packet, area, store) {
        Ok((after, verdicts)) => (after, Ok(verdicts)),
        Err(fault) => (*buffer, Err(fault)),
    }
}

fn offered(buffer: &Buffer, packet: &[u8], area: &mut [u32], store: &mut [u8]) -> Result<(Buffer, Verdicts), Fault> {
    if !buffer.settings.in_range() {
        return Err(BAD_SETTINGS.into());
    }
    let mut model = unpack(buffer).ok_or(BAD_BUFFER)?;
    if area.len() < ROW_AREA || store.len() < STORE_BYTES {
        return Err(AREA_TOO_SHORT.into());
    }
    let (_, rows) = packet_rows(model.settings, packet)?;
    for (i, row) in rows.iter().enumerate() {
        area[ROW_WORDS * i..ROW_WORDS * (i + 1)].copy_from_slice(&row.words());
    }
    let mut verdicts = Verdicts::default();
    for row in &rows {
        // "a no-data row is passed over"
        if row.class != 0 {
            let bytes = &packet[row.start as usize..(row.start + row.length) as usize];
            *judge(&mut model, row, bytes, store, &mut verdicts) += 1;
        }
    }
    Ok((pack(&model), verdicts))
}

/// The verdict on one frame, as the counter that it adds to: "the first that applies".
fn judge<'a>(model: &mut Model, row: &Row, bytes: &[u8], store: &mut [u8], verdicts: &'a mut Verdicts) -> &'a mut u32 {
    let pair = Pair { time: row.time, channel: row.channel };
    if let Some(last) = model.last {
        if !after(pair, last) {
            return &mut verdicts.late;
        }
    } else {
        let mut times = vec![pair.time];
        times.extend(model.entries.iter().map(|e| e.pair.time));
        if !in_a_stretch(&times) {
            return &mut verdicts.far;
        }
    }
    let same = |e: &&mut Entry| e.pair.time == pair.time && e.pair.channel == pair.channel;
    if let Some(held) = model.entries.iter_mut().find(same) {
        let place = slot_start(held.slot);
        // Document 02: "a repeat may set it", and a better copy too; "It takes no part in "better""
        held.primary = held.primary || row.primary;
        if !better(row.class, bytes, held.class, &store[place..place + held.length as usize]) {
            return &mut verdicts.repeated;
        }
        // "a better copy replaces it in its own slot"
        held.class = row.class;
        held.length = row.length;
        store[place..place + bytes.len()].copy_from_slice(bytes);
        return &mut verdicts.better;
    }
    // "The slot given out is the lowest free one"
    let free = (0..SLOTS as u32).find(|slot| model.entries.iter().all(|e| e.slot != *slot));
    let Some(slot) = free else {
        return &mut verdicts.no_room;
    };
    let place = slot_start(slot);
    store[place..place + bytes.len()].copy_from_slice(bytes);
    let at = model.entries.iter().position(|e| after(e.pair, pair)).unwrap_or(model.entries.len());
    model.entries.insert(at, Entry { pair, class: row.class, length: row.length, slot, primary: row.primary });
    &mut verdicts.inserted
}

fn slot_start(slot: u32) -> usize {
    slot as usize * SLOT_BYTES
}

/// "sound beats SID; then the longer; then the greater at the first differing byte. Equal is a repeat." Document 02: `"better" asks
/// good over damaged first`.
fn better(class: u32, bytes: &[u8], held_class: u32, held_bytes: &[u8]) -> bool {
    let good = |class| class == 1 || class == 2;
    let sound = |class| class == 1 || class == 5;
    if good(class) != good(held_class) {
        return good(class);
    }
    if sound(class) != sound(held_class) {
        return sound(class);
    }
    if bytes.len() != held_bytes.len() {
        return bytes.len() > held_bytes.len();
    }
    match bytes.iter().zip(held_bytes).find(|(b, h)| b != h) {
        Some((b, h)) => b > h,
        None => false,
    }
}

/// Draws the earliest frame: copies it to the front of the area and frees its slot.
pub fn draw(buffer: &Buffer, store: &[u8], area: &mut [u8]) -> (Buffer, Result<Drawn, u32>) {
    match drawn(buffer, store, area) {
        Ok((after, frame)) => (after, Ok(frame)),
        Err(refusal) => (*buffer, Err(refusal)),
    }
}

fn drawn(buffer: &Buffer, store: &[u8], area: &mut [u8]) -> Result<(Buffer, Drawn), u32> {
    if !buffer.settings.in_range() {
        return Err(BAD_SETTINGS);
    }
    let mut model = unpack(buffer).ok_or(BAD_BUFFER)?;
    // "A draw area is asked for before the take is found empty."
    if store.len() < STORE_BYTES || area.len() < DRAW_AREA {
        return Err(AREA_TOO_SHORT);
    }
    if model.entries.is_empty() {
        return Ok((*buffer, Drawn::Empty));
    }
    let first = model.entries.remove(0);
    let place = slot_start(first.slot);
    let length = first.length as usize;
    area[..length].copy_from_slice(&store[place..place + length]);
    model.last = Some(first.pair);
    let Entry { pair: Pair { time, channel }, class, length, primary, .. } = first;
    let frame = Drawn::Frame { time, channel, class, length, primary };
    Ok((pack(&model), frame))
}
