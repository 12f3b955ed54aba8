//! The same job in plain Rust, made reasonable for release: what one would write without proofs. No lists are made, the state is behind
//! a reference, and nobody hands in a spoiled one, so it is not tested for that. `tests/plain.rs` holds it to the reference.

use reference::*;
use std::collections::VecDeque;

// Reading

/// A payload's table, walked: where its sound starts, and how many rows it gives.
struct Table {
    sound: usize,
    rows: usize,
}

fn frame_length(code: u8) -> Option<usize> {
    match code {
        0 => Some(0),
        8..=22 => Some(80 + 10 * (code as usize - 8)),
        23..=27 => Some(240 + 20 * (code as usize - 23)),
        _ => None,
    }
}

/// Class and length of an entry of one byte: GSM-HR, AMR, AMR-WB.
fn frame(format: u8, entry: u8) -> Option<(u32, u32)> {
    let kind = (entry >> 3 & 15) as usize;
    let lengths: &[u32] = match format {
        4 => &AMR_LENGTHS,
        5 => &AMR_WB_LENGTHS,
        _ => {
            return match entry >> 4 & 7 {
                0 => Some((1, 14)),
                2 => Some((2, 14)),
                7 => Some((0, 0)),
                _ => None,
            }
        }
    };
    if kind == 15 || (kind == 14 && format == 5) {
        return Some((0, 0));
    }
    let length = *lengths.get(kind)?;
    // the last is the SID
    let class = if kind + 1 == lengths.len() { 2 } else { 1 };
    Some((if entry & QUALITY_BIT != 0 { class } else { class + 4 }, length))
}

/// Bytes of a payload before its table: the mode byte of AMR.
fn mode_bytes(s: Settings) -> usize {
    (s.format >= 4) as usize
}

/// The mode request of a payload that was walked.
fn mode_of(s: Settings, p: &[u8]) -> u8 {
    if s.format >= 4 {
        p[0] >> 4
    } else {
        NO_MODE_REQUEST
    }
}

fn fault(refusal: u32, at: usize) -> Fault {
    Fault { refusal, offset: at as u32 }
}

/// Walks the table of a payload that stands at `place` of the packet, after as many rows.
fn walk(s: Settings, p: &[u8], place: usize, before: usize) -> Result<Table, Fault> {
    let channels = s.channels as usize;
    let (mut at, mut rows, mut bytes) = (mode_bytes(s), before, 0);
    loop {
        let (blocks, size, length);
        if s.format >= 3 {
            if at >= p.len() {
                // an empty payload has no mode byte either
                return Err(fault(TABLE_PAST_END, place + p.len()));
            }
            length = frame(s.format, p[at]).ok_or(fault(RESERVED_CODE, place + at))?.1 as usize;
            (blocks, size) = (1, 1);
        } else {
            if at + 2 > p.len() {
                return Err(fault(TABLE_PAST_END, place + at));
            }
            blocks = p[at + 1] as usize;
            size = if s.format == 2 { 2 + blocks.div_ceil(2) } else { 2 };
            if at + size > p.len() {
                return Err(fault(TABLE_PAST_END, place + at));
            }
            length = frame_length(p[at] >> 2 & 31).ok_or(fault(RESERVED_CODE, place + at))?;
            if blocks == 0 {
                return Err(fault(NO_FRAME_BLOCKS, place + at));
            }
        }
        rows += blocks * channels;
        if rows > MAX_ROWS {
            return Err(fault(TOO_MANY_ROWS, place + at));
        }
        bytes += blocks * channels * length;
        let more = p[at] & F_BIT != 0;
        at += size;
        if !more {
            break;
        }
    }
    if bytes != p.len() - at {
        return Err(fault(BAD_DATA_LENGTH, place + at));
    }
    Ok(Table { sound: at, rows: rows - before })
}

/// Writes the rows of a payload that was walked, which stands at `place` of the packet; `mark` is `PRIMARY` or 0.
fn put_rows(s: Settings, p: &[u8], place: usize, mut time: u32, mark: u32, table: &Table, out: &mut [u32]) {
    let mut at = mode_bytes(s);
    let step = step_ticks(s.format);
    let mut start = (place + table.sound) as u32;
    let mut rows = out[..ROW_WORDS * table.rows].chunks_exact_mut(ROW_WORDS);
    let mut first = true;
    loop {
        let (class, length, blocks, size);
        if s.format >= 3 {
            (class, length) = frame(s.format, p[at]).unwrap_or((0, 0));
            (blocks, size) = (1, 1);
        } else {
            length = frame_length(p[at] >> 2 & 31).unwrap_or(0) as u32;
            class = (length != 0) as u32;
            blocks = p[at + 1] as usize;
            size = if s.format == 2 { 2 + blocks.div_ceil(2) } else { 2 };
        }
        for block in 0..blocks {
            if !first {
                let gap = if s.format == 2 { p[at + 2 + block / 2] >> (4 - 4 * (block % 2)) & 15 } else { 0 };
                time = time.wrapping_add((gap as u32 + 1) * step);
            }
            first = false;
            for channel in 0..s.channels as u32 {
                rows.next().unwrap().copy_from_slice(&[time, mark | class << 8 | channel, start, length]);
                start += length;
            }
        }
        let more = p[at] & F_BIT != 0;
        at += size;
        if !more {
            return;
        }
    }
}

fn word(b: &[u8]) -> u32 {
    u32::from_be_bytes([b[0], b[1], b[2], b[3]])
}

pub fn read(s: Settings, packet: &[u8], out: &mut [u32]) -> Result<Reading, Fault> {
    if !s.in_range() {
        return Err(BAD_SETTINGS.into());
    }
    if out.len() < ROW_AREA {
        return Err(AREA_TOO_SHORT.into());
    }
    read_checked(s, packet, out)
}

fn read_checked(s: Settings, packet: &[u8], out: &mut [u32]) -> Result<Reading, Fault> {
    if packet.len() < MIN_PACKET || packet.len() > MAX_PACKET {
        return Err(BAD_PACKET_LENGTH.into());
    }
    if packet[0] >> 6 != 2 {
        return Err(BAD_VERSION.into());
    }
    let mut start = HEADER_BYTES + 4 * (packet[0] & 15) as usize;
    if packet[0] & 16 != 0 && start + 4 <= packet.len() {
        start += 4 + 4 * u16::from_be_bytes([packet[start + 2], packet[start + 3]]) as usize;
    } else if packet[0] & 16 != 0 {
        return Err(HEADER_PAST_END.into());
    }
    if start > packet.len() {
        return Err(HEADER_PAST_END.into());
    }
    let mut end = packet.len();
    if packet[0] & 32 != 0 {
        let padding = packet[end - 1] as usize;
        if padding == 0 || padding > end - start {
            return Err(BAD_PADDING.into());
        }
        end -= padding;
    }
    let timestamp = word(&packet[4..8]);
    let payload_type = packet[1] & 127;
    let (rows, mode_request) = if payload_type == s.payload_type {
        let payload = &packet[start..end];
        let table = walk(s, payload, start, 0)?;
        put_rows(s, payload, start, timestamp, PRIMARY, &table, out);
        (table.rows, mode_of(s, payload))
    } else if payload_type == s.redundancy_type {
        read_redundancy(s, packet, start, end, timestamp, out)?
    } else {
        return Err(OTHER_TYPE.into());
    };
    Ok(Reading {
        rows: rows as u32,
        marker: (packet[1] >> 7) as u32,
        sequence: u16::from_be_bytes([packet[2], packet[3]]) as u32,
        timestamp,
        source: word(&packet[8..12]),
        mode_request: mode_request as u32,
    })
}

fn read_redundancy(s: Settings, packet: &[u8], start: usize, end: usize, timestamp: u32, out: &mut [u32]) -> Result<(usize, u8), Fault> {
    let (mut at, mut summed) = (start, 0);
    loop {
        if at >= end {
            return Err(fault(TABLE_PAST_END, at));
        }
        if packet[at] & F_BIT == 0 {
            at += 1;
            break;
        }
        if at + 4 > end {
            return Err(fault(TABLE_PAST_END, at));
        }
        summed += (word(&packet[at..]) & 1023) as usize;
        at += 4;
    }
    let data = at;
    if summed > end - data {
        return Err(fault(BAD_DATA_LENGTH, data));
    }
    // Walk all blocks, then write them: a refusal in the last one leaves the area as it was.
    for write in [false, true] {
        let (mut header, mut block, mut rows, mut mode_request) = (start, data, 0, NO_MODE_REQUEST);
        loop {
            let last = packet[header] & F_BIT == 0;
            let head = if last { (packet[header] as u32) << 24 } else { word(&packet[header..]) };
            let block_end = if last { end } else { block + (head & 1023) as usize };
            if (head >> 24 & 127) as u8 == s.payload_type && block_end > block {
                let payload = &packet[block..block_end];
                let table = walk(s, payload, block, rows)?;
                if write {
                    let (time, mark) = (timestamp.wrapping_sub(head >> 10 & 16383), if last { PRIMARY } else { 0 });
                    put_rows(s, payload, block, time, mark, &table, &mut out[ROW_WORDS * rows..]);
                }
                rows += table.rows;
                mode_request = mode_of(s, payload);
            }
            if last {
                if write {
                    return Ok((rows, mode_request));
                }
                break;
            }
            block = block_end;
            header += 4;
        }
    }
    unreachable!()
}

// Writing

fn outside(words: &[u32], bytes: &[u8]) -> bool {
    words.chunks_exact(ROW_WORDS).any(|row| row[2] as u64 + row[3] as u64 > bytes.len() as u64)
}

/// The table code of a row's class and length; for AMR the type and the quality bit.
fn code(format: u8, class: u32, length: u32) -> Option<u8> {
    if format >= 4 {
        let lengths: &[u32] = if format == 4 { &AMR_LENGTHS } else { &AMR_WB_LENGTHS };
        let sid = lengths.len() - 1;
        let kind = match class {
            0 if length == 0 => return Some(31),
            1 | 5 => lengths[..sid].iter().position(|l| *l == length)?,
            2 | 6 if length == lengths[sid] => sid,
            _ => return None,
        };
        return Some((kind as u8) << 1 | (class <= 2) as u8);
    }
    match (format, class, length) {
        (3, 1, 14) => Some(0),
        (3, 2, 14) => Some(2),
        (3, 0, 0) => Some(7),
        (1 | 2, 0, 0) => Some(0),
        (1 | 2, 1, 80..=220) if length % 10 == 0 => Some((8 + (length - 80) / 10) as u8),
        (1 | 2, 1, 240..=320) if length % 20 == 0 => Some((23 + (length - 240) / 20) as u8),
        _ => None,
    }
}

/// The bytes of a list's payload, or nothing where it cannot be written.
fn plan(s: Settings, words: &[u32]) -> Option<usize> {
    let channels = s.channels as usize;
    let rows = words.len() / ROW_WORDS;
    if rows == 0 || rows > MAX_ROWS || rows % channels != 0 {
        return None;
    }
    let step = step_ticks(s.format);
    let (mut size, mut run, mut previous) = (mode_bytes(s), 0usize, None);
    for block in words.chunks_exact(ROW_WORDS * channels) {
        let (time, length) = (block[0], block[3]);
        let class = (block[1] & !PRIMARY) / 256;
        code(s.format, class, length)?;
        for (channel, row) in block.chunks_exact(ROW_WORDS).enumerate() {
            if row[0] != time || row[1] & !PRIMARY != 256 * class + channel as u32 || row[3] != length {
                return None;
            }
        }
        let joins = s.format < 3 && previous.is_some_and(|(_, l)| l == length);
        if let Some((before, _)) = previous {
            let ticks = time.wrapping_sub(before);
            let most = if s.format == 2 { 16 } else { 1 };
            if ticks % step != 0 || ticks == 0 || ticks / step > most {
                return None;
            }
        }
        run = if joins { run + 1 } else { 1 };
        // a run that is cut has a second entry; its first part has an even number of displacements
        size += if s.format < 3 && run == MAX_RUN + 1 { 2 } else { 0 };
        size += channels * length as usize
            + match s.format {
                1 if !joins => 2,
                2 if !joins => 3,
                2 if run % 2 == 1 => 1,
                3.. => 1,
                _ => 0,
            };
        previous = Some((time, length));
    }
    if size > MAX_PAYLOAD {
        None
    } else {
        Some(size)
    }
}

/// Writes the payload of a list that was planned.
fn put_payload(s: Settings, mode_request: u8, words: &[u32], bytes: &[u8], out: &mut [u8]) {
    let width = ROW_WORDS * s.channels as usize;
    let mut at = mode_bytes(s);
    if s.format >= 3 {
        if s.format >= 4 {
            out[0] = mode_request << 4;
        }
        let shift = if s.format == 3 { 4 } else { 2 };
        for row in words.chunks_exact(width) {
            out[at] = F_BIT | code(s.format, row[1] % PRIMARY / 256, row[3]).unwrap_or(0) << shift;
            at += 1;
        }
        out[at - 1] &= !F_BIT;
    } else {
        let mut from = 0;
        while from < words.len() {
            let length = words[from + 3];
            let mut to = from + width;
            while to < words.len() && words[to + 3] == length {
                to += width;
            }
            if (to - from) / width > MAX_RUN {
                to = from + width * CUT_RUN;
            }
            let blocks = (to - from) / width;
            out[at] = if to < words.len() { F_BIT } else { 0 } | code(s.format, words[from + 1] % PRIMARY / 256, length).unwrap_or(0) << 2;
            out[at + 1] = blocks as u8;
            at += 2;
            if s.format == 2 {
                out[at..at + blocks.div_ceil(2)].fill(0);
                for i in (from == 0) as usize..blocks {
                    let here = from + width * i;
                    let ticks = words[here].wrapping_sub(words[here - width]);
                    out[at + i / 2] |= ((ticks / G719_STEP - 1) as u8) << (4 - 4 * (i % 2));
                }
                at += blocks.div_ceil(2);
            }
            from = to;
        }
    }
    for row in words.chunks_exact(ROW_WORDS) {
        let (start, length) = (row[2] as usize, row[3] as usize);
        out[at..at + length].copy_from_slice(&bytes[start..start + length]);
        at += length;
    }
}

pub fn write_payload(s: Settings, mode_request: u8, words: &[u32], bytes: &[u8], out: &mut [u8]) -> Result<u32, u32> {
    if !s.in_range() || mode_request > MAX_MODE_REQUEST {
        return Err(BAD_SETTINGS);
    }
    if outside(words, bytes) {
        return Err(ROW_OUTSIDE);
    }
    if words.len() % ROW_WORDS != 0 {
        return Err(NOT_WRITABLE);
    }
    let size = plan(s, words).ok_or(NOT_WRITABLE)?;
    if out.len() < size {
        return Err(AREA_TOO_SHORT);
    }
    put_payload(s, mode_request, words, bytes, &mut out[..size]);
    Ok(size as u32)
}

#[allow(clippy::too_many_arguments)]
pub fn write_packet(
    s: Settings,
    mode_request: u8,
    marker: bool,
    sequence: u16,
    source: u32,
    counts: &[u32],
    words: &[u32],
    bytes: &[u8],
    out: &mut [u8],
) -> Result<u32, u32> {
    if !s.in_range() || mode_request > MAX_MODE_REQUEST {
        return Err(BAD_SETTINGS);
    }
    if outside(words, bytes) {
        return Err(ROW_OUTSIDE);
    }
    let rows = words.len() / ROW_WORDS;
    let redundant = counts.len().wrapping_sub(1);
    let summed: u64 = counts.iter().map(|count| *count as u64).sum();
    if words.len() % ROW_WORDS != 0 || redundant > MAX_REDUNDANT || summed != rows as u64 || rows > MAX_ROWS {
        return Err(NOT_WRITABLE);
    }
    if redundant > 0 && s.redundancy_type == NO_REDUNDANCY {
        return Err(NOT_WRITABLE);
    }
    let mut lists = [(0usize, 0usize, 0usize); MAX_REDUNDANT + 1];
    let headers = if redundant > 0 { 4 * redundant + 1 } else { 0 };
    let (mut at, mut size) = (0, HEADER_BYTES + headers);
    for (list, count) in lists.iter_mut().zip(counts) {
        let to = at + ROW_WORDS * *count as usize;
        let length = plan(s, &words[at..to]).ok_or(NOT_WRITABLE)?;
        *list = (at, to, length);
        size += length;
        at = to;
    }
    let timestamp = words[lists[redundant].0];
    for list in &lists[..redundant] {
        if timestamp.wrapping_sub(words[list.0]) > MAX_OFFSET || list.2 > MAX_BLOCK {
            return Err(NOT_WRITABLE);
        }
    }
    if size > MAX_PACKET {
        return Err(NOT_WRITABLE);
    }
    if out.len() < size {
        return Err(AREA_TOO_SHORT);
    }
    let payload_type = if redundant > 0 { s.redundancy_type } else { s.payload_type };
    out[0] = VERSION_2;
    out[1] = payload_type | (marker as u8) << 7;
    out[2..4].copy_from_slice(&sequence.to_be_bytes());
    out[4..8].copy_from_slice(&timestamp.to_be_bytes());
    out[8..12].copy_from_slice(&source.to_be_bytes());
    let mut at = HEADER_BYTES;
    if redundant > 0 {
        for list in &lists[..redundant] {
            let offset = timestamp.wrapping_sub(words[list.0]);
            let header = ((F_BIT | s.payload_type) as u32) << 24 | offset << 10 | list.2 as u32;
            out[at..at + 4].copy_from_slice(&header.to_be_bytes());
            at += 4;
        }
        out[at] = s.payload_type;
        at += 1;
    }
    for (from, to, length) in &lists[..=redundant] {
        put_payload(s, mode_request, &words[*from..*to], bytes, &mut out[at..at + length]);
        at += length;
    }
    Ok(size as u32)
}

// The reorder buffer

#[derive(Clone, Copy)]
struct Held {
    time: u32,
    length: u16,
    channel: u8,
    class: u8,
    slot: u8,
    primary: bool,
}

pub struct Take {
    settings: Settings,
    held: VecDeque<Held>,
    occupied: [u64; 3],
    last: Option<(u32, u8)>,
}

impl Take {
    pub fn new(settings: Settings) -> Result<Take, u32> {
        if !settings.in_range() {
            return Err(BAD_SETTINGS);
        }
        Ok(Take { settings, held: VecDeque::with_capacity(SLOTS), occupied: [0; 3], last: None })
    }

    pub fn offer(&mut self, packet: &[u8], rows: &mut [u32], store: &mut [u8]) -> Result<Verdicts, Fault> {
        if rows.len() < ROW_AREA || store.len() < STORE_BYTES {
            return Err(AREA_TOO_SHORT.into());
        }
        let reading = read_checked(self.settings, packet, rows)?;
        let mut verdicts = Verdicts::default();
        for row in rows.chunks_exact(ROW_WORDS).take(reading.rows as usize) {
            if row[1] % PRIMARY < 256 {
                continue;
            }
            let bytes = &packet[row[2] as usize..(row[2] + row[3]) as usize];
            *self.judge(row[0], row[1], bytes, store, &mut verdicts) += 1;
        }
        Ok(verdicts)
    }

    fn judge<'a>(&mut self, time: u32, tag: u32, bytes: &[u8], store: &mut [u8], v: &'a mut Verdicts) -> &'a mut u32 {
        let (channel, class, primary) = (tag as u8, (tag >> 8) as u8, tag & PRIMARY != 0);
        if let Some((last, last_channel)) = self.last {
            let ahead = time.wrapping_sub(last) as i32;
            if ahead < 0 || (ahead == 0 && channel <= last_channel) {
                return &mut v.late;
            }
        } else if let (Some(first), Some(end)) = (self.held.front(), self.held.back()) {
            // from the first held time, or from this one, all must lie less than 2^31 ahead
            if time.wrapping_sub(first.time) >= 1 << 31 && end.time.wrapping_sub(time) >= 1 << 31 {
                return &mut v.far;
            }
        }
        // from the end, where a new frame mostly belongs
        let mut at = self.held.len();
        while at > 0 {
            let held = &mut self.held[at - 1];
            let ahead = time.wrapping_sub(held.time) as i32;
            if ahead > 0 || (ahead == 0 && channel > held.channel) {
                break;
            }
            if ahead == 0 && channel == held.channel {
                let start = held.slot as usize * SLOT_BYTES;
                let copy = &mut store[start..start + SLOT_BYTES];
                // sound, SID, damaged sound, damaged SID
                let better = if class != held.class {
                    class < held.class
                } else if bytes.len() != held.length as usize {
                    bytes.len() > held.length as usize
                } else {
                    *bytes > copy[..bytes.len()]
                };
                held.primary |= primary;
                if !better {
                    return &mut v.repeated;
                }
                copy[..bytes.len()].copy_from_slice(bytes);
                (held.class, held.length) = (class, bytes.len() as u16);
                return &mut v.better;
            }
            at -= 1;
        }
        let Some(word) = self.occupied.iter().position(|word| *word != u64::MAX) else {
            return &mut v.no_room;
        };
        let bit = self.occupied[word].trailing_ones();
        self.occupied[word] |= 1 << bit;
        let slot = 64 * word + bit as usize;
        store[slot * SLOT_BYTES..slot * SLOT_BYTES + bytes.len()].copy_from_slice(bytes);
        self.held.insert(at, Held { time, length: bytes.len() as u16, channel, class, slot: slot as u8, primary });
        &mut v.inserted
    }

    pub fn draw(&mut self, store: &[u8], area: &mut [u8]) -> Result<Drawn, u32> {
        if store.len() < STORE_BYTES || area.len() < DRAW_AREA {
            return Err(AREA_TOO_SHORT);
        }
        let Some(first) = self.held.pop_front() else {
            return Ok(Drawn::Empty);
        };
        let (slot, length) = (first.slot as usize, first.length as usize);
        area[..length].copy_from_slice(&store[slot * SLOT_BYTES..slot * SLOT_BYTES + length]);
        self.occupied[slot / 64] &= !(1 << (slot % 64));
        self.last = Some((first.time, first.channel));
        let Held { time, primary, .. } = first;
        Ok(Drawn::Frame { time, channel: first.channel as u32, class: first.class as u32, length: first.length as u32, primary })
    }
}

// Reception reports

/// What is kept of a source.
#[derive(Clone, Debug, Default)]
pub struct Reception {
    first_come: bool,
    probation: u8,
    base: u16,
    highest: u16,
    /// the sequence number that would make a restart
    bad: Option<u16>,
    cycles: u32,
    received: u32,
    expected_prior: u32,
    received_prior: u32,
    /// 16 times the jitter
    jitter: u64,
    transit: Option<u32>,
}

impl Reception {
    pub fn packet(&mut self, sequence: u16, timestamp: u32, arrival: u32) -> bool {
        let valid = self.update_sequence(sequence);
        if valid {
            let transit = arrival.wrapping_sub(timestamp);
            if let Some(last) = self.transit {
                let d = (transit.wrapping_sub(last) as i32).unsigned_abs();
                self.jitter = self.jitter + d as u64 - ((self.jitter + 8) >> 4);
            }
            self.transit = Some(transit);
        }
        valid
    }

    fn start(&mut self, sequence: u16) {
        *self = Reception {
            first_come: true,
            base: sequence,
            highest: sequence,
            jitter: self.jitter,
            transit: self.transit,
            ..Default::default()
        };
    }

    fn update_sequence(&mut self, sequence: u16) -> bool {
        if !self.first_come {
            self.start(sequence);
            self.highest = sequence.wrapping_sub(1);
            self.probation = MIN_SEQUENTIAL as u8;
        }
        let ahead = sequence.wrapping_sub(self.highest) as u32;
        if self.probation > 0 {
            self.highest = sequence;
            if ahead != 1 {
                self.probation = MIN_SEQUENTIAL as u8 - 1;
                return false;
            }
            self.probation -= 1;
            if self.probation > 0 {
                return false;
            }
            self.start(sequence);
        } else if ahead < MAX_DROPOUT {
            if sequence < self.highest {
                self.cycles = self.cycles.wrapping_add(SEQUENCES);
            }
            self.highest = sequence;
        } else if ahead <= SEQUENCES - MAX_MISORDER {
            if self.bad != Some(sequence) {
                self.bad = Some(sequence.wrapping_add(1));
                return false;
            }
            self.start(sequence);
        }
        self.received = self.received.wrapping_add(1);
        true
    }

    pub fn report(&mut self) -> Report {
        if self.transit.is_none() {
            return Report::default();
        }
        let highest_sequence = self.cycles.wrapping_add(self.highest as u32);
        let expected = highest_sequence.wrapping_sub(self.base as u32).wrapping_add(1);
        let lost = expected.wrapping_sub(self.received) as i32;
        let expected_interval = expected.wrapping_sub(self.expected_prior);
        let lost_interval = expected_interval.wrapping_sub(self.received.wrapping_sub(self.received_prior));
        self.expected_prior = expected;
        self.received_prior = self.received;
        let fraction_lost = if expected_interval as i32 <= 0 || lost_interval as i32 <= 0 {
            0
        } else {
            (((lost_interval as u64) << 8) / expected_interval as u64).min(MAX_FRACTION as u64) as u32
        };
        let cumulative_lost = lost.clamp(MIN_LOST, MAX_LOST);
        Report { fraction_lost, cumulative_lost, highest_sequence, jitter: (self.jitter >> 4) as u32 }
    }
}

// The log

/// A frame of a log.
#[derive(Clone, Copy, Debug, PartialEq, Eq)]
pub struct Logged<'a> {
    pub time: u32,
    pub channel: u8,
    pub class: u8,
    pub bytes: &'a [u8],
}

/// Reads a log where it stands.
#[derive(Clone, Debug)]
pub struct Log<'a> {
    pub settings: Settings,
    /// from the next field on
    rest: &'a [u8],
    count: u32,
}

/// A log from a field on: the content of the field, and what comes after it.
fn split_field(log: &[u8]) -> Result<(&[u8], &[u8]), u32> {
    let Some((head, rest)) = log.split_at_checked(FIELD_HEAD) else {
        return Err(CUT_FIELD);
    };
    rest.split_at_checked(u16::from_be_bytes([head[1], head[2]]) as usize).ok_or(CUT_FIELD)
}

fn allowed(s: Settings, channel: u32, class: u32, length: u32) -> bool {
    channel < s.channels as u32 && class != 0 && code(s.format, class, length).is_some()
}

impl<'a> Log<'a> {
    pub fn open(log: &'a [u8]) -> Result<Log<'a>, u32> {
        if log.first() != Some(&SETTINGS_TAG) {
            return Err(MISPLACED_TAG);
        }
        let (content, rest) = split_field(log)?;
        let &[format, channels, payload_type, redundancy_type] = content else {
            return Err(NOT_ALLOWED);
        };
        let settings = Settings { format, channels, payload_type, redundancy_type };
        if settings.in_range() {
            Ok(Log { settings, rest, count: 0 })
        } else {
            Err(NOT_ALLOWED)
        }
    }

    /// The next frame, or nothing at the end.
    pub fn step(&mut self) -> Result<Option<Logged<'a>>, u32> {
        let mut from = self.rest;
        while let Some(tag) = from.first() {
            if *tag == SETTINGS_TAG {
                return Err(MISPLACED_TAG);
            }
            let (content, rest) = split_field(from)?;
            match *tag {
                FRAME_TAG => {
                    let &[a, b, c, d, channel, class, ref bytes @ ..] = content else {
                        return Err(NOT_ALLOWED);
                    };
                    if !allowed(self.settings, channel as u32, class as u32, bytes.len() as u32) {
                        return Err(NOT_ALLOWED);
                    }
                    self.rest = rest;
                    self.count = self.count.wrapping_add(1);
                    return Ok(Some(Logged { time: u32::from_be_bytes([a, b, c, d]), channel, class, bytes }));
                }
                END_TAG => {
                    let &[a, b, c, d] = content else {
                        return Err(NOT_ALLOWED);
                    };
                    if u32::from_be_bytes([a, b, c, d]) != self.count {
                        return Err(WRONG_COUNT);
                    }
                    return if rest.is_empty() { Ok(None) } else { Err(MISPLACED_TAG) };
                }
                _ => from = rest,
            }
        }
        Err(MISPLACED_TAG)
    }
}

pub fn write_log(s: Settings, words: &[u32], bytes: &[u8], out: &mut [u8]) -> Result<usize, u32> {
    if !s.in_range() {
        return Err(BAD_SETTINGS);
    }
    if outside(words, bytes) {
        return Err(ROW_OUTSIDE);
    }
    if words.len() % ROW_WORDS != 0 || words.len() / ROW_WORDS > u32::MAX as usize {
        return Err(NOT_ALLOWED);
    }
    let mut size = LOG_FIRST + LOG_LAST;
    for row in words.chunks_exact(ROW_WORDS) {
        if !allowed(s, row[1] & 255, (row[1] & !PRIMARY) / 256, row[3]) {
            return Err(NOT_ALLOWED);
        }
        size += LOG_FRAME + row[3] as usize;
    }
    let Some(out) = out.get_mut(..size) else {
        return Err(AREA_TOO_SHORT);
    };
    let (first, mut rest) = out.split_at_mut(LOG_FIRST);
    first.copy_from_slice(&[SETTINGS_TAG, 0, 4, s.format, s.channels, s.payload_type, s.redundancy_type]);
    for row in words.chunks_exact(ROW_WORDS) {
        let (start, length) = (row[2] as usize, row[3] as usize);
        let (field, after) = rest.split_at_mut(LOG_FRAME + length);
        let (size, time) = (((FRAME_HEAD + length) as u16).to_be_bytes(), row[0].to_be_bytes());
        let (channel, class) = (row[1] as u8, (row[1] >> 8) as u8);
        field[..LOG_FRAME].copy_from_slice(&[FRAME_TAG, size[0], size[1], time[0], time[1], time[2], time[3], channel, class]);
        field[LOG_FRAME..].copy_from_slice(&bytes[start..start + length]);
        rest = after;
    }
    rest[..FIELD_HEAD].copy_from_slice(&[END_TAG, 0, 4]);
    rest[FIELD_HEAD..].copy_from_slice(&((words.len() / ROW_WORDS) as u32).to_be_bytes());
    Ok(size)
}
