//! Packets: built by the formats' rules with every field at random, then damaged.

use crate::Random;
use reference::{
    Settings, AMR_LENGTHS, AMR_WB_LENGTHS, F_BIT, MAX_BLOCK, MAX_CHANNELS, MAX_OFFSET, MAX_PACKET, MAX_ROWS, MAX_RUN, M_BIT, NO_REDUNDANCY,
    QUALITY_BIT, VERSION_2,
};

/// Settings in range.
pub fn settings(r: &mut Random) -> Settings {
    let format = r.within(1, 5) as u8;
    let channels = channels(r, format);
    let payload_type = if r.percent(10) { r.pick(&[0, 127]) } else { r.below(128) as u8 };
    let redundancy_type = loop {
        let t = if r.percent(30) { NO_REDUNDANCY } else { r.below(128) as u8 };
        if t != payload_type {
            break t;
        }
    };
    Settings { format, channels, payload_type, redundancy_type }
}

/// The most channels of a format.
fn most_channels(format: u8) -> u8 {
    if format <= 2 {
        MAX_CHANNELS
    } else {
        1
    }
}

/// A number of channels that a format has: often one or two.
fn channels(r: &mut Random, format: u8) -> u8 {
    let most = if r.percent(50) { most_channels(format).min(2) } else { most_channels(format) };
    r.within(1, most as usize) as u8
}

/// Other settings in range, or the same.
pub fn other_settings(r: &mut Random, s: Settings) -> Settings {
    let other = settings(r);
    match r.below(4) {
        0 => Settings { format: other.format, channels: s.channels.min(most_channels(other.format)), ..s },
        1 => Settings { channels: channels(r, s.format), ..s },
        2 => Settings { payload_type: s.redundancy_type & 127, redundancy_type: NO_REDUNDANCY, ..s },
        _ => other,
    }
}

/// Settings with one field out of range.
pub fn bad_settings(r: &mut Random) -> Settings {
    let s = settings(r);
    match r.below(6) {
        0 => Settings { format: r.pick(&[0, 6, 7, 128, 255]), ..s },
        1 => Settings { channels: r.pick(&[0, MAX_CHANNELS + 1, MAX_CHANNELS + 1, MAX_CHANNELS + 2, 12, 128, 255]), ..s },
        2 => Settings { format: r.pick(&[3, 4, 5]), channels: r.within(2, MAX_CHANNELS as usize) as u8, ..s },
        3 => Settings { payload_type: r.pick(&[128, 129, 200, 255]), ..s },
        4 => Settings { redundancy_type: r.pick(&[129, 130, 200, 255]), ..s },
        _ => Settings { redundancy_type: s.payload_type, ..s },
    }
}

/// A mode request to write: mostly one that there is, 0 to 15.
pub fn mode_request(r: &mut Random) -> u8 {
    match r.below(50) {
        0 => r.within(16, 20) as u8,
        1 => r.byte(),
        2 => 15,
        _ => r.below(16) as u8,
    }
}

/// How large a payload is to be, and what its frames hold.
#[derive(Clone, Copy, Debug)]
pub struct Shape {
    /// bytes of the payload, at most
    pub bytes: usize,
    /// rows, at most (at least one frame-block is made)
    pub rows: usize,
    /// frames of few different bytes and lengths, so that copies are equal or nearly so
    pub alike: bool,
}

struct Entry {
    code: u8,
    length: usize,
    blocks: usize,
}

fn code(r: &mut Random, s: Settings, alike: bool) -> (u8, usize) {
    if s.format == 3 {
        return r.pick(&[(0, 14), (0, 14), (2, 14), (7, 0)]);
    }
    if s.format >= 4 {
        let lengths: &[u32] = if s.format == 4 { &AMR_LENGTHS } else { &AMR_WB_LENGTHS };
        let sid = lengths.len() - 1;
        let code = match r.below(20) {
            0..=1 => return (15, 0),
            2 if s.format == 5 => return (14, 0),
            3..=6 => sid,
            _ if alike => r.pick(&[0, 0, 1]),
            _ => r.below(sid),
        };
        return (code as u8, lengths[code] as usize);
    }
    let code = if r.percent(15) {
        0
    } else if alike {
        r.pick(&[8, 8, 9])
    } else {
        r.within(8, 27) as u8
    };
    (code, g719_length(code))
}

fn g719_length(code: u8) -> usize {
    match code as usize {
        0 => 0,
        c if c <= 22 => 80 + 10 * (c - 8),
        c => 240 + 20 * (c - 23),
    }
}

/// A valid payload: tables and sound, with the mode request, the reserved and padding bits and every displacement at random, and some frames
/// damaged.
pub fn payload(r: &mut Random, s: Settings, shape: Shape) -> Vec<u8> {
    let channels = s.channels as usize;
    let mut entries: Vec<Entry> = Vec::new();
    let header = if s.format >= 4 { 1 } else { 0 };
    let (mut bytes, mut rows) = (header, 0);
    let most = match r.below(4) {
        0 => 1,
        1 => r.within(1, 4),
        _ => MAX_ROWS,
    };
    while entries.len() < most {
        // no data often goes on in a further entry where the byte that counts frame-blocks is used up, or nearly
        let on = entries.last().is_some_and(|last| last.length == 0 && last.blocks > MAX_RUN / 2) && r.percent(50);
        let (code, length) = if on { (0, 0) } else { code(r, s, shape.alike) };
        let mut blocks = match r.below(100) {
            _ if s.format >= 3 => 1,
            _ if on => r.within(1, MAX_RUN / 2),
            0..=29 if length == 0 => r.within(1, MAX_RUN),
            30..=49 if length == 0 => MAX_RUN - r.below(6),
            0..=4 => r.within(1, 64),
            _ => r.within(1, 5),
        };
        let size = |blocks: usize| {
            let table = match s.format {
                1 => 2,
                2 => 2 + blocks.div_ceil(2),
                _ => 1,
            };
            table + blocks * channels * length
        };
        let fits = |blocks: usize| bytes + size(blocks) <= shape.bytes && rows + blocks * channels <= shape.rows;
        if !entries.is_empty() && !fits(blocks) {
            break;
        }
        // the first entry mostly has as many frame-blocks as fit, but one at least
        while entries.is_empty() && blocks > 1 && !fits(blocks) && r.percent(98) {
            blocks -= 1;
        }
        bytes += size(blocks);
        rows += blocks * channels;
        entries.push(Entry { code, length, blocks });
    }
    let mut payload = r.bytes(header);
    let mut sound = 0;
    let damaged = r.pick(&[0, 20, 60]);
    for (i, entry) in entries.iter().enumerate() {
        let another = if i + 1 < entries.len() { F_BIT } else { 0 };
        if s.format == 3 {
            payload.push(another | entry.code << 4 | r.byte() & 15);
        } else if s.format >= 4 {
            let good = if r.percent(damaged) { 0 } else { QUALITY_BIT };
            payload.push(another | entry.code << 3 | good | r.byte() & 3);
        } else {
            payload.push(another | entry.code << 2 | r.byte() & 3);
            payload.push(entry.blocks as u8);
            if s.format == 2 {
                for _ in 0..entry.blocks.div_ceil(2) {
                    let near = r.percent(60);
                    payload.push(if near { r.byte() & 0x11 } else { r.byte() });
                }
            }
        }
        sound += entry.blocks * channels * entry.length;
    }
    let start = payload.len();
    payload.resize(start + sound, r.byte() & 1);
    if !shape.alike {
        r.fill(&mut payload[start..]);
    } else if sound > 0 {
        for _ in 0..r.below(3) {
            let place = start + r.below(sound);
            payload[place] = r.byte() & 3;
        }
    }
    payload
}

/// A packet with all kinds of headers, mostly valid, at a random time.
pub fn packet(r: &mut Random, s: Settings, shape: Shape) -> Vec<u8> {
    let time = match r.below(4) {
        0 => r.word(),
        1 => (r.below(100_000) as u32).wrapping_sub(50_000),
        2 => 0x8000_0000u32.wrapping_add(r.below(100_000) as u32).wrapping_sub(50_000),
        _ => r.below(5) as u32,
    };
    packet_at(r, s, shape, time)
}

/// A packet with all kinds of headers, mostly valid, at this time.
pub fn packet_at(r: &mut Random, s: Settings, shape: Shape, time: u32) -> Vec<u8> {
    let plain = s.redundancy_type == NO_REDUNDANCY || r.percent(50);
    let mut first = VERSION_2;
    let mut middle = Vec::new();
    if r.percent(15) {
        let sources = r.within(1, 15);
        first |= sources as u8;
        middle.extend(r.bytes(4 * sources));
    }
    if r.percent(15) {
        let words = if r.percent(90) { r.below(8) } else { r.below(300) };
        first |= 0x10;
        middle.extend(r.bytes(2));
        middle.extend((words as u16).to_be_bytes());
        middle.extend(r.bytes(4 * words));
    }
    let padding = match r.below(100) {
        0..=11 => r.within(1, 8),
        12..=14 => r.within(1, 255),
        _ => 0,
    };
    if padding > 0 {
        first |= 0x20;
    }
    let mut packet = vec![first, if plain { s.payload_type } else { s.redundancy_type } | r.byte() & M_BIT];
    packet.extend(r.bytes(2));
    packet.extend(time.to_be_bytes());
    packet.extend(r.bytes(4));
    packet.extend(middle);
    if plain {
        let bytes = payload(r, s, shape);
        packet.extend(bytes);
    } else {
        redundancy(r, s, shape, &mut packet);
    }
    if padding > 0 {
        packet.extend(r.bytes(padding - 1));
        packet.push(padding as u8);
    }
    packet
}

/// Where the payload of a packet starts that is not refused with 1 to 3.
pub fn payload_start(packet: &[u8]) -> usize {
    let start = 12 + 4 * (packet[0] & 15) as usize;
    if packet[0] & 0x10 == 0 {
        start
    } else {
        start + 4 + 4 * u16::from_be_bytes([packet[start + 2], packet[start + 3]]) as usize
    }
}

fn redundancy(r: &mut Random, s: Settings, shape: Shape, packet: &mut Vec<u8>) {
    let blocks = match r.below(20) {
        0 => r.within(5, 60),
        1..=3 => 0,
        _ => r.within(1, 4),
    };
    let mut data = Vec::new();
    for _ in 0..blocks {
        let block_type = block_type(r, s);
        let part = Shape { bytes: (shape.bytes / (blocks + 1)).min(MAX_BLOCK), rows: (shape.rows / (blocks + 1)).max(1), ..shape };
        let bytes = block(r, s, part, block_type);
        let length = if bytes.len() > MAX_BLOCK { 0 } else { bytes.len() };
        let offset = match r.below(6) {
            0 => 0,
            1 => MAX_OFFSET as usize,
            2 => r.below(MAX_OFFSET as usize + 1),
            _ => 160 * 6 * r.below(17),
        };
        packet.push(F_BIT | block_type);
        packet.extend(((offset << 10 | length) as u32).to_be_bytes().into_iter().skip(1));
        data.extend_from_slice(&bytes[..length]);
    }
    let block_type = block_type(r, s);
    packet.push(block_type);
    packet.extend(data);
    let part = Shape { bytes: shape.bytes / (blocks + 1), rows: (shape.rows / (blocks + 1)).max(1), ..shape };
    packet.extend(block(r, s, part, block_type));
}

fn block_type(r: &mut Random, s: Settings) -> u8 {
    match r.below(10) {
        0 => r.below(128) as u8,
        1 => s.redundancy_type & 127,
        _ => s.payload_type,
    }
}

fn block(r: &mut Random, s: Settings, shape: Shape, block_type: u8) -> Vec<u8> {
    if r.percent(10) {
        Vec::new()
    } else if block_type == s.payload_type {
        payload(r, s, shape)
    } else {
        let length = r.below(40);
        r.bytes(length)
    }
}

/// Damages a packet: flips bits, cuts, lengthens, overwrites, mostly near its front.
pub fn damage(r: &mut Random, packet: &mut Vec<u8>) {
    if packet.is_empty() {
        packet.push(r.byte());
        return;
    }
    let front = packet.len().min(if r.percent(70) { 24 } else { MAX_PACKET });
    match r.below(12) {
        0..=3 => {
            for _ in 0..r.within(1, 3) {
                let place = r.below(front);
                packet[place] ^= 1 << r.below(8);
            }
        }
        4 => {
            let place = r.below(front);
            packet[place] = r.byte();
        }
        5 => {
            let place = r.below(front);
            packet[place] = r.pick(&[0, 1, 127, 128, 255]);
        }
        6 => packet.truncate(r.below(packet.len() + 1)),
        7 => {
            let less = r.within(1, 4).min(packet.len());
            packet.truncate(packet.len() - less);
        }
        8 => {
            let more = if r.percent(80) { r.within(1, 4) } else { r.below(MAX_PACKET + 52) };
            packet.extend(r.bytes(more));
        }
        9 => {
            let place = r.below(front);
            packet.remove(place);
        }
        10 => {
            let place = r.below(front + 1);
            packet.insert(place, r.byte());
        }
        _ => {
            let length = packet.len();
            packet[length - 1] = r.byte();
        }
    }
}
