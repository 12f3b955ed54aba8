//! Packets with the refusal and the offset that reading answers, both worked out by hand: document 02, P2.

use reference::{Settings, F_BIT, MAX_PACKET, MAX_ROWS, VERSION_2};

/// A packet and what reading it answers; 0 where it is accepted.
#[derive(Clone, Debug)]
pub struct Judged {
    pub settings: Settings,
    pub packet: Vec<u8>,
    pub refusal: u32,
    pub offset: u32,
}

const PLAIN: u8 = 97;
const REDUNDANCY: u8 = 98;
const OTHER: u8 = 96;

/// A payload at fault: format, channels, its first bytes, how many bytes more, refusal, offset in the payload.
type Fault = (u8, u8, &'static [u8], usize, u32, usize);

/// Faults of tables, each also where a few rows stand before it.
#[rustfmt::skip]
const TABLES: &[Fault] = &[
    // G.719 basic. 6: an entry cut short, also a reserved one; the second missing, cut short; the third missing
    (1, 1, &[0x20], 0, 6, 0),
    (1, 2, &[0x1C], 0, 6, 0),
    (1, 1, &[0xA0, 1], 0, 6, 2),
    (1, 2, &[0xA0, 1, 0x20], 0, 6, 2),
    (1, 1, &[0x80, 3, 0xA0, 2], 0, 6, 4),
    // 7: L = 1, 7, 28, 31; before 8; in the second and the third entry, whatever follows
    (1, 1, &[0x04, 1], 0, 7, 0),
    (1, 1, &[0x1C, 1], 80, 7, 0),
    (1, 2, &[0x70, 0], 0, 7, 0),
    (1, 1, &[0xFC, 1], 0, 7, 0),
    (1, 1, &[0xA0, 1, 0x1F, 1], 160, 7, 2),
    (1, 2, &[0x80, 1, 0xA0, 2, 0x70, 1], 3, 7, 4),
    // 8
    (1, 1, &[0x20, 0], 0, 8, 0),
    (1, 2, &[0xA0, 0, 0x1C, 1], 0, 8, 0),
    (1, 1, &[0xA0, 1, 0x20, 0], 80, 8, 2),
    (1, 1, &[0x80, 9, 0x80, 9, 0x00, 0], 0, 8, 4),
    // 10: none, too few, one over; after two entries; no data with a byte
    (1, 1, &[0x20, 1], 0, 10, 2),
    (1, 1, &[0x20, 1], 79, 10, 2),
    (1, 1, &[0x20, 1], 81, 10, 2),
    (1, 2, &[0x20, 1], 80, 10, 2),
    (1, 1, &[0xA0, 1, 0x24, 1], 169, 10, 4),
    (1, 1, &[0xA0, 1, 0x80, 2, 0x24, 1], 171, 10, 6),
    (1, 2, &[0x00, 5], 1, 10, 2),
    (1, 6, &[0x20, 1], 80, 10, 2),
    (1, 6, &[0x20, 1], 479, 10, 2),
    (1, 6, &[0xA0, 1, 0x00, 2], 481, 10, 4),
    // G.719 interleaved. 6: cut before the count, before the displacements, in them; the second missing, cut in each way
    (2, 1, &[0x20], 0, 6, 0),
    (2, 1, &[0x20, 1], 0, 6, 0),
    (2, 2, &[0x1C, 3, 0], 0, 6, 0),
    (2, 1, &[0xA0, 3, 0, 0], 0, 6, 4),
    (2, 1, &[0xA0, 1, 0, 0x20], 0, 6, 3),
    (2, 2, &[0xA0, 2, 0, 0x20, 1], 0, 6, 3),
    (2, 1, &[0xA0, 4, 0, 0, 0x20, 5, 0, 0], 0, 6, 4),
    // 7, 8
    (2, 1, &[0x1C, 1, 0], 0, 7, 0),
    (2, 1, &[0x70, 0], 0, 7, 0),
    (2, 2, &[0xA0, 1, 0, 0x70, 1, 0], 9, 7, 3),
    (2, 1, &[0xA0, 3, 0, 0, 0x7C, 1, 0], 0, 7, 4),
    (2, 1, &[0x20, 0], 0, 8, 0),
    (2, 2, &[0xA0, 2, 0x11, 0x20, 0], 0, 8, 3),
    (2, 1, &[0x80, 5, 0, 0, 0, 0xA0, 0, 0x1C], 0, 8, 5),
    // 10
    (2, 1, &[0x20, 3, 0, 0], 239, 10, 4),
    (2, 2, &[0x20, 1, 0], 161, 10, 3),
    (2, 1, &[0xA0, 1, 0, 0x20, 3, 0, 0], 321, 10, 7),
    (2, 1, &[0x00, 4, 0, 0], 1, 10, 4),
    (2, 6, &[0x20, 1, 0], 479, 10, 3),
    (2, 5, &[0xA0, 1, 0, 0x00, 3, 0, 0], 401, 10, 7),
    // GSM-HR
    (3, 1, &[0x80], 0, 6, 1),
    (3, 1, &[0xF0, 0xA0], 0, 6, 2),
    (3, 1, &[0x10], 14, 7, 0),
    (3, 1, &[0xE0], 0, 7, 0),
    (3, 1, &[0x80, 0xF0, 0x3F], 28, 7, 2),
    (3, 1, &[0x00], 13, 10, 1),
    (3, 1, &[0x80, 0xF0, 0x20], 29, 10, 3),
    (3, 1, &[0x70], 1, 10, 1),
    // AMR: after the mode byte, which is no entry. Types 9 and 14
    (4, 1, &[0xF0], 0, 6, 1),
    (4, 1, &[0x80], 0, 6, 1),
    (4, 1, &[0x00, 0x84], 0, 6, 2),
    (4, 1, &[0x10, 0xFC, 0x80], 0, 6, 3),
    (4, 1, &[0xF0, 0x4C], 5, 7, 1),
    (4, 1, &[0x00, 0x84, 0x70], 12, 7, 2),
    (4, 1, &[0x70, 0xFC, 0xC4, 0x48], 5, 7, 3),
    (4, 1, &[0xF0, 0x04], 0, 10, 2),
    (4, 1, &[0x00, 0x04], 11, 10, 2),
    (4, 1, &[0x70, 0x84, 0x3C], 44, 10, 3),
    (4, 1, &[0x70, 0xFC, 0x7C], 1, 10, 3),
    // AMR-WB: types 10 and 13
    (5, 1, &[0xF0], 0, 6, 1),
    (5, 1, &[0x80], 0, 6, 1),
    (5, 1, &[0x00, 0xF4], 0, 6, 2),
    (5, 1, &[0x10, 0xFC, 0xC4], 0, 6, 3),
    (5, 1, &[0xF0, 0x54], 5, 7, 1),
    (5, 1, &[0x00, 0x84, 0x68], 17, 7, 2),
    (5, 1, &[0x70, 0xFC, 0xF0, 0x50], 0, 7, 3),
    (5, 1, &[0xF0, 0x04], 0, 10, 2),
    (5, 1, &[0x00, 0x04], 18, 10, 2),
    (5, 1, &[0x70, 0x84, 0x4C], 21, 10, 3),
    (5, 1, &[0x70, 0xF4], 0, 6, 2),
];

/// Faults that hang on the rows before: 9, and what is asked before it of the same entry.
#[rustfmt::skip]
const FULL_TABLES: &[Fault] = &[
    (1, 1, &[0x80, 255, 0x00, 130], 0, 9, 2),
    (1, 2, &[0x00, 193], 0, 9, 0),
    (1, 3, &[0x00, 129], 0, 9, 0),
    (1, 5, &[0x00, 77], 0, 9, 0),
    (1, 6, &[0x00, 65], 0, 9, 0),
    (1, 2, &[0x80, 255, 0x1C, 1], 0, 9, 0),
    (1, 1, &[0x80, 255, 0x80, 129, 0x00, 1], 0, 9, 4),
    (1, 2, &[0x80, 192, 0x00, 1], 0, 9, 2),
    (1, 4, &[0x80, 96, 0x00, 1], 0, 9, 2),
    (1, 5, &[0x80, 76, 0x00, 1], 0, 9, 2),
    (1, 6, &[0x80, 64, 0x00, 1], 0, 9, 2),
    (1, 1, &[0x80, 200, 0x80, 100, 0x80, 84, 0xA0, 1], 0, 9, 6),
    (1, 1, &[0x80, 255, 0x80, 129, 0x1C, 1], 0, 7, 4),
    (1, 6, &[0x80, 64, 0x1C, 1], 0, 7, 2),
    (1, 1, &[0x80, 255, 0x80, 129, 0x20, 0], 0, 8, 4),
    (1, 1, &[0x80, 255, 0x80, 129, 0x20], 0, 6, 4),
    // with as many displacements as it takes, and one too few
    (2, 2, &[0x00, 193], 97, 9, 0),
    (2, 2, &[0x00, 193], 96, 6, 0),
    (2, 6, &[0x00, 65], 33, 9, 0),
    (2, 6, &[0x00, 65], 32, 6, 0),
    (2, 3, &[0x80, 4, 0, 0, 0x00, 125], 63, 9, 4),
    (2, 2, &[0x80, 3, 0, 0, 0x80, 190], 95, 9, 4),
];

/// Block headers at fault: the redundancy payload's first bytes, how many more, refusal, offset in the payload.
#[rustfmt::skip]
const HEADERS: &[(&[u8], usize, u32, usize)] = &[
    // 6: nothing; the first cut short, of any type; the last missing; the second cut short, and the third
    (&[], 0, 6, 0),
    (&[0xE1], 0, 6, 0),
    (&[0xE0, 0, 0], 0, 6, 0),
    (&[0xE1, 0, 0, 0], 0, 6, 4),
    (&[0xE1, 0, 0, 1, 0xE0], 0, 6, 4),
    (&[0xE1, 0, 0, 9, 0xE2, 0, 0], 0, 6, 4),
    (&[0xE0, 0, 0, 0, 0xE1, 0, 0, 0], 0, 6, 8),
    (&[0xE0, 0, 0, 0, 0xE1, 0, 0, 0, 0xE1, 0], 0, 6, 8),
    // 10: the lengths are over what remains, whatever the types and the blocks
    (&[0xE1, 0, 0, 1, 0x61], 0, 10, 5),
    (&[0xE0, 0xFF, 0xFF, 0xFF, 0x60], 1022, 10, 5),
    (&[0xE1, 0, 0, 1, 0xE1, 0, 0, 1, 0x61], 1, 10, 9),
    (&[0xE0, 0, 0, 3, 0xE2, 0, 0, 200, 0xE1, 0, 0, 0, 0x60], 202, 10, 13),
];

/// Formats, and some of the numbers of channels that they have.
const FORMATS: [(u8, u8); 9] = [(1, 1), (1, 2), (1, 6), (2, 1), (2, 2), (2, 6), (3, 1), (4, 1), (5, 1)];

/// What may stand around a payload: contributing sources, words of an extension, padding.
const AROUND: [(u8, Option<u8>, u8); 8] =
    [(0, None, 0), (2, None, 0), (0, Some(0), 0), (0, Some(3), 0), (0, None, 1), (0, None, 9), (1, Some(1), 4), (15, Some(20), 255)];

fn settings(format: u8, channels: u8) -> Settings {
    Settings { format, channels, payload_type: PLAIN, redundancy_type: REDUNDANCY }
}

/// The packet around a payload, and where the payload starts.
fn packet(around: (u8, Option<u8>, u8), payload_type: u8, payload: &[u8]) -> (Vec<u8>, usize) {
    let (sources, extension, padding) = around;
    let mut packet = vec![VERSION_2 | sources, payload_type, 0, 1, 0, 0, 0x10, 0, 0, 0, 0, 9];
    packet.extend(vec![0x1C; 4 * sources as usize]);
    if let Some(words) = extension {
        packet[0] |= 0x10;
        packet.extend([0xBE, 0xDE, 0, words]);
        packet.extend(vec![0x1C; 4 * words as usize]);
    }
    let start = packet.len();
    packet.extend(payload);
    if padding > 0 {
        packet[0] |= 0x20;
        packet.extend(vec![0x20; padding as usize - 1]);
        packet.push(padding);
    }
    (packet, start)
}

/// A redundancy payload of these blocks, and where the last one starts in it.
fn redundancy(blocks: &[(u8, &[u8])]) -> (Vec<u8>, usize) {
    let (last, others) = blocks.split_last().unwrap();
    let mut payload = Vec::new();
    for (payload_type, bytes) in others {
        assert!(bytes.len() < 1024);
        payload.extend([F_BIT | payload_type, 0, (bytes.len() >> 8) as u8, bytes.len() as u8]);
    }
    payload.push(last.0);
    for (_, bytes) in others {
        payload.extend(*bytes);
    }
    let place = payload.len();
    payload.extend(last.1);
    (payload, place)
}

/// A payload of one row for each channel, accepted.
fn good(format: u8, channels: u8) -> Vec<u8> {
    let (table, sound): (&[u8], usize) = match format {
        1 => (&[0x20, 1], 80),
        2 => (&[0x20, 1, 0], 80),
        3 => (&[0x00], 14),
        4 => (&[0x70, 0x04], 12),
        _ => (&[0x70, 0x04], 17),
    };
    [table, &vec![0xFF; sound * channels as usize]].concat()
}

/// A payload of no data, in entries that give these numbers of rows (of one byte: a row each).
fn no_data(format: u8, channels: u8, entries: &[u8]) -> Vec<u8> {
    let mut payload = if format >= 4 { vec![0x70] } else { vec![] };
    let mut last = 0;
    for rows in entries {
        last = payload.len();
        let blocks = rows / channels;
        match format {
            1 => payload.extend([F_BIT, blocks]),
            2 => payload.extend([&[F_BIT, blocks][..], &vec![0; blocks.div_ceil(2) as usize]].concat()),
            3 => payload.extend(vec![0xF0; *rows as usize]),
            _ => payload.extend(vec![0xFC; *rows as usize]),
        }
        if format >= 3 {
            last = payload.len() - 1;
        }
    }
    payload[last] &= !F_BIT;
    payload
}

/// Every fault of 6 to 10 with its offset, plain and in redundancy, behind all kinds of headers and before padding; and packets like them
/// that are accepted.
pub fn faults() -> Vec<Judged> {
    let mut all = Vec::new();
    for around in AROUND {
        let mut plain = |s: Settings, payload: &[u8], refusal: u32, place: usize| {
            let (packet, start) = packet(around, PLAIN, payload);
            all.push(Judged { settings: s, packet, refusal, offset: (start + place) as u32 });
        };
        for (format, channels) in FORMATS {
            plain(settings(format, channels), &[], 6, 0);
        }
        for (format, channels, table, more, refusal, place) in TABLES.iter().chain(FULL_TABLES) {
            plain(settings(*format, *channels), &[table, &vec![0; *more][..]].concat(), *refusal, *place);
        }
        // one entry of a byte too many: the last, and a reserved one in its place, which is asked first
        for (format, first, one, reserved) in [(3, vec![], 0xF0, 0x10), (4, vec![0xF0], 0xFC, 0x4C), (5, vec![0xF0], 0xFC, 0x54)] {
            let table = [first.clone(), vec![one; MAX_ROWS]].concat();
            plain(settings(format, 1), &[&table[..], &[one]].concat(), 9, table.len());
            plain(settings(format, 1), &[&table[..], &[reserved]].concat(), 7, table.len());
            plain(settings(format, 1), &table, 6, table.len());
        }
        in_redundancy(around, &mut all);
        over_blocks(around, &mut all);
        accepted(around, &mut all);
    }
    all
}

/// Faults of block headers, and of tables in a block: alone, first, and after others.
fn in_redundancy(around: (u8, Option<u8>, u8), all: &mut Vec<Judged>) {
    for (headers, more, refusal, place) in HEADERS {
        for format in 1..=5 {
            let (packet, start) = packet(around, REDUNDANCY, &[headers, &vec![0x1C; *more][..]].concat());
            all.push(Judged { settings: settings(format, 1), packet, refusal: *refusal, offset: (start + place) as u32 });
        }
    }
    for (i, (format, channels, table, more, refusal, place)) in TABLES.iter().chain(FULL_TABLES).enumerate() {
        let (s, bytes) = (settings(*format, *channels), [table, &vec![0; *more][..]].concat());
        let mut block = |blocks: &[(u8, &[u8])], block_place: Option<usize>| {
            let (payload, last) = redundancy(blocks);
            let (packet, start) = packet(around, REDUNDANCY, &payload);
            let offset = (start + block_place.unwrap_or(last) + place) as u32;
            all.push(Judged { settings: s, packet, refusal: *refusal, offset });
        };
        let good = good(*format, *channels);
        // alone; first, before an empty one and before one at fault too; last, after others that are passed over and an empty one
        block(&[(PLAIN, &bytes)], None);
        block(&[(PLAIN, &bytes), (PLAIN, &[])], Some(5));
        block(&[(PLAIN, &bytes), (PLAIN, &[0x1C]), (PLAIN, &good)], Some(9));
        block(&[(OTHER, &[0x1C, 0]), (REDUNDANCY, &[0xE1; 3]), (PLAIN, &[]), (PLAIN, &bytes)], None);
        // after one with rows
        if i < TABLES.len() {
            block(&[(PLAIN, &good), (PLAIN, &bytes)], None);
            block(&[(PLAIN, &good), (PLAIN, &bytes), (PLAIN, &[0x1C])], Some(9 + good.len()));
        }
    }
}

/// 9 by the rows of several blocks: at the entry that brings the sum over 384, after 300 and 84.
fn over_blocks(around: (u8, Option<u8>, u8), all: &mut Vec<Judged>) {
    for (format, channels) in FORMATS {
        let s = settings(format, channels);
        let many = no_data(format, channels, &[150, 150]);
        // the place of the entry after 84 rows, in a payload of theirs
        let after_84 = no_data(format, channels, &[84]).len();
        let over = no_data(format, channels, &[84, channels]);
        let one_entry = no_data(format, channels, &[84 + channels]);
        // entries of a byte pass the limit at the 85th row still
        let at_once = if format >= 3 { after_84 } else { 0 };
        let mut block = |blocks: &[(u8, &[u8])], block_place: Option<usize>, refusal: u32, place: usize| {
            let (payload, last) = redundancy(blocks);
            let (packet, start) = packet(around, REDUNDANCY, &payload);
            let offset = if refusal == 0 { 0 } else { (start + block_place.unwrap_or(last) + place) as u32 };
            all.push(Judged { settings: s, packet, refusal, offset });
        };
        block(&[(PLAIN, &many), (PLAIN, &over)], None, 9, after_84);
        block(&[(PLAIN, &many), (PLAIN, &one_entry)], None, 9, at_once);
        block(&[(PLAIN, &many), (OTHER, &many), (PLAIN, &over), (PLAIN, &[0x1C])], Some(13 + 2 * many.len()), 9, after_84);
        block(&[(OTHER, &many), (PLAIN, &many), (PLAIN, &[]), (PLAIN, &over)], None, 9, after_84);
        // just as many as there may be, then one more
        let rest = no_data(format, channels, &[84]);
        let one = no_data(format, channels, &[channels]);
        block(&[(PLAIN, &many), (PLAIN, &rest)], None, 0, 0);
        block(&[(PLAIN, &many), (PLAIN, &rest), (PLAIN, &one)], None, 9, if format >= 4 { 1 } else { 0 });
    }
}

/// Packets that are accepted, so that there is no offset: among them blocks with faults that are not looked at.
fn accepted(around: (u8, Option<u8>, u8), all: &mut Vec<Judged>) {
    for (format, channels) in FORMATS {
        let good = good(format, channels);
        let full = no_data(format, channels, &[192, 192]);
        let payloads = [
            (PLAIN, good.clone()),
            (PLAIN, full.clone()),
            (REDUNDANCY, redundancy(&[(PLAIN, &good)]).0),
            (REDUNDANCY, redundancy(&[(PLAIN, &[])]).0),
            (REDUNDANCY, redundancy(&[(PLAIN, &[]), (PLAIN, &[])]).0),
            (REDUNDANCY, redundancy(&[(OTHER, &[0x1C]), (REDUNDANCY, &[0xE1]), (PLAIN, &good), (PLAIN, &[]), (OTHER, &[0x1C])]).0),
            (REDUNDANCY, redundancy(&[(OTHER, &full), (PLAIN, &full), (OTHER, &good)]).0),
        ];
        for (payload_type, payload) in payloads {
            let (packet, _) = packet(around, payload_type, &payload);
            all.push(Judged { settings: settings(format, channels), packet, refusal: 0, offset: 0 });
        }
    }
}

/// The same packet with its header spoiled: refused with 1 to 5, and no offset, whatever its payload.
pub fn header_faults(judged: &Judged) -> Vec<Judged> {
    let change = |refusal: u32, change: &dyn Fn(&mut Vec<u8>)| {
        let mut packet = judged.packet.clone();
        change(&mut packet);
        Judged { packet, refusal, offset: 0, ..judged.clone() }
    };
    vec![
        change(1, &|packet| packet.truncate(11)),
        change(1, &|packet| packet.resize(MAX_PACKET + 1, 0)),
        change(2, &|packet| packet[0] ^= 0x40),
        // an extension of 65,535 words, or cut short
        change(3, &|packet| {
            packet[0] |= 0x10;
            let count = 14 + 4 * (packet[0] & 15) as usize;
            packet.iter_mut().skip(count).take(2).for_each(|byte| *byte = 0xFF);
        }),
        change(4, &|packet| {
            packet[0] |= 0x20;
            *packet.last_mut().unwrap() = 0;
        }),
        change(5, &|packet| packet[1] = OTHER),
    ]
}
