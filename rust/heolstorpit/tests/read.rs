//! `read` against the reference: answers and whole row areas, over packets valid and damaged, long and short.

mod common;

use cases::{Judged, Random, Shape};
use common::{around, settings, Seen, Twice};
use heolstorpit::{raw, Refusal};
use reference::{Fault, Settings, F_BIT, MAX_CHANNELS, MAX_PACKET, MAX_PAYLOAD, MAX_ROWS, PRIMARY, ROW_AREA, ROW_WORDS};

struct Comparer {
    area: Twice<u32>,
    seen: Seen,
    /// rows by class and by channel, and packets of AMR by mode request
    classes: [u64; 7],
    channels: [u64; MAX_CHANNELS as usize],
    requests: [u64; 16],
}

impl Comparer {
    fn new(r: &mut Random) -> Comparer {
        let area = Twice::new(ROW_AREA + 64, |words| r.fill_words(words));
        Comparer { area, seen: Seen::default(), classes: [0; 7], channels: [0; MAX_CHANNELS as usize], requests: [0; 16] }
    }

    /// Reads one packet with both; answers the refusal and the offset.
    fn compare(&mut self, s: Settings, packet: &[u8], area: usize) -> (u32, u32) {
        let (mine, theirs) = self.area.lend(area);
        let answer = raw::read(settings(s), packet, mine);
        let expected = reference::read(s, packet, theirs);
        let numbers = match expected {
            Ok(r) => {
                let reference::Reading { rows, marker, sequence, timestamp, source, mode_request } = r;
                raw::Reading { refusal: 0, offset: 0, rows, marker, sequence, timestamp, source, mode_request }
            }
            Err(Fault { refusal, offset }) => raw::Reading { refusal, offset, ..raw::Reading::default() },
        };
        let rows = &theirs[..ROW_WORDS * numbers.rows as usize];
        if expected.is_ok() && packet[1] & 127 == s.payload_type {
            self.seen.add(APART, cases::groups_apart(s, rows));
            self.seen.add(LONG, cases::long_runs(s, rows));
        }
        for row in rows.chunks_exact(ROW_WORDS) {
            let (class, primary) = (row[1] % PRIMARY / 256, row[1] / PRIMARY == 1);
            self.classes[class as usize] += 1;
            self.channels[row[1] as usize % 256] += 1;
            self.seen.add(MARKS[2 * (class == 0) as usize + primary as usize], 1);
        }
        if expected.is_ok() && s.format >= 4 {
            self.requests[numbers.mode_request as usize] += 1;
        }
        assert!(
            answer == numbers && self.area.same() && (answer.refusal == 0 || self.area.unchanged()),
            "read differs: library {answer:?}, reference {expected:?}, areas equal: {}\nsettings {s:?}, row area {area}\npacket {packet:02x?}",
            self.area.same()
        );
        self.seen.refusal(answer.refusal);
        if answer.offset != 0 {
            let front = answer.offset as usize == cases::payload_start(packet) + (s.format >= 4 && answer.refusal != 10) as usize;
            let kind = if packet[1] & 127 == s.payload_type { "plain" } else { "redundancy" };
            self.seen.add(format!("{:2} in {kind}, {}", answer.refusal, if front { "at the front" } else { "later" }), 1);
        }
        self.seen.add("rows", answer.rows as u64);
        if answer.rows as usize == MAX_ROWS {
            self.seen.add(FULL, 1);
        }
        (answer.refusal, answer.offset)
    }
}

/// Each class and each mode request was seen this often at least.
fn amr_seen(c: &Comparer, least: u64) {
    assert!([0, 1, 2, 5, 6].iter().all(|class| c.classes[*class] >= least), "rows by class: {:?}", c.classes);
    assert!(c.requests.iter().all(|n| *n >= least), "packets by mode request: {:?}", c.requests);
}

/// Counted: packets of as many rows as there may be.
const FULL: &str = "packets of the most rows";

/// Counted: rows by mark; with data, without.
const MARKS: [&str; 4] = ["rows of redundant blocks", "primary rows", "no-data rows of redundant blocks", "primary no-data rows"];

/// Counted: runs of over 255 frame-blocks, in plain packets.
const LONG: &str = "runs over 255";

/// Counted: groups of another length than the one before and apart from it, in plain packets.
const APART: &str = "groups apart";

const REFUSALS: [&str; 13] = [
    "accepted",
    "refusal  1",
    "refusal  2",
    "refusal  3",
    "refusal  4",
    "refusal  5",
    "refusal  6",
    "refusal  7",
    "refusal  8",
    "refusal  9",
    "refusal 10",
    "refusal 11",
    "refusal 12",
];

/// Counted: refusals of 6 to 10 by where they are.
const LATER: [&str; 10] = [
    " 6 in plain, later",
    " 7 in plain, later",
    " 8 in plain, later",
    " 9 in plain, later",
    "10 in plain, later",
    " 6 in redundancy, later",
    " 7 in redundancy, later",
    " 8 in redundancy, later",
    " 9 in redundancy, later",
    "10 in redundancy, later",
];

fn shape(r: &mut Random) -> Shape {
    let bytes = match r.below(10) {
        0 => MAX_PAYLOAD,
        1 => MAX_PAYLOAD - 16 + r.below(40),
        2 => r.below(MAX_PAYLOAD),
        _ => r.below(600),
    };
    let rows = match r.below(10) {
        0 => MAX_ROWS,
        1 => MAX_ROWS - 8 + r.below(16),
        _ => 40,
    };
    Shape { bytes, rows, alike: false }
}

#[test]
fn packets_valid_and_damaged() {
    let mut r = Random::new(1);
    let mut c = Comparer::new(&mut r);
    for _ in 0..1_000_000 {
        let s = if r.percent(2) { cases::bad_settings(&mut r) } else { cases::settings(&mut r) };
        let shape = shape(&mut r);
        let mut packet = cases::packet(&mut r, s, shape);
        if r.percent(55) {
            for _ in 0..r.within(1, 3) {
                cases::damage(&mut r, &mut packet);
            }
        }
        let area = if r.percent(5) { around(&mut r, ROW_AREA) } else { ROW_AREA };
        c.compare(s, &packet, area);
    }
    c.seen.report("read, packets valid and damaged");
    c.seen.at_least(1000, &REFUSALS);
    c.seen.at_least(100, &[FULL, LONG]);
    c.seen.at_least(100, &LATER);
    assert!(c.channels.iter().all(|n| *n >= 10_000), "rows by channel: {:?}", c.channels);
    // more channels, fewer entries
    c.seen.at_least(5000, &[APART]);
    c.seen.at_least(10_000, &MARKS);
    amr_seen(&c, 10_000);
}

/// Random bytes behind a plausible header, so that tables of all shapes are met.
#[test]
fn random_bytes() {
    let mut r = Random::new(2);
    let mut c = Comparer::new(&mut r);
    for _ in 0..400_000 {
        let s = cases::settings(&mut r);
        let length = match r.below(8) {
            0 => r.below(14),
            1 => MAX_PACKET - 8 + r.below(16),
            _ => 12 + r.below(60),
        };
        let mut packet = r.bytes(length);
        if length >= 2 && r.percent(95) {
            packet[0] = 0x80 | if r.percent(10) { r.byte() & 0x3f } else { 0 };
            packet[1] = if r.percent(50) { s.payload_type } else { s.redundancy_type & 127 };
        }
        // tables of small numbers are met more often
        for byte in packet.iter_mut().skip(12) {
            match r.below(8) {
                0..=2 => *byte &= 0x83,
                3 => *byte &= 0xA3,
                _ => {}
            }
        }
        c.compare(s, &packet, ROW_AREA);
    }
    c.seen.report("read, random bytes");
    c.seen.at_least(1000, &["accepted", "refusal  6", "refusal  7", "refusal  8", "refusal  9", "refusal 10"]);
}

/// Every bit of the first 40 bytes flipped, every length cut to, every pair of neighbouring bytes zeroed.
#[test]
fn each_bit_and_each_length() {
    let mut r = Random::new(3);
    let mut c = Comparer::new(&mut r);
    for _ in 0..250 {
        let s = cases::settings(&mut r);
        let bytes = if r.percent(80) { 200 } else { MAX_PAYLOAD };
        let packet = cases::packet(&mut r, s, Shape { bytes, rows: MAX_ROWS, alike: false });
        c.compare(s, &packet, ROW_AREA);
        for bit in 0..8 * packet.len().min(40) {
            let mut flipped = packet.clone();
            flipped[bit / 8] ^= 1 << (bit % 8);
            c.compare(s, &flipped, ROW_AREA);
        }
        for length in 0..packet.len() {
            c.compare(s, &packet[..length], ROW_AREA);
        }
        for place in 0..packet.len().min(200) {
            let mut zeroed = packet.clone();
            zeroed[place] = 0;
            if place + 1 < zeroed.len() {
                zeroed[place + 1] = 0;
            }
            c.compare(s, &zeroed, ROW_AREA);
        }
    }
    c.seen.report("read, each bit and each length");
    c.seen.at_least(100, &["accepted"]);
}

/// Every length of packet and of row area around the limits, and all settings with fields around theirs.
#[test]
fn limits() {
    let mut r = Random::new(4);
    let mut c = Comparer::new(&mut r);
    for format in [0, 1, 2, 3, 4, 5, 6, 7, 128, 255] {
        for channels in (0..=MAX_CHANNELS + 2).chain([255]) {
            for payload_type in [0, 1, 97, 126, 127, 128, 129, 255] {
                for redundancy_type in [0, 1, 97, 127, 128, 129, 255] {
                    let s = Settings { format, channels, payload_type, redundancy_type };
                    let packet = cases::packet(
                        &mut r,
                        Settings { format: format % 6, channels: channels.clamp(1, MAX_CHANNELS), ..s },
                        Shape { bytes: 300, rows: 20, alike: false },
                    );
                    for area in [0, ROW_AREA - 1, ROW_AREA, ROW_AREA + 1] {
                        c.compare(s, &packet, area);
                    }
                }
            }
        }
    }
    // A packet of each length from 0 to some over the most: a payload of no data, padded to the length; and with the padding count off by one.
    let s = Settings { format: 1, channels: 1, payload_type: 97, redundancy_type: 98 };
    for length in 0..MAX_PACKET + 12 {
        let mut packet = vec![0; length];
        let header = [0x80, 97, 0, 1, 0, 0, 0, 2, 0, 0, 0, 3, 0, 1];
        let front = length.min(header.len());
        packet[..front].copy_from_slice(&header[..front]);
        c.compare(s, &packet, ROW_AREA);
        if length > 14 {
            for padding in [length - 14, length - 13, length - 12, length - 11, 0] {
                packet[0] = 0xA0;
                packet[length - 1] = padding as u8;
                c.compare(s, &packet, ROW_AREA);
            }
            // the same length made up by an extension
            if length >= 18 {
                for words in [(length - 18) / 4, (length - 18) / 4 + 1, (length - 16) / 4, (length - 16) / 4 + 1] {
                    packet[0] = 0x90;
                    packet[14..16].copy_from_slice(&(words as u16).to_be_bytes());
                    packet[length - 2..].copy_from_slice(&[0, 1]);
                    c.compare(s, &packet, ROW_AREA);
                }
            }
        }
    }
    // Rows around the most over one and two entries, each number of channels, plain and split over blocks.
    for channels in 1..=MAX_CHANNELS {
        for format in [1u8, 2] {
            let s = Settings { format, channels, payload_type: 97, redundancy_type: 98 };
            for a in 0..=255u8 {
                for b in [0u8, 1, 2, 63, 64, 65, 127, 128, 129, 130, 255] {
                    let entry = |more: u8, blocks: u8| {
                        let mut bytes = vec![more, blocks];
                        if format == 2 {
                            bytes.extend(vec![0; (blocks as usize).div_ceil(2)]);
                        }
                        bytes
                    };
                    let mut plain = vec![0x80, 97, 0, 1, 0, 0, 0, 2, 0, 0, 0, 3];
                    plain.extend(entry(F_BIT, a));
                    plain.extend(entry(0, b));
                    c.compare(s, &plain, ROW_AREA);
                    let mut split = vec![0x80, 98, 0, 1, 0, 0, 0, 2, 0, 0, 0, 3];
                    let first = entry(0, a);
                    split.extend([F_BIT + 97, 0, 0, first.len() as u8, 97]);
                    split.extend(first);
                    split.extend(entry(0, b));
                    c.compare(s, &split, ROW_AREA);
                }
            }
        }
    }
    c.seen.report("read, limits");
    c.seen.at_least(100, &["accepted", "refusal  1", "refusal  3", "refusal  4", "refusal  8", "refusal  9", "refusal 11", "refusal 12"]);
}

/// Every DIS1 of the first entry, a second and a third, groups of one to three frame-blocks, plain and in a redundant block, also where
/// the time wraps; and each packet damaged once.
#[test]
fn groups_apart() {
    let mut r = Random::new(6);
    let mut c = Comparer::new(&mut r);
    for number in 0..16 * 16 * 16 * 4u32 {
        let channels = 1 + (number % 2) as u8;
        let s = Settings { format: 2, channels, payload_type: 97, redundancy_type: 98 };
        let (mut table, mut sound) = (Vec::new(), 0);
        for (i, code) in [8u8, 0, 9].into_iter().enumerate() {
            let blocks = r.within(1, 3);
            let dis1 = (number / 4 >> (4 * i) & 15) as u8;
            table.extend([if i < 2 { F_BIT } else { 0 } | code << 2 | r.byte() & 3, blocks as u8, dis1 << 4 | r.byte() & 15]);
            if blocks == 3 {
                table.push(r.byte());
            }
            sound += blocks * channels as usize * [80, 0, 90][i];
        }
        let time = if number % 4 < 2 { r.word() } else { (r.below(20_000) as u32).wrapping_neg() };
        let plain = number % 3 > 0;
        let mut packet = vec![0x80, if plain { 97 } else { 98 }, 0, 1];
        packet.extend(time.to_be_bytes());
        packet.extend([0, 0, 0, 7]);
        if !plain {
            packet.extend([F_BIT | 97, r.byte(), r.byte() & 0xFC | ((table.len() + sound) >> 8) as u8, (table.len() + sound) as u8, 97]);
        }
        packet.extend(table);
        packet.extend(r.bytes(sound));
        c.compare(s, &packet, ROW_AREA);
        cases::damage(&mut r, &mut packet);
        c.compare(s, &packet, ROW_AREA);
    }
    c.seen.report("read, groups apart");
    c.seen.at_least(10_000, &["accepted", APART]);
}

/// AMR and AMR-WB: every entry, alone, before another and after another, with every mode byte, and with sound of about the right length;
/// in two blocks with mode requests of their own, one of them empty, of another type, or of the mode byte alone.
#[test]
fn entries_of_amr() {
    let mut r = Random::new(7);
    let mut c = Comparer::new(&mut r);
    // bytes of a frame by type, as far as it has some
    let length = |format: u8, entry: u8| -> usize {
        let lengths: &[u32] = if format == 4 { &reference::AMR_LENGTHS } else { &reference::AMR_WB_LENGTHS };
        lengths.get((entry >> 3 & 15) as usize).map_or(0, |length| *length as usize)
    };
    let mut packet = Vec::new();
    for format in [4u8, 5] {
        let s = Settings { format, channels: 1, payload_type: 97, redundancy_type: 98 };
        let head = |payload_type: u8| [0x80, payload_type, 0, 1, 0, 0, 0, 2, 0, 0, 0, 3];
        for entry in 0..=255u8 {
            for mode in 0..=255u8 {
                for entries in [&[entry][..], &[entry, mode], &[mode | F_BIT, entry & !F_BIT]] {
                    let sound: usize = entries.iter().map(|entry| length(format, *entry)).sum();
                    let sound = sound + if r.percent(90) { 0 } else { r.within(0, 2) };
                    packet.clear();
                    packet.extend(head(97));
                    packet.push(mode);
                    packet.extend(entries);
                    packet.extend(r.bytes(sound));
                    c.compare(s, &packet, ROW_AREA);
                }
            }
            // two blocks
            for second in 0..5 {
                let block = |r: &mut Random, entry: u8| [&[r.byte(), entry & !F_BIT][..], &r.bytes(length(format, entry))].concat();
                let (old, other) = (block(&mut r, entry), r.byte());
                let new = match second {
                    0 => vec![],
                    1 => vec![r.byte()],
                    _ => block(&mut r, other),
                };
                for types in [(97, 97), (97, 96), (96, 97), (97, 98), (96, 96)] {
                    packet.clear();
                    packet.extend(head(98));
                    packet.extend([F_BIT | types.0, r.byte(), r.byte() & 0xFC, old.len() as u8, types.1]);
                    packet.extend(&old);
                    packet.extend(&new);
                    c.compare(s, &packet, ROW_AREA);
                }
            }
        }
    }
    c.seen.report("read, entries of AMR");
    c.seen.at_least(1000, &["accepted", "refusal  6", "refusal  7", "refusal 10"]);
    amr_seen(&c, 1000);
}

/// P2: each refusal of 6 to 10 has the offset worked out by hand, through the friendly function too; 1 to 5, 11 and 12 have none.
#[test]
fn faults() {
    let mut r = Random::new(8);
    let mut c = Comparer::new(&mut r);
    for judged in cases::faults() {
        let Judged { settings: s, packet, refusal, offset } = &judged;
        assert_eq!(c.compare(*s, packet, ROW_AREA), (*refusal, *offset), "{judged:02x?}");
        let friendly = heolstorpit::read(settings(*s).into(), packet, &mut [0; ROW_AREA]).err();
        let fault = Refusal::from_number(*refusal).map(|refusal| heolstorpit::Fault { refusal, offset: Some(*offset as usize) });
        assert_eq!(friendly, fault, "{judged:02x?}");
        for spoiled in cases::header_faults(&judged) {
            assert_eq!(c.compare(*s, &spoiled.packet, ROW_AREA), (spoiled.refusal, 0), "{spoiled:02x?}");
            let friendly = heolstorpit::read(settings(*s).into(), &spoiled.packet, &mut [0; ROW_AREA]).unwrap_err();
            assert_eq!((friendly.refusal.number(), friendly.offset), (spoiled.refusal, None));
        }
        for bad in [Settings { format: 0, ..*s }, Settings { channels: MAX_CHANNELS + 1, ..*s }, Settings { redundancy_type: 97, ..*s }] {
            assert_eq!(c.compare(bad, packet, ROW_AREA), (11, 0));
        }
        assert_eq!(c.compare(*s, packet, ROW_AREA - 1), (12, 0));
        // cut anywhere in the payload, and every bit of the tables flipped
        let start = cases::payload_start(packet);
        for length in (start..packet.len()).filter(|_| packet[0] & 0x20 == 0) {
            c.compare(*s, &packet[..length], ROW_AREA);
        }
        for bit in 8 * start..8 * packet.len().min(start + 24) {
            let mut flipped = packet.clone();
            flipped[bit / 8] ^= 1 << (bit % 8);
            c.compare(*s, &flipped, ROW_AREA);
        }
    }
    c.seen.report("read, faults");
    c.seen.at_least(100, &REFUSALS);
    c.seen.at_least(100, &LATER);
}

/// P6: in each format, every number of blocks, each of them of sound, no data, nothing or another type: the rows of the last one and of a
/// plain payload are marked, through the friendly function too.
#[test]
fn marks() {
    let mut r = Random::new(9);
    let mut c = Comparer::new(&mut r);
    // a payload of sound and then no data in each format, and one of no data
    let payloads: [(&[u8], usize, &[u8]); 5] = [
        (&[0xA0, 1, 0, 1], 80, &[0, 1]),
        (&[0xA0, 1, 0, 0, 1, 0], 80, &[0, 1, 0]),
        (&[0x80, 0x70], 14, &[0x70]),
        (&[0x20, 0x84, 0x7C], 12, &[0x20, 0x7C]),
        (&[0x20, 0xC8, 0x70], 5, &[0x20, 0x74]),
    ];
    for (format, (table, sound, none)) in (1..=5u8).zip(payloads) {
        let s = Settings { format, channels: 1, payload_type: 97, redundancy_type: 98 };
        let both = [table, &r.bytes(sound)].concat();
        // payload type, bytes, rows
        let choices: [(u8, &[u8], usize); 4] = [(97, &both, 2), (97, none, 1), (97, &[], 0), (96, &both, 0)];
        for blocks in 0..=5u32 {
            for number in 0..choices.len().pow(blocks + 1) {
                let chosen: Vec<_> = (0..=blocks).map(|i| choices[number >> (2 * i) & 3]).collect();
                let (last, redundant) = chosen.split_last().unwrap();
                let mut packet = vec![0x80, 98, 0, 1, 0, 0, 0, 2, 0, 0, 0, 3];
                for (payload_type, bytes, _) in redundant {
                    packet.extend([F_BIT | payload_type, r.byte(), r.byte() & 0xFC, bytes.len() as u8]);
                }
                packet.push(last.0);
                chosen.iter().for_each(|(_, bytes, _)| packet.extend(*bytes));
                assert_eq!(c.compare(s, &packet, ROW_AREA), (0, 0));
                let second_hand = redundant.iter().map(|(_, _, rows)| rows).sum::<usize>();
                let mut area = [0; ROW_AREA];
                let reading = heolstorpit::read(settings(s).into(), &packet, &mut area).unwrap();
                let marks: Vec<bool> = heolstorpit::Row::list(&area, reading.rows).map(|row| row.primary).collect();
                assert_eq!(marks, [vec![false; second_hand], vec![true; last.2]].concat(), "{packet:02x?}");
            }
        }
        for payload in [&both[..], none] {
            let packet = [&[0x80, 97, 0, 1, 0, 0, 0, 2, 0, 0, 0, 3][..], payload].concat();
            assert_eq!(c.compare(s, &packet, ROW_AREA), (0, 0));
            let mut area = [0; ROW_AREA];
            let reading = heolstorpit::read(settings(s).into(), &packet, &mut area).unwrap();
            assert!(reading.rows > 0 && heolstorpit::Row::list(&area, reading.rows).all(|row| row.primary));
        }
    }
    c.seen.report("read, marks");
    c.seen.at_least(1000, &MARKS);
}

/// The friendly answers say the same as the raw ones.
#[test]
fn friendly_answers() {
    let mut r = Random::new(5);
    for _ in 0..20_000 {
        let s = cases::settings(&mut r);
        let mut packet = cases::packet(&mut r, s, Shape { bytes: 300, rows: MAX_ROWS, alike: false });
        if r.percent(50) {
            cases::damage(&mut r, &mut packet);
        }
        let (mut one, mut two) = (vec![0; ROW_AREA], vec![0; ROW_AREA]);
        let friendly = heolstorpit::read(settings(s).into(), &packet, &mut one);
        let answer = raw::read(settings(s), &packet, &mut two);
        assert_eq!(one, two);
        match friendly {
            Ok(reading) => {
                let heolstorpit::Reading { rows, marker, sequence, timestamp, source, mode_request } = reading;
                let (marker, sequence, mode_request) = (marker as u32, sequence as u32, mode_request as u32);
                assert_eq!(raw::Reading { refusal: 0, offset: 0, rows, marker, sequence, timestamp, source, mode_request }, answer);
                let rows: Vec<u32> = heolstorpit::Row::list(&one, reading.rows).flat_map(|row| row.words().unwrap()).collect();
                assert_eq!(rows, one[..ROW_WORDS * reading.rows as usize]);
            }
            Err(heolstorpit::Fault { refusal, offset }) => {
                assert_eq!((refusal.number(), offset.unwrap_or(0)), (answer.refusal, answer.offset as usize));
                assert_eq!(offset.is_some(), (6..=10).contains(&answer.refusal));
            }
        }
    }
}
