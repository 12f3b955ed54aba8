//! `Buffer::new`, `offer` and `draw` against the reference: whole histories of calls, with answers, buffers, stores and areas
//! compared after each call; and the same calls on spoiled buffers.

mod common;

use cases::{Judged, Random, Shape};
use common::{around, raw_drawn, settings, to_raw, Seen, Twice};
use heolstorpit::{raw, Buffer, Class, Format, Refusal};
use reference::{
    step_ticks, Drawn, Fault, Settings, Verdicts, DRAW_AREA, F_BIT, MAX_CHANNELS, MAX_PAYLOAD, MAX_ROWS, NO_REDUNDANCY, PRIMARY, ROW_AREA,
    ROW_WORDS, SLOTS, STORE_BYTES,
};

/// Counted: offers that leave as many frames held as there may be.
const FULL: &str = "offers that leave all slots in use";

/// Counted: offers refused with an offset.
const OFFSET: &str = "offers refused with an offset";

/// Counted: frames drawn by mark; and, of offers of one copy of a frame held, those that mark it, and those that leave it marked though the
/// copy is second-hand, by verdict.
const DRAWN: [&str; 2] = ["drawn, heard second-hand only", "drawn, heard first-hand"];
const MARKED: [&str; 2] = ["marked by a repeat", "marked by a better copy"];
const KEPT: [&str; 2] = ["mark kept at a repeat", "mark kept at a better copy"];

/// A buffer with its lent areas, held by the library and by the reference.
struct Pair {
    buffer: reference::Buffer,
    rows: Twice<u32>,
    store: Twice<u8>,
    area: Twice<u8>,
    seen: Seen,
    /// refusal and offset of the last offer
    fault: (u32, u32),
}

impl Pair {
    fn new(r: &mut Random) -> Pair {
        Pair {
            buffer: reference::Buffer::zero(),
            rows: Twice::new(ROW_AREA + 64, |words| r.fill_words(words)),
            store: Twice::new(STORE_BYTES + 64, |bytes| r.fill(bytes)),
            area: Twice::new(DRAW_AREA + 64, |bytes| r.fill(bytes)),
            seen: Seen::default(),
            fault: (0, 0),
        }
    }

    fn fresh(&mut self, s: Settings) {
        let answer = raw::new(settings(s));
        let (buffer, expected) = reference::fresh(s);
        assert_eq!(answer, raw::Fresh { refusal: expected.err().unwrap_or(0), buffer: to_raw(&buffer) }, "new, settings {s:?}");
        self.seen.refusal(answer.refusal);
        self.buffer = buffer;
    }

    /// Offers to this buffer, with row area and store of these lengths; answers what is left of it.
    fn offer_to(&mut self, buffer: reference::Buffer, packet: &[u8], rows: usize, store: usize) -> reference::Buffer {
        let (my_rows, their_rows) = self.rows.lend(rows);
        let (my_store, their_store) = self.store.lend(store);
        let answer = raw::offer(to_raw(&buffer), packet, my_rows, my_store);
        let (after, expected) = reference::offer(&buffer, packet, their_rows, their_store);
        let (Fault { refusal, offset }, v) = match expected {
            Ok(v) => (Fault::from(0), v),
            Err(fault) => (fault, Verdicts::default()),
        };
        let Verdicts { late, far, repeated, better, no_room, inserted } = v;
        let numbers = raw::Offered { refusal, offset, late, far, repeated, better, no_room, inserted, buffer: to_raw(&after) };
        let areas = self.rows.same() && self.store.same();
        let kept = refusal == 0 || (self.rows.unchanged() && self.store.unchanged());
        assert!(
            answer == numbers && areas && kept,
            "offer differs; areas equal: {areas}\nlibrary {answer:?}\nreference {numbers:?}\nto {buffer:?}\nrow area {rows}, store {store}\npacket {packet:02x?}"
        );
        self.seen.refusal(refusal);
        if offset != 0 {
            self.seen.add(OFFSET, 1);
        }
        self.fault = (refusal, offset);
        for (name, n) in
            [("late", late), ("far", far), ("repeated", repeated), ("better", better), ("no room", no_room), ("inserted", inserted)]
        {
            self.seen.add(name, n as u64);
        }
        if refusal == 0 && repeated + better == 1 && inserted + late + far + no_room == 0 {
            self.count_marks(&buffer, &after, better);
        }
        after
    }

    /// Counts what became of the mark where one copy of a frame held was offered.
    fn count_marks(&mut self, before: &reference::Buffer, after: &reference::Buffer, better: u32) {
        let (mine, _) = self.rows.lend(ROW_AREA);
        let row = mine.chunks_exact(ROW_WORDS).find(|row| row[1] % PRIMARY >= 256).expect("a row with data");
        let (time, channel, primary) = (row[0], row[1] % 256, row[1] & PRIMARY != 0);
        let at = (0..before.held()).find(|i| (before.times[*i], before.tags[*i] % 256) == (time, channel)).expect("a frame held");
        match (before.tags[at] / PRIMARY, after.tags[at] / PRIMARY) {
            (0, 1) => self.seen.add(MARKED[better as usize], 1),
            (1, 1) if !primary => self.seen.add(KEPT[better as usize], 1),
            _ => {}
        }
    }

    fn draw_from(&mut self, buffer: reference::Buffer, store: usize, area: usize) -> (reference::Buffer, Result<Drawn, u32>) {
        let (my_store, their_store) = self.store.lend(store);
        let (my_area, their_area) = self.area.lend(area);
        let answer = raw::draw(to_raw(&buffer), my_store, my_area);
        let (after, expected) = reference::draw(&buffer, their_store, their_area);
        let numbers = raw_drawn(expected, &after);
        match expected {
            Ok(Drawn::Frame { primary, .. }) => self.seen.add(DRAWN[primary as usize], 1),
            Ok(Drawn::Empty) => self.seen.add("empty", 1),
            Err(_) => {}
        }
        let areas = self.store.same() && self.area.same() && self.store.unchanged();
        let kept = matches!(expected, Ok(Drawn::Frame { .. })) || self.area.unchanged();
        assert!(
            answer == numbers && areas && kept,
            "draw differs; areas equal: {areas}\nlibrary {answer:?}\nreference {numbers:?}\nfrom {buffer:?}\nstore {store}, draw area {area}"
        );
        self.seen.refusal(answer.refusal);
        (after, expected)
    }

    fn offer(&mut self, packet: &[u8]) {
        self.buffer = self.offer_to(self.buffer, packet, ROW_AREA, STORE_BYTES);
        if self.buffer.held() == SLOTS {
            self.seen.add(FULL, 1);
        }
    }

    fn draw(&mut self) -> Result<Drawn, u32> {
        let (after, expected) = self.draw_from(self.buffer, STORE_BYTES, DRAW_AREA);
        self.buffer = after;
        expected
    }

    /// A call with areas of lengths around their limits; refused or not, the history goes on with what it leaves.
    fn odd_areas(&mut self, r: &mut Random, packet: &[u8]) {
        let rows = around(r, ROW_AREA);
        let store = if r.percent(80) { around(r, STORE_BYTES) } else { STORE_BYTES };
        if r.percent(60) {
            self.buffer = self.offer_to(self.buffer, packet, rows, store);
        } else {
            let area = around(r, DRAW_AREA);
            self.buffer = self.draw_from(self.buffer, store, area).0;
        }
    }

    /// Both calls on a spoiled copy. Where it is well-formed still, the store may change, for both alike.
    fn spoiled(&mut self, r: &mut Random, packet: &[u8]) {
        let mut copy = self.buffer;
        let way = r.below(cases::SPOILS);
        cases::spoil(r, &mut copy, way);
        if r.percent(15) {
            let way = r.below(cases::SPOILS);
            cases::spoil(r, &mut copy, way);
        }
        let store = if r.percent(90) { STORE_BYTES } else { around(r, STORE_BYTES) };
        if copy.settings.in_range() {
            self.seen.add(
                format!("spoiled way {way:2}, {}", if reference::is_well_formed(&copy) { "still well-formed" } else { "malformed" }),
                1,
            );
        }
        self.offer_to(copy, packet, ROW_AREA, store);
        self.draw_from(copy, store, DRAW_AREA).1.ok();
    }
}

/// How the packets of a history come.
struct Stream {
    now: u32,
    step: u32,
    spread: usize,
    shape: Shape,
}

impl Stream {
    fn new(r: &mut Random, s: Settings) -> Stream {
        let step = step_ticks(s.format);
        let now = match r.below(5) {
            0 => 0,
            1 => 0u32.wrapping_sub(step * r.below(40) as u32),
            2 => (1u32 << 31).wrapping_sub(step * r.below(40) as u32),
            3 => r.word() & 0xffff,
            _ => r.word(),
        };
        let rows = if r.percent(10) { MAX_ROWS } else { r.pick(&[1, 4, 12]) };
        let spread = r.pick(&[1, 8, 40, 400]);
        Stream { now, step, spread, shape: Shape { bytes: r.pick(&[400, 1200, MAX_PAYLOAD]), rows, alike: r.percent(80) } }
    }

    fn packet(&mut self, r: &mut Random, buffer: &reference::Buffer) -> Vec<u8> {
        if r.percent(40) {
            self.now = self.now.wrapping_add(self.step);
        }
        let jitter = self.step.wrapping_mul(r.below(self.spread) as u32);
        let mut time = if r.percent(50) { self.now.wrapping_add(jitter) } else { self.now.wrapping_sub(jitter) };
        if r.percent(4) {
            // around the far and late distances from a held or drawn time
            let from = if buffer.drawn == 1 && r.percent(50) { buffer.last_time } else { buffer.times[r.below(buffer.held().max(1))] };
            time = from.wrapping_add(r.pick(&[0, 1, u32::MAX, (1 << 31) - 1, 1 << 31, (1 << 31) + 1, 1 << 30, 3 << 30]));
        }
        let mut packet = cases::packet_at(r, buffer.settings, self.shape, time);
        if r.percent(8) {
            cases::damage(r, &mut packet);
        }
        packet
    }
}

#[test]
fn histories() {
    let mut r = Random::new(21);
    let mut p = Pair::new(&mut r);
    for _ in 0..900 {
        let s = cases::settings(&mut r);
        p.fresh(s);
        let mut stream = Stream::new(&mut r, s);
        let draws = r.pick(&[0, 5, 20, 50, 70]);
        let calls = r.pick(&[20, 100, 500, 1000]);
        for i in 0..calls {
            let packet = stream.packet(&mut r, &p.buffer);
            match r.below(100) {
                0..=2 => p.odd_areas(&mut r, &packet),
                3..=7 => p.spoiled(&mut r, &packet),
                n if n < 8 + draws && i > 10 => {
                    p.draw().unwrap();
                }
                _ => p.offer(&packet),
            }
        }
        // to the end, now and then
        if r.percent(60) {
            while p.draw().unwrap() != Drawn::Empty {}
        }
    }
    p.seen.report("buffer, histories");
    p.seen.at_least(
        1000,
        &[
            "accepted",
            "refusal 10",
            "refusal 12",
            "refusal 15",
            "late",
            "far",
            "repeated",
            "better",
            "no room",
            "inserted",
            "empty",
            FULL,
            OFFSET,
        ],
    );
    p.seen.at_least(1000, &DRAWN);
    p.seen.at_least(100, &[MARKED, KEPT].concat());
    p.seen.at_least(100, &["refusal  1", "refusal  2", "refusal  3", "refusal  4", "refusal  5", "refusal  6", "refusal  7", "refusal 11"]);
}

/// Buffers of all fillings, each spoiled in every way many times.
#[test]
fn spoiled_buffers() {
    let mut r = Random::new(22);
    let mut p = Pair::new(&mut r);
    for round in 0..400 {
        let s = cases::settings(&mut r);
        p.fresh(s);
        let mut stream = Stream::new(&mut r, s);
        let target = if round % 10 == 0 { SLOTS } else { r.pick(&[0, 1, 2, 3, 8, 30]) };
        for _ in 0..600 {
            if p.buffer.held() >= target {
                break;
            }
            let packet = stream.packet(&mut r, &p.buffer);
            p.offer(&packet);
        }
        if r.percent(60) {
            for _ in 0..r.below(4) {
                p.draw().unwrap();
            }
        }
        for way in 0..cases::SPOILS {
            for _ in 0..8 {
                let packet = stream.packet(&mut r, &p.buffer);
                let mut copy = p.buffer;
                cases::spoil(&mut r, &mut copy, way);
                let sound = reference::is_well_formed(&copy);
                p.seen.add(if sound { "spoiled and well-formed still" } else { "spoiled and malformed" }, 1);
                p.offer_to(copy, &packet, ROW_AREA, STORE_BYTES);
                p.draw_from(copy, STORE_BYTES, DRAW_AREA).1.ok();
            }
        }
    }
    p.seen.report("buffer, spoiled");
    p.seen.at_least(1000, &["accepted", "refusal 11", "refusal 15", "spoiled and well-formed still", "spoiled and malformed"]);
}

/// Full buffers: all slots in use, then repeats, better copies and no room; drawn to the end; filled again in the slots given back.
#[test]
fn full_buffers() {
    let mut r = Random::new(23);
    let mut p = Pair::new(&mut r);
    for _ in 0..60 {
        let s = cases::settings(&mut r);
        p.fresh(s);
        let mut stream = Stream::new(&mut r, s);
        stream.spread = 400;
        stream.shape.rows = MAX_ROWS;
        for _ in 0..3 {
            for _ in 0..60 {
                let packet = stream.packet(&mut r, &p.buffer);
                p.offer(&packet);
            }
            for _ in 0..r.within(1, SLOTS) {
                p.draw().unwrap();
            }
            stream.now = p.buffer.last_time.wrapping_add(200 * stream.step);
        }
        while p.draw().unwrap() != Drawn::Empty {}
    }
    p.seen.report("buffer, full");
    p.seen.at_least(1000, &["no room", "better", "repeated", FULL]);
}

/// Packets of more frames than there are slots: SIDs of AMR and AMR-WB, up to 339, offered to a buffer that holds some, and again.
#[test]
fn more_frames_than_slots() {
    let mut r = Random::new(31);
    let mut p = Pair::new(&mut r);
    for (format, entry) in [(4u8, 0x44u8), (5, 0x4C)] {
        let s = Settings { format, channels: 1, payload_type: 97, redundancy_type: NO_REDUNDANCY };
        for frames in [SLOTS - 1, SLOTS, SLOTS + 1, 255, 256, 257, 338, 339] {
            for held in [0u32, 1, 100] {
                p.fresh(s);
                let sids = |r: &mut Random, time: u32, frames: usize| {
                    let mut packet = vec![0x80, 97, 0, 1];
                    packet.extend(time.to_be_bytes());
                    packet.extend([0, 0, 0, 3, 0xF0]);
                    packet.extend((1..=frames).map(|i| if i < frames { F_BIT | entry } else { entry }));
                    packet.extend(r.bytes(5 * frames));
                    packet
                };
                // some in between, after and apart
                for i in 0..held {
                    let packet = sids(&mut r, step_ticks(format) * 7 * i, 1);
                    p.offer(&packet);
                }
                let times: std::collections::BTreeSet<usize> = (0..held as usize).map(|i| 7 * i).chain(0..frames).collect();
                for _ in 0..2 {
                    let packet = sids(&mut r, 0, frames);
                    p.offer(&packet);
                    assert_eq!((p.fault, p.buffer.held()), ((0, 0), times.len().min(SLOTS)));
                }
                while p.draw().unwrap() != Drawn::Empty {}
                let packet = sids(&mut r, u32::MAX - 80, frames);
                p.offer(&packet);
            }
        }
    }
    p.seen.report("buffer, more frames than slots");
    p.seen.at_least(500, &["no room", "inserted", "repeated", "better", "late"]);
}

/// One to six channels, frame-blocks of their own numbers in any order, all drawn by time and then channel; after each draw offered again,
/// with those not after it late; and channels out of range in what is held and what was drawn.
#[test]
fn channels_in_order() {
    let mut r = Random::new(32);
    let mut p = Pair::new(&mut r);
    for (format, channels) in [1u8, 2].into_iter().flat_map(|format| (1..=MAX_CHANNELS).map(move |channels| (format, channels))) {
        let s = Settings { format, channels, payload_type: 97, redundancy_type: NO_REDUNDANCY };
        for base in [0u32, u32::MAX - 2000] {
            let block = |number: u32| {
                let mut packet = vec![0x80, 97, 0, 1];
                packet.extend(base.wrapping_add(960 * number).to_be_bytes());
                packet.extend([0, 0, 0, 3, 0x20, 1]);
                packet.extend(vec![0; format as usize - 1]);
                packet.extend((0..channels as u32).flat_map(|channel| [(8 * number + channel) as u8; 80]));
                packet
            };
            p.fresh(s);
            for number in [3, 0, 4, 1, 2] {
                p.offer(&block(number));
            }
            for (number, channel) in (0..5).flat_map(|number| (0..channels as u32).map(move |channel| (number, channel))) {
                for way in [13, 14, 17] {
                    let mut spoiled = p.buffer;
                    cases::spoil(&mut r, &mut spoiled, way);
                    p.draw_from(spoiled, STORE_BYTES, DRAW_AREA).1.ok();
                }
                let time = base.wrapping_add(960 * number);
                assert_eq!(p.draw(), Ok(Drawn::Frame { time, channel, class: 1, length: 80, primary: true }));
                p.offer(&block(number));
            }
            assert_eq!(p.draw(), Ok(Drawn::Empty));
        }
    }
    p.seen.report("buffer, channels in order");
    p.seen.at_least(100, &["late", "repeated", "inserted", "refusal 15"]);
}

/// Copies of one frame of AMR and AMR-WB, of every type, good and damaged, and equal, greater and less in a byte: each offered before and
/// after each other one, then drawn.
#[test]
fn copies_of_amr() {
    let mut r = Random::new(25);
    let mut p = Pair::new(&mut r);
    for (format, types) in [(4u8, [0u8, 1, 7, 8, 15, 15]), (5, [0, 1, 8, 9, 14, 15])] {
        let s = Settings { format, channels: 1, payload_type: 97, redundancy_type: NO_REDUNDANCY };
        let lengths: &[u32] = if format == 4 { &reference::AMR_LENGTHS } else { &reference::AMR_WB_LENGTHS };
        let mut packets = Vec::new();
        for (kind, good) in types.into_iter().flat_map(|kind| [(kind, 0), (kind, 4)]) {
            let length = lengths.get(kind as usize).map_or(0, |length| *length as usize);
            for change in [None, Some((0, 2)), Some((length.saturating_sub(1), 2)), Some((length / 2, 0))] {
                let mut frame = vec![1; length];
                if let Some((place, byte)) = change.filter(|(place, _)| *place < length) {
                    frame[place] = byte;
                }
                let mut packet = vec![0x80, 97, 0, 1, 0, 0, 0, 2, 0, 0, 0, 3, r.byte(), kind << 3 | good | r.byte() & 3];
                packet.extend(frame);
                packets.push(packet);
            }
        }
        for first in &packets {
            for second in &packets {
                p.fresh(s);
                p.offer(first);
                p.offer(second);
                p.draw().unwrap();
                p.offer(second);
            }
        }
    }
    p.seen.report("buffer, copies of AMR");
    p.seen.at_least(500, &["late", "repeated", "better", "inserted", DRAWN[1]]);
}

/// The payload, first-hand or in a redundant block (of offset 0), under settings of types 97 and 98; its length is at most 255.
fn heard(first_hand: bool, time: u32, payload: &[u8]) -> Vec<u8> {
    let mut packet = vec![0x80, if first_hand { 97 } else { 98 }, 0, 1];
    packet.extend(time.to_be_bytes());
    packet.extend([0, 0, 0, 3]);
    if !first_hand {
        packet.extend([0x80 | 97, 0, 0, payload.len() as u8, 97]);
    }
    packet.extend(payload);
    packet
}

/// P6: lists of up to four copies of a frame, each first-hand or not, equal to the others, better or worse; drawn, the frame is marked if any
/// of them was first-hand. Before it and after it frames of which all copies are second-hand, which stay unmarked.
#[test]
fn marks_of_copies() {
    let mut r = Random::new(27);
    let mut p = Pair::new(&mut r);
    for format in 1..=5u8 {
        let s = Settings { format, channels: 1, payload_type: 97, redundancy_type: 98 };
        // of one frame each, worst first: shorter, damaged or SID; sound; sound of greater bytes
        let copies: [Vec<u8>; 3] = match format {
            1 => [(vec![0x20, 1], 80, 1), (vec![0x24, 1], 90, 1), (vec![0x24, 1], 90, 2)],
            2 => [(vec![0x20, 1, 0], 80, 1), (vec![0x24, 1, 0], 90, 1), (vec![0x24, 1, 0], 90, 2)],
            3 => [(vec![0x20], 14, 9), (vec![0], 14, 1), (vec![0], 14, 2)],
            4 => [(vec![0, 0], 12, 9), (vec![0, 0x04], 12, 1), (vec![0, 0x04], 12, 2)],
            _ => [(vec![0, 0x4C], 5, 9), (vec![0, 0x04], 17, 1), (vec![0, 0x04], 17, 2)],
        }
        .map(|(table, length, value)| [&table[..], &vec![value; length]].concat());
        let step = step_ticks(format);
        for count in 1..=4u32 {
            for number in 0..6u32.pow(count) {
                p.fresh(s);
                p.offer(&heard(false, 0u32.wrapping_sub(step), &copies[1]));
                p.offer(&heard(false, step, &copies[1]));
                let chosen: Vec<u32> = (0..count).map(|i| number / 6u32.pow(i) % 6).collect();
                for choice in &chosen {
                    p.offer(&heard(choice % 2 == 1, 0, &copies[*choice as usize / 2]));
                }
                let marks = [0; 3].map(|_| match p.draw() {
                    Ok(Drawn::Frame { primary, .. }) => primary,
                    other => panic!("{other:?}"),
                });
                assert_eq!(marks, [false, chosen.iter().any(|choice| choice % 2 == 1), false]);
            }
        }
    }
    p.seen.report("buffer, marks of copies");
    p.seen.at_least(1000, &["repeated", "better", "inserted", DRAWN[0], DRAWN[1]]);
    p.seen.at_least(500, &[MARKED, KEPT].concat());
}

/// P6: copies that are late, far or find no room leave all marks, and so does no data; one that is held can still be marked.
#[test]
fn copies_that_leave_the_marks() {
    let mut r = Random::new(28);
    let mut p = Pair::new(&mut r);
    let s = Settings { format: 3, channels: 1, payload_type: 97, redundancy_type: 98 };
    let sound = [0; 15];
    for base in [0u32, 5, 0u32.wrapping_sub(160 * 90), 1 << 31] {
        let at = |i: u32| base.wrapping_add(160 * i);
        for first_hand in [false, true] {
            p.fresh(s);
            for i in 0..SLOTS as u32 {
                p.offer(&heard(i % 3 == 0, at(i), &sound));
            }
            let leaves = |p: &mut Pair, name: &str, time: u32, payload: &[u8]| {
                let (before, given) = (p.seen.get(name), p.buffer);
                p.offer(&heard(first_hand, time, payload));
                assert!(p.seen.get(name) == before + (payload.len() > 1) as u64 && p.buffer == given, "{name}");
            };
            leaves(&mut p, "far", base.wrapping_add(1 << 31), &sound);
            leaves(&mut p, "no room", at(SLOTS as u32), &sound);
            leaves(&mut p, "repeated", at(7), &[0x70]);
            p.offer(&heard(first_hand, at(7), &sound));
            let expected = |i: u32| i % 3 == 0 || (i == 7 && first_hand);
            for i in 0..SLOTS as u32 {
                assert!(matches!(p.draw(), Ok(Drawn::Frame { time, primary, .. }) if time == at(i) && primary == expected(i)));
                leaves(&mut p, "late", at(i), &sound);
                leaves(&mut p, "late", at(i).wrapping_sub(160), &sound);
            }
        }
    }
    p.seen.report("buffer, copies that leave the marks");
}

/// P6: every mark of a tag: bit 16 is the mark, and is drawn as it is; each of 17 to 31 is 15, and any in an entry that is not used.
#[test]
fn marks_of_spoiled_buffers() {
    let mut r = Random::new(29);
    let mut p = Pair::new(&mut r);
    let s = Settings { format: 1, channels: 2, payload_type: 97, redundancy_type: 98 };
    let mut payload = vec![0x20, 1];
    payload.extend([3; 160]);
    for frames in [1u32, 2, 40] {
        p.fresh(s);
        for i in 0..frames {
            p.offer(&heard(i % 2 == 0, 960 * i, &payload));
        }
        let (held, given) = (p.buffer.held(), p.buffer);
        let offered = heard(true, 960 * frames, &payload);
        for place in 0..SLOTS {
            for bit in 16..32 {
                let mut spoiled = given;
                spoiled.tags[place] ^= 1 << bit;
                let fine = bit == 16 && place < held;
                let refusal = if fine { 0 } else { 15 };
                p.offer_to(spoiled, &offered, ROW_AREA, STORE_BYTES);
                assert_eq!(p.fault, (refusal, 0), "bit {bit} of tag {place}");
                let (_, drawn) = p.draw_from(spoiled, STORE_BYTES, DRAW_AREA);
                assert_eq!(drawn.err().unwrap_or(0), refusal);
                if place == 0 && fine {
                    assert!(matches!(drawn, Ok(Drawn::Frame { primary: false, .. })));
                }
            }
        }
    }
    p.seen.report("buffer, marks of spoiled buffers");
}

/// P6 and demand 3: the same packets in another order, some of them again, draw the same frames with the same marks: those that some copy
/// gives, as reading shows it. Through the friendly functions too.
#[test]
fn any_order_draws_the_same_marks() {
    let mut r = Random::new(30);
    let mut p = Pair::new(&mut r);
    let mut judged = 0;
    for _ in 0..1500 {
        let s = loop {
            let s = cases::settings(&mut r);
            if s.redundancy_type != NO_REDUNDANCY {
                break s;
            }
        };
        let base = if r.percent(50) { 0u32.wrapping_sub(960 * 20) } else { r.word() };
        let reach = r.pick(&[3, 10, 40]);
        let mut packets: Vec<Vec<u8>> = Vec::new();
        for _ in 0..r.within(1, 16) {
            let time = base.wrapping_add(960 * r.below(reach) as u32);
            let rows = r.pick(&[1, 4]);
            packets.push(cases::packet_at(&mut r, s, Shape { bytes: 900, rows, alike: true }, time));
        }
        // pairs with a copy that is first-hand, and all pairs
        let (mut all, mut first_hand) = (std::collections::HashSet::new(), std::collections::HashSet::new());
        let mut area = vec![0; ROW_AREA];
        for packet in &packets {
            let rows = reference::read(s, packet, &mut area).map_or(0, |reading| reading.rows);
            for row in heolstorpit::Row::list(&area, rows).filter(|row| row.class != Class::NoData) {
                all.insert((row.time, row.channel as u32));
                if row.primary {
                    first_hand.insert((row.time, row.channel as u32));
                }
            }
        }
        if all.len() > SLOTS {
            continue;
        }
        judged += 1;
        let mut lists: Vec<Vec<_>> = Vec::new();
        for _ in 0..3 {
            let mut order: Vec<usize> = (0..packets.len()).collect();
            for i in (1..order.len()).rev() {
                order.swap(i, r.below(i + 1));
            }
            for _ in 0..r.below(5) {
                order.insert(r.below(order.len() + 1), r.below(packets.len()));
            }
            p.fresh(s);
            let mut friendly = Buffer::new(settings(s).into()).unwrap();
            let (mut rows, mut store, mut area) = (vec![0; ROW_AREA], vec![0; STORE_BYTES], vec![0; DRAW_AREA]);
            for i in order {
                p.offer(&packets[i]);
                friendly.offer(&packets[i], &mut rows, &mut store).ok();
            }
            let mut list = Vec::new();
            while let Ok(Drawn::Frame { time, channel, class, length, primary }) = p.draw() {
                assert_eq!(primary, first_hand.contains(&(time, channel)));
                let frame = friendly.draw(&store, &mut area).unwrap().unwrap();
                assert_eq!((frame.time, frame.channel as u32, frame.class.number()), (time, channel, class));
                assert_eq!((frame.length, frame.primary), (length as usize, primary));
                list.push((time, channel, class, area[..length as usize].to_vec(), primary));
            }
            assert_eq!(friendly.draw(&store, &mut area), Ok(None));
            assert_eq!(list.len(), all.len());
            lists.push(list);
        }
        assert!(lists.windows(2).all(|two| two[0] == two[1]));
    }
    assert!(judged > 1000, "{judged}");
    p.seen.report("buffer, any order");
    p.seen.at_least(10_000, &DRAWN);
}

/// P2: an offer says where, as worked out by hand, to a buffer fresh or filled, through the friendly function too; 1 to 5, 11, 12 and 15
/// have no offset, whatever the packet.
#[test]
fn faults() {
    let mut r = Random::new(26);
    let mut p = Pair::new(&mut r);
    let (mut rows, mut store) = (vec![0; ROW_AREA], vec![0; STORE_BYTES]);
    for judged in cases::faults() {
        let Judged { settings: s, packet, refusal, offset } = &judged;
        p.fresh(*s);
        if r.percent(50) {
            let shape = Shape { bytes: 400, rows: 8, alike: true };
            p.offer(&cases::packet_at(&mut r, *s, shape, 960));
            p.draw().unwrap();
        }
        let given = p.buffer;
        let mut friendly = Buffer::from_raw(to_raw(&given));
        let answer = friendly.offer(packet, &mut rows, &mut store).err();
        let fault = Refusal::from_number(*refusal).map(|refusal| heolstorpit::Fault { refusal, offset: Some(*offset as usize) });
        assert_eq!(answer, fault, "{judged:02x?}");
        assert!(*refusal == 0 || *friendly.as_raw() == to_raw(&given));
        let mut fault = |buffer, packet: &[u8], rows, store| {
            p.offer_to(buffer, packet, rows, store);
            p.fault
        };
        for spoiled in cases::header_faults(&judged) {
            assert_eq!(fault(given, &spoiled.packet, ROW_AREA, STORE_BYTES), (spoiled.refusal, 0), "{spoiled:02x?}");
        }
        assert_eq!(fault(reference::Buffer::zero(), packet, ROW_AREA, STORE_BYTES), (11, 0));
        assert_eq!(fault(reference::Buffer { drawn: 2, ..given }, packet, ROW_AREA, STORE_BYTES), (15, 0));
        assert_eq!(fault(given, packet, ROW_AREA - 1, STORE_BYTES), (12, 0));
        assert_eq!(fault(given, packet, ROW_AREA, STORE_BYTES - 1), (12, 0));
        assert_eq!(fault(given, packet, ROW_AREA, STORE_BYTES), (*refusal, *offset), "{judged:02x?}");
    }
    p.seen.report("buffer, faults");
    p.seen.at_least(100, &["accepted", "refusal  6", "refusal  7", "refusal  8", "refusal  9", "refusal 10", OFFSET]);
}

/// `new` for all settings with fields around their limits.
#[test]
fn fresh_buffers() {
    let mut r = Random::new(24);
    let mut p = Pair::new(&mut r);
    for format in 0..=255 {
        for channels in (0..=MAX_CHANNELS + 2).chain([255]) {
            for payload_type in [0, 1, 127, 128, 129, 255] {
                for redundancy_type in [0, 1, 127, 128, 129, 255] {
                    p.fresh(Settings { format, channels, payload_type, redundancy_type });
                }
            }
        }
    }
    p.seen.report("buffer, new");
}

/// Document 001's six interleaved packets in every order draw document 01's list; through the friendly functions.
#[test]
fn six_interleaved_packets() {
    let expected = [1, 5, 6, 9, 10, 11, 13, 14, 15, 16, 17, 18, 19, 20, 21, 22, 23, 24, 26, 27, 28, 31, 32, 36];
    let mut orders: Vec<Vec<u32>> = vec![vec![]];
    for _ in 0..6 {
        let next = |order: &Vec<u32>| {
            let rest = [1, 5, 9, 13, 17, 21].into_iter().filter(|first| !order.contains(first));
            rest.map(|first| [&order[..], &[first]].concat()).collect::<Vec<_>>()
        };
        orders = orders.iter().flat_map(next).collect();
    }
    let s = heolstorpit::Settings { format: Format::G719Interleaved, channels: 1, payload_type: 97, redundancy_type: NO_REDUNDANCY };
    let base = 0u32.wrapping_sub(18 * 960);
    let (mut rows, mut store, mut area) = (vec![0; ROW_AREA], vec![0; STORE_BYTES], vec![0; DRAW_AREA]);
    for order in orders {
        let mut buffer = Buffer::new(s).unwrap();
        for first in order {
            let mut packet = vec![0x80, 97, 0, first as u8];
            packet.extend(base.wrapping_add(960 * first).to_be_bytes());
            packet.extend([0, 0, 0, 7, 0x20, 4, 0x04, 0x44]);
            packet.extend((0..4 * 80).map(|i| (first + i / 80 * 5) as u8));
            assert_eq!(buffer.offer(&packet, &mut rows, &mut store).unwrap().inserted, 4);
        }
        assert_eq!(buffer.held(), 24);
        for number in expected {
            let frame = buffer.draw(&store, &mut area).unwrap().unwrap();
            assert_eq!((frame.time, frame.channel, frame.class, frame.length), (base.wrapping_add(960 * number), 0, Class::Sound, 80));
            assert!(frame.primary);
            assert!(area[..80].iter().all(|byte| *byte as u32 == number));
        }
        assert_eq!(buffer.draw(&store, &mut area), Ok(None));
    }
}
