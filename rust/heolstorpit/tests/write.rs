//! `write_payload` and `write_packet` against the reference: answers and whole areas, over lists that can be written and lists
//! that cannot, areas short and long.

mod common;

use cases::{List, Random, Shape};
use common::{settings, Seen, Twice};
use heolstorpit::{raw, Header};
use reference::{
    Settings, AMR_LENGTHS, AMR_WB_LENGTHS, HEADER_BYTES, MAX_BLOCK, MAX_CHANNELS, MAX_MODE_REQUEST, MAX_OFFSET, MAX_PACKET, MAX_PAYLOAD,
    MAX_ROWS, PRIMARY, ROW_WORDS,
};

/// Bytes lent to be written to, at most: some more than any packet.
const MOST: usize = MAX_PACKET + 252;

/// Counted: payloads of as many bytes as there may be.
const FULL: &str = "payloads of the most bytes";

/// Counted: groups of another length than the one before and apart from it, in lists that are written.
const APART: &str = "groups apart";

/// Counted: lists that are written with a run of over 255 frame-blocks.
const LONG: &str = "lists written with a run over 255";

/// Counted: rows of lists that are written, by the mark given; and calls with a bit above the mark, with nothing else that is refused.
const MARKS: [&str; 2] = ["rows given unmarked", "rows given as primary"];
const ABOVE: &str = "bits above the mark";

/// Counted: calls with a mode request that there is not, their settings in range.
const OVER: &str = "mode requests over the greatest";

/// What is written beside the rows of a packet.
#[derive(Clone, Copy, Debug)]
struct Head {
    mode_request: u8,
    marker: u8,
    sequence: u16,
    source: u32,
}

struct Comparer {
    out: Twice<u8>,
    seen: Seen,
}

impl Comparer {
    fn new(r: &mut Random) -> Comparer {
        Comparer { out: Twice::new(MOST, |bytes| r.fill(bytes)), seen: Seen::default() }
    }

    fn judge(&mut self, answer: raw::Written, expected: Result<u32, u32>, case: impl Fn() -> String) {
        let numbers = match expected {
            Ok(length) => raw::Written { refusal: 0, length },
            Err(refusal) => raw::Written { refusal, length: 0 },
        };
        assert!(
            answer == numbers && self.out.same() && (answer.refusal == 0 || self.out.unchanged()),
            "library {answer:?}, reference {expected:?}, areas equal: {}\n{}",
            self.out.same(),
            case()
        );
        self.seen.refusal(answer.refusal);
        self.seen.add("bytes written", answer.length as u64);
    }

    /// Counts the marks of rows that were written.
    fn marks(&mut self, written: Result<u32, u32>, list: &List) {
        for row in list.words.chunks_exact(ROW_WORDS).filter(|_| written.is_ok()) {
            self.seen.add(MARKS[(row[1] & PRIMARY != 0) as usize], 1);
        }
    }

    /// Writes one payload with both; answers what the reference does.
    fn payload(&mut self, s: Settings, mode_request: u8, list: &List, out: usize) -> Result<u32, u32> {
        let (mine, theirs) = self.out.lend(out);
        let answer = raw::write_payload(settings(s), mode_request, &list.words, &list.bytes, mine);
        let expected = reference::write_payload(s, mode_request, &list.words, &list.bytes, theirs);
        if mode_request > MAX_MODE_REQUEST && s.in_range() {
            self.seen.add(OVER, 1);
        }
        self.judge(answer, expected, || {
            format!(
                "write_payload, settings {s:?}, mode request {mode_request}, out {out}\nrows {:?}\nbytes {:02x?}",
                list.words, list.bytes
            )
        });
        expected
    }

    fn packet(&mut self, s: Settings, head: Head, counts: &[u32], list: &List, out: usize) -> Result<u32, u32> {
        let Head { mode_request, marker, sequence, source } = head;
        let (mine, theirs) = self.out.lend(out);
        let answer = raw::write_packet(settings(s), mode_request, marker, sequence, source, counts, &list.words, &list.bytes, mine);
        if mode_request > MAX_MODE_REQUEST && s.in_range() {
            self.seen.add(OVER, 1);
        }
        let expected = reference::write_packet(s, mode_request, marker != 0, sequence, source, counts, &list.words, &list.bytes, theirs);
        self.judge(answer, expected, || {
            format!(
                "write_packet, settings {s:?}, {head:?}, counts {counts:?}, out {out}\nrows {:?}\nbytes {:02x?}",
                list.words, list.bytes
            )
        });
        expected
    }

    /// The same call with areas around the length that it writes.
    fn out_lengths(&mut self, r: &mut Random, written: Result<u32, u32>, mut call: impl FnMut(&mut Comparer, usize)) {
        match written {
            Ok(length) if r.percent(30) => {
                for out in [length as usize, length as usize - 1, r.below(length as usize), 0] {
                    call(self, out);
                }
            }
            Err(_) if r.percent(10) => call(self, r.below(MOST)),
            _ => {}
        }
    }
}

fn head(r: &mut Random) -> Head {
    let marker = if r.percent(50) { r.pick(&[0, 1]) } else { r.byte() };
    Head { mode_request: cases::mode_request(r), marker, sequence: r.word() as u16, source: r.word() }
}

fn time(r: &mut Random) -> u32 {
    if r.percent(50) {
        r.word()
    } else {
        (r.below(40_000) as u32).wrapping_sub(20_000)
    }
}

fn list(r: &mut Random, s: Settings) -> List {
    let time = time(r);
    match r.below(10) {
        0..=3 => {
            let bytes = r.pick(&[100, 400, MAX_PAYLOAD]);
            let rows = r.pick(&[4, 40, MAX_ROWS]);
            cases::list_from_packet(r, s, Shape { bytes, rows, alike: false }, time)
        }
        4 => {
            let aim = MAX_PAYLOAD - 8 + r.below(12);
            cases::made_list(r, s, time, MAX_ROWS, Some(aim))
        }
        5 => cases::made_list(r, s, time, MAX_ROWS + 12, None),
        _ => cases::made_list(r, s, time, 12 + 4 * s.channels as usize, None),
    }
}

#[test]
fn payloads() {
    let mut r = Random::new(11);
    let mut c = Comparer::new(&mut r);
    for _ in 0..400_000 {
        let s = if r.percent(2) { cases::bad_settings(&mut r) } else { cases::settings(&mut r) };
        let good = if s.in_range() { s } else { cases::settings(&mut r) };
        let mut list = list(&mut r, good);
        if r.percent(50) {
            cases::remark(&mut r, &mut list);
        }
        let damaged = r.percent(50);
        if damaged {
            for _ in 0..r.within(1, 2) {
                cases::damage_list(&mut r, good, &mut list);
            }
        }
        let mode_request = cases::mode_request(&mut r);
        let written = c.payload(s, mode_request, &list, MOST);
        if written.is_ok_and(|length| length as usize == MAX_PAYLOAD) {
            c.seen.add(FULL, 1);
        }
        if written.is_ok() {
            c.seen.add(APART, cases::groups_apart(s, &list.words));
            c.seen.add(LONG, cases::long_runs(s, &list.words));
            c.seen.add(format!("payloads of {} channels", s.channels), 1);
        }
        c.marks(written, &list);
        c.out_lengths(&mut r, written, |c, out| {
            c.payload(s, mode_request, &list, out).ok();
        });
    }
    c.seen.report("write_payload");
    c.seen.at_least(1000, &["accepted", "refusal 11", "refusal 12", "refusal 13", "refusal 14"]);
    c.seen.at_least(20, &[FULL]);
    c.seen.at_least(500, &[LONG]);
    for channels in 1..=MAX_CHANNELS {
        c.seen.at_least(3000, &[&format!("payloads of {channels} channels")]);
    }
    c.seen.at_least(1000, &[OVER]);
    // more channels, fewer entries
    c.seen.at_least(5000, &[APART]);
    c.seen.at_least(10_000, &MARKS);
}

/// A list that some plain payload reads to is never refused with 13: whatever payload it came from.
#[test]
fn what_was_read_can_be_written() {
    let mut r = Random::new(12);
    let mut c = Comparer::new(&mut r);
    for _ in 0..60_000 {
        let s = cases::settings(&mut r);
        let bytes = r.pick(&[100, 400, MAX_PAYLOAD]);
        let time = time(&mut r);
        let list = cases::list_from_packet(&mut r, s, Shape { bytes, rows: MAX_ROWS, alike: false }, time);
        if list.words.is_empty() {
            continue;
        }
        let mut out = vec![0; MOST];
        let length =
            heolstorpit::write_payload(settings(s).into(), 0, &list.words, &list.bytes, &mut out).expect("a payload reads to this list");
        assert!(length <= list.bytes.len() - HEADER_BYTES, "the payload written is no longer than the one read");
        let head = Head { mode_request: r.below(16) as u8, ..head(&mut r) };
        c.packet(s, head, &[list.rows() as u32], &list, MOST).expect("a packet reads to this list");
    }
    c.seen.report("write, what was read");
}

#[test]
fn packets() {
    let mut r = Random::new(13);
    let mut c = Comparer::new(&mut r);
    for _ in 0..250_000 {
        let s = if r.percent(2) { cases::bad_settings(&mut r) } else { cases::settings(&mut r) };
        let good = if s.in_range() { s } else { cases::settings(&mut r) };
        let (mut list, mut counts) = cases::lists_for_packet(&mut r, good);
        match r.below(10) {
            0..=1 => cases::damage_list(&mut r, good, &mut list),
            2 => cases::counts_of(&mut r, &mut counts),
            _ => {}
        }
        let head = head(&mut r);
        let written = c.packet(s, head, &counts, &list, MOST);
        if let Ok(length) = written {
            c.seen.add(format!("packets of {} lists", counts.len()), 1);
            c.seen.add(LONG, (cases::long_runs(s, &list.words) > 0) as u64);
            if length as usize >= MAX_PACKET - 3 {
                c.seen.add("packets of the most bytes, or up to three fewer", 1);
            }
        }
        c.marks(written, &list);
        c.out_lengths(&mut r, written, |c, out| {
            c.packet(s, head, &counts, &list, out).ok();
        });
    }
    c.seen.report("write_packet");
    c.seen.at_least(
        1000,
        &[
            "accepted",
            "refusal 11",
            "refusal 12",
            "refusal 13",
            "refusal 14",
            "packets of 1 lists",
            "packets of 2 lists",
            "packets of 3 lists",
            "packets of 4 lists",
            "packets of 5 lists",
            OVER,
            MARKS[0],
            MARKS[1],
        ],
    );
    c.seen.at_least(100, &[LONG]);
}

/// P6: lists that can be written, with other marks: the same bytes, which read back with the marks of their lists. A bit above the mark, in
/// any row, is 13.
#[test]
fn marks() {
    let mut r = Random::new(17);
    let mut c = Comparer::new(&mut r);
    let mut area = vec![0; reference::ROW_AREA];
    for _ in 0..6000 {
        let s = cases::settings(&mut r);
        let (mut list, counts) = cases::lists_for_packet(&mut r, s);
        let head = Head { mode_request: r.below(16) as u8, ..head(&mut r) };
        let Ok(length) = c.packet(s, head, &counts, &list, MOST) else {
            continue;
        };
        let alone = ROW_WORDS * counts[0] as usize;
        let first = |list: &List| List { words: list.words[..alone].to_vec(), bytes: list.bytes.clone() };
        let payload = c.payload(s, head.mode_request, &first(&list), MOST).expect("a list of a packet can be written alone");
        let Head { mode_request, marker, sequence, source } = head;
        let mut written = vec![vec![0; length as usize]; 3];
        for out in &mut written {
            cases::remark(&mut r, &mut list);
            assert_eq!(c.packet(s, head, &counts, &list, MOST), Ok(length));
            assert_eq!(c.payload(s, mode_request, &first(&list), MOST), Ok(payload));
            let answer = raw::write_packet(settings(s), mode_request, marker, sequence, source, &counts, &list.words, &list.bytes, out);
            assert_eq!((answer.refusal, answer.length), (0, length));
        }
        assert!(written[0] == written[1] && written[0] == written[2]);
        c.marks(Ok(length), &list);
        let reading = reference::read(s, &written[0], &mut area).expect("what is written reads");
        let second_hand = reading.rows - counts[counts.len() - 1];
        for (i, row) in area.chunks_exact(ROW_WORDS).take(reading.rows as usize).enumerate() {
            assert_eq!(row[1] & PRIMARY == 0, i < second_hand as usize);
        }
        for bit in 17..32 {
            let mut spoiled = list.clone();
            let row = ROW_WORDS * r.below(list.rows());
            spoiled.words[row + 1] |= 1 << bit;
            assert_eq!(c.packet(s, head, &counts, &spoiled, MOST), Err(13));
            let expected = if row < alone { Err(13) } else { Ok(payload) };
            assert_eq!(c.payload(s, mode_request, &first(&spoiled), MOST), expected);
            c.seen.add(ABOVE, 1);
            // 14 comes before it, and so does 11; 12 after it
            assert_eq!(c.packet(s, head, &counts, &spoiled, 0), Err(13));
            assert_eq!(c.packet(s, Head { mode_request: 16, ..head }, &counts, &spoiled, MOST), Err(11));
            let other = ROW_WORDS * r.below(list.rows());
            spoiled.words[other + 2] = spoiled.bytes.len() as u32 + 1;
            assert_eq!(c.packet(s, head, &counts, &spoiled, MOST), Err(14));
        }
    }
    c.seen.report("write, marks");
    c.seen.at_least(10_000, &[MARKS[0], MARKS[1], ABOVE]);
}

/// Sizes one by one: blocks, payloads, packets, rows and offsets around their limits.
#[test]
fn limits() {
    let mut r = Random::new(14);
    let mut c = Comparer::new(&mut r);
    let bytes = r.bytes(400);
    let head = Head { mode_request: 4, marker: 1, sequence: 2, source: 3 };
    // Lists of `sound` frames and then `none` rows of no data: kind 3 takes 15 bytes for the first and 1 for the second.
    let made = |step: u32, length: u32, time: u32, sound: usize, none: usize| -> Vec<u32> {
        (0..sound + none)
            .flat_map(|i| {
                let time = time.wrapping_add(step * i as u32);
                if i < sound {
                    [time, 256, 7, length]
                } else {
                    [time, 0, 400, 0]
                }
            })
            .collect()
    };
    let gsm = Settings { format: 3, channels: 1, payload_type: 3, redundancy_type: 4 };
    for none in 0..=MAX_ROWS + 12 {
        for sound in [0, 1, 66, 67, 68, 69] {
            let list = List { words: made(160, 14, 0, sound, none), bytes: bytes.clone() };
            c.payload(gsm, 5, &list, MOST).ok();
            // as a redundant block before one frame, and as the primary after it
            for (counts, before) in [([(sound + none) as u32, 1], true), ([1, (sound + none) as u32], false)] {
                let one = made(160, 14, 3200, 1, 0);
                let words =
                    if before { [&list.words[..], &one[..]].concat() } else { [&one[..], &made(160, 14, 3200, sound, none)[..]].concat() };
                c.packet(gsm, head, &counts, &List { words, bytes: bytes.clone() }, MOST).ok();
            }
        }
    }
    for format in [1u8, 2] {
        let s = Settings { format, channels: 1, payload_type: 3, redundancy_type: 4 };
        for none in 0..=MAX_ROWS + 2 {
            for (length, sound) in
                [(80, 0), (170, 5), (170, 11), (320, 6), (80, 24), (80, 25), (220, 9), (240, 8), (100, 20), (170, 6), (80, 12), (90, 11)]
            {
                let list = List { words: made(960, length, 0, sound, none), bytes: bytes.clone() };
                c.payload(s, 5, &list, MOST).ok();
                let one = made(960, 80, 9600, 1, 0);
                let words = [&list.words[..], &one[..]].concat();
                c.packet(s, head, &[(sound + none) as u32, 1], &List { words, bytes: bytes.clone() }, MOST).ok();
            }
        }
        // two, three, four and five lists whose packet comes to the most bytes and more
        for lists in 2..=5usize {
            for (length, each) in [(80, 5), (80, 6), (90, 5), (100, 5), (110, 4), (320, 1), (320, 2), (80, 12)] {
                for none in 0..24 {
                    let mut words = Vec::new();
                    let mut counts = Vec::new();
                    for i in 0..lists {
                        let none = if i == 0 { none } else { 0 };
                        words.extend(made(960, length, 960 * i as u32, each, none));
                        counts.push((each + none) as u32);
                    }
                    c.packet(s, head, &counts, &List { words, bytes: bytes.clone() }, MOST).ok();
                }
            }
        }
    }
    // offsets, at a time where the difference wraps too
    for time in [0u32, 20_000, 100_000] {
        let around = [MAX_OFFSET - 1, MAX_OFFSET, MAX_OFFSET + 1, MAX_OFFSET + 2];
        for offset in [0, 1, 960, 32767, 32768, 65536, 1 << 24, 1 << 31, u32::MAX, u32::MAX - MAX_OFFSET].into_iter().chain(around) {
            let words = [made(160, 14, time.wrapping_sub(offset), 1, 0), made(160, 14, time, 1, 0)].concat();
            c.packet(gsm, head, &[1, 1], &List { words, bytes: bytes.clone() }, MOST).ok();
        }
    }
    // every value of the marker byte
    for marker in 0..=255 {
        let list = List { words: made(160, 14, 5, 1, 0), bytes: bytes.clone() };
        c.packet(gsm, Head { marker, ..head }, &[1], &list, MOST).unwrap();
    }
    // AMR and AMR-WB: sound of every length, then no data, in payloads, redundant blocks and packets of about the most bytes
    for (format, step, lengths) in [(4, 160, &AMR_LENGTHS[..]), (5, 320, &AMR_WB_LENGTHS[..])] {
        let s = Settings { format, channels: 1, payload_type: 3, redundancy_type: 4 };
        for length in lengths.iter().filter(|length| **length > 5) {
            for most in [MAX_BLOCK, MAX_PAYLOAD] {
                // as many frames as fit behind the mode byte, each with its entry
                let sound = ((most - 1) / (*length as usize + 1)).min(MAX_ROWS);
                for none in 0..=70 {
                    let list = List { words: made(step, *length, 0, sound, none), bytes: bytes.clone() };
                    c.payload(s, none as u8 % 16, &list, MOST).ok();
                    let one = made(step, *length, 3200, 1, 0);
                    let words = [&list.words[..], &one[..]].concat();
                    c.packet(s, head, &[(sound + none) as u32, 1], &List { words, bytes: bytes.clone() }, MOST).ok();
                }
            }
        }
    }
    // rows around the most, of no data, in one to six channels; each with a channel too many, one too few, and two in another order
    for (format, channels) in [1u8, 2].into_iter().flat_map(|format| (1..=MAX_CHANNELS).map(move |channels| (format, channels))) {
        let s = Settings { format, channels, payload_type: 3, redundancy_type: 4 };
        let each = channels as usize;
        for rows in (MAX_ROWS - 2 * each..=MAX_ROWS + 2 * each).chain(1..=13) {
            let words: Vec<u32> = (0..rows).flat_map(|i| [960 * (i / each) as u32, (i % each) as u32, 7, 0]).collect();
            let written = c.payload(s, 5, &List { words: words.clone(), bytes: bytes.clone() }, MOST);
            assert_eq!(written.is_ok(), rows <= MAX_ROWS && rows % each == 0);
            for place in 0..each.min(rows - 1) {
                let mut other = words.clone();
                other.swap(ROW_WORDS * place + 1, ROW_WORDS * place + 5);
                assert_eq!(c.payload(s, 5, &List { words: other, bytes: bytes.clone() }, MOST).is_ok(), each == 1 && written.is_ok());
            }
        }
    }
    // every displacement, and steps that have none
    let s = Settings { format: 2, channels: 1, payload_type: 3, redundancy_type: 4 };
    for steps in 0..=40u32 {
        for extra in [0, 1, 959] {
            let second = 960 * steps + extra;
            let words = vec![0, 256, 0, 80, second, 256, 0, 80, second + 960, 256, 0, 80];
            c.payload(s, 5, &List { words, bytes: bytes.clone() }, MOST).ok();
        }
    }
    // the same between groups of two lengths, at times around the wrap too, and as a block
    for time in [0u32, 5, u32::MAX - 959, u32::MAX - 4000, u32::MAX - 20_000] {
        for (steps, extra) in (0..=40u32).flat_map(|steps| [0, 1, 959].map(|extra| (steps, extra))) {
            for (a, b) in [(80, 90), (320, 0), (0, 80)] {
                let class = |length| if length == 0 { 0 } else { 256 };
                let second = time.wrapping_add(960 * (steps + 1) + extra);
                let words: Vec<u32> = [(time, a), (time.wrapping_add(960), a), (second, b), (second.wrapping_add(960 * steps), a)]
                    .into_iter()
                    .flat_map(|(time, length)| [time, class(length), 0, length])
                    .collect();
                let list = List { words, bytes: bytes.clone() };
                let payload = c.payload(s, 5, &list, MOST);
                assert_eq!(payload.is_ok(), (1..=16).contains(&steps) && extra == 0);
                let both = List { words: [&list.words[..], &list.words[..]].concat(), bytes: bytes.clone() };
                assert_eq!(c.packet(s, head, &[4, 4], &both, MOST).is_ok(), payload.is_ok());
            }
        }
    }
    c.seen.report("write, limits");
}

/// Every class and length of one frame in every format, and after another frame; with mode requests 0 to 20, and every one for some.
#[test]
fn classes_lengths_and_mode_requests() {
    let mut r = Random::new(16);
    let mut c = Comparer::new(&mut r);
    let bytes = r.bytes(400);
    for format in 1..=5u8 {
        let s = Settings { format, channels: 1, payload_type: 3, redundancy_type: 4 };
        let step = reference::step_ticks(format);
        for class in 0..=8u32 {
            for length in 0..=330u32 {
                for (mode_request, time) in [(r.below(21) as u8, step), (r.below(16) as u8, step), (15, step - 1), (0, 2 * step)] {
                    let one = vec![0, 256 * class, r.below(60) as u32, length];
                    let list = List { words: one.clone(), bytes: bytes.clone() };
                    c.payload(s, mode_request, &list, MOST).ok();
                    // after a frame that the format has
                    let first = [0, 256, 0, [80, 80, 14, 31, 60][format as usize - 1]];
                    let words = [&first[..], &[time], &one[1..]].concat();
                    let list = List { words, bytes: bytes.clone() };
                    c.payload(s, mode_request, &list, MOST).ok();
                    c.packet(s, Head { mode_request, ..head(&mut r) }, &[1, 1], &list, MOST).ok();
                }
            }
        }
        for mode_request in 0..=255 {
            let list = List { words: vec![7, 256, 0, [80, 80, 14, 31, 60][format as usize - 1]], bytes: bytes.clone() };
            let fits = mode_request <= MAX_MODE_REQUEST;
            assert_eq!(c.payload(s, mode_request, &list, MOST).is_ok(), fits);
            assert_eq!(c.packet(s, Head { mode_request, ..head(&mut r) }, &[1], &list, MOST).is_ok(), fits);
            // a row outside and rows that cannot be written: 11 is asked first
            for words in [vec![7, 256, 400, 1], vec![7, 256, 0, 81], vec![]] {
                c.payload(s, mode_request, &List { words, bytes: bytes.clone() }, MOST).ok();
            }
        }
    }
    c.seen.report("write, classes, lengths and mode requests");
    c.seen.at_least(500, &["accepted"]);
    c.seen.at_least(1000, &["refusal 11", "refusal 13", OVER]);
}

/// The friendly answers say the same as the raw ones.
#[test]
fn friendly_answers() {
    let mut r = Random::new(15);
    for _ in 0..10_000 {
        let s = cases::settings(&mut r);
        let (mut list, counts) = cases::lists_for_packet(&mut r, s);
        if r.percent(30) {
            cases::damage_list(&mut r, s, &mut list);
        }
        let mode_request = cases::mode_request(&mut r);
        let header = Header { mode_request, marker: r.percent(50), sequence: r.word() as u16, source: r.word() };
        let (mut one, mut two) = (vec![0; MOST], vec![0; MOST]);
        let friendly = heolstorpit::write_packet(settings(s).into(), header, &counts, &list.words, &list.bytes, &mut one);
        let answer = raw::write_packet(
            settings(s),
            header.mode_request,
            header.marker as u8,
            header.sequence,
            header.source,
            &counts,
            &list.words,
            &list.bytes,
            &mut two,
        );
        assert_eq!(
            (friendly.map_err(|refusal| refusal.number()), one),
            (if answer.refusal == 0 { Ok(answer.length as usize) } else { Err(answer.refusal) }, two)
        );
        let (mut one, mut two) = (vec![0; MOST], vec![0; MOST]);
        let friendly = heolstorpit::write_payload(settings(s).into(), mode_request, &list.words, &list.bytes, &mut one);
        let answer = raw::write_payload(settings(s), mode_request, &list.words, &list.bytes, &mut two);
        assert_eq!(
            (friendly.map_err(|refusal| refusal.number()), one),
            (if answer.refusal == 0 { Ok(answer.length as usize) } else { Err(answer.refusal) }, two)
        );
    }
}
