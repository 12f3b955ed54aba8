//! `log_open`, `log_step` and `log_write` against the reference: answers, cursors and whole areas, over logs whole, spoiled, cut and
//! damaged, cursors with any numbers, and lists that can be written and lists that cannot. Each walk by steps is held to the reference's
//! reader of whole logs too.

mod common;

use cases::{List, LogField, Random, SpoiledLog, LOG_LIST_SPOILS, LOG_SPOILS};
use common::{raw_cursor, raw_log_written, raw_opened, raw_stepped, settings, Seen, Twice};
use heolstorpit::{raw, write_log, Class, LogFrame, LogReader, Refusal, Row};
use reference::{
    LogCursor, LogStep, Settings, WholeLog, AREA_TOO_SHORT, LOG_FIRST, LOG_FRAME, LOG_LAST, MAX_CHANNELS, MAX_PACKET, PRIMARY, ROW_WORDS,
    SLOT_BYTES,
};

/// Rows of a list, at most, and the bytes of its log.
const MOST_ROWS: usize = 12;
const MOST: usize = LOG_FIRST + MOST_ROWS * (LOG_FRAME + SLOT_BYTES) + LOG_LAST;

/// The settings of every format and number of channels.
fn every_settings(r: &mut Random) -> Vec<Settings> {
    let most = |format| if format <= 2 { MAX_CHANNELS } else { 1 };
    let every = (1..=5).flat_map(|format| (1..=most(format)).map(move |channels| (format, channels)));
    every.map(|(format, channels)| Settings { format, channels, ..cases::settings(r) }).collect()
}

struct Comparer {
    out: Twice<u8>,
    seen: Seen,
}

impl Comparer {
    fn new(r: &mut Random) -> Comparer {
        Comparer::with_area(r, MOST)
    }

    fn with_area(r: &mut Random, most: usize) -> Comparer {
        Comparer { out: Twice::new(most, |bytes| r.fill(bytes)), seen: Seen::default() }
    }

    fn open(&mut self, log: &[u8]) -> (LogCursor, Result<(), u32>) {
        let (cursor, expected) = reference::log_open(log);
        let answer = raw::log_open(log);
        assert_eq!(answer, raw_opened(&cursor, expected), "library, reference; opening {log:02x?}");
        self.seen.refusal(answer.refusal);
        (cursor, expected)
    }

    fn step(&mut self, cursor: LogCursor, log: &[u8]) -> (LogCursor, Result<LogStep, u32>) {
        let (after, expected) = reference::log_step(&cursor, log);
        let answer = raw::log_step(raw_cursor(&cursor), log);
        assert_eq!(answer, raw_stepped(&after, expected), "library, reference; from {cursor:?} in {log:02x?}");
        self.seen.refusal(answer.refusal);
        match expected {
            Ok(LogStep::Frame(_)) => self.seen.add("frames", 1),
            Ok(LogStep::End) => self.seen.add("ends", 1),
            Err(_) => {}
        }
        (after, expected)
    }

    /// Opens the log and steps to its end or to the refusal: what the library answers, held to the reference's reader of whole logs; and
    /// the same by the iterator. Answers the whole log.
    fn walk(&mut self, log: &[u8]) -> WholeLog {
        let (mut cursor, opened) = self.open(log);
        let mut found = WholeLog { settings: opened.ok().map(|()| cursor.settings), ..WholeLog::default() };
        found.refusal = match opened {
            Err(refusal) => {
                let (after, answer) = self.step(cursor, log);
                assert_eq!((after, answer), (LogCursor::default(), Err(11)));
                refusal
            }
            Ok(()) => loop {
                let (after, answer) = self.step(cursor, log);
                match answer {
                    Ok(LogStep::Frame(frame)) => found.frames.push(frame),
                    Ok(LogStep::End) => break 0,
                    Err(refusal) => break refusal,
                }
                cursor = after;
            },
        };
        let whole = reference::read_log(log);
        assert_eq!(found, whole, "steps, whole log; {log:02x?}");
        assert_eq!(by_iterator(log), of_whole(log, &whole));
        whole
    }

    /// Writes a log with both; answers what the reference does.
    fn write(&mut self, s: Settings, list: &List, out: usize) -> Result<u64, u32> {
        let (mine, theirs) = self.out.lend(out);
        let answer = raw::log_write(settings(s), &list.words, &list.bytes, mine);
        let expected = reference::log_write(s, &list.words, &list.bytes, theirs);
        assert!(
            answer == raw_log_written(expected) && self.out.same() && (answer.refusal == 0 || self.out.unchanged()),
            "library {answer:?}, reference {expected:?}, areas equal: {}\nsettings {s:?}, out {out}\nrows {:?}\nbytes {:02x?}",
            self.out.same(),
            list.words,
            list.bytes
        );
        self.seen.refusal(answer.refusal);
        self.seen.add("bytes written", answer.length);
        expected
    }
}

/// What the wrapper's iterator gives: the settings, the frames, and the refusal.
type Given<'a> = (Option<raw::Settings>, Vec<LogFrame<'a>>, u32);

fn by_iterator(log: &[u8]) -> Given<'_> {
    let reader = match LogReader::open(log) {
        Ok(reader) => reader,
        Err(refusal) => return (None, Vec::new(), refusal.number()),
    };
    let mut frames = Vec::new();
    let mut refusal = 0;
    let mut items = reader.into_iter();
    for item in &mut items {
        assert_eq!(refusal, 0, "a refusal is the last item");
        match item {
            Ok(frame) => frames.push(frame),
            Err(found) => refusal = found.number(),
        }
    }
    assert!(items.next().is_none());
    (Some(reader.settings().into()), frames, refusal)
}

fn of_whole<'a>(log: &'a [u8], whole: &WholeLog) -> Given<'a> {
    let frame = |f: &reference::LogFrame| LogFrame {
        time: f.time,
        channel: f.channel as u8,
        class: Class::from(f.class),
        bytes: &log[f.start as usize..][..f.length as usize],
    };
    (whole.settings.map(settings), whole.frames.iter().map(frame).collect(), whole.refusal)
}

/// The frames that rows ask for.
fn of_rows(list: &List) -> Vec<LogFrame<'_>> {
    let frame = |row: Row| LogFrame {
        time: row.time,
        channel: row.channel,
        class: row.class,
        bytes: &list.bytes[row.start as usize..][..row.length as usize],
    };
    Row::list(&list.words, u32::MAX).map(frame).collect()
}

/// A log with more bytes behind it, which are not of it: those that a log goes on with, or any.
fn lent(r: &mut Random, log: &[u8]) -> Vec<u8> {
    let mut more = log.to_vec();
    match r.below(3) {
        0 => {}
        1 => more.extend(cases::log_bytes(&[LogField::last(r.below(5) as u32)])),
        _ => more.extend(r.bytes(30)),
    }
    more
}

/// Whole logs of every format, with other fields between; each way to spoil one; damaged ones.
#[test]
fn logs() {
    let mut r = Random::new(91);
    let mut c = Comparer::new(&mut r);
    for i in 0..200_000 {
        let s = cases::settings(&mut r);
        match r.below(4) {
            0 => {
                let (frames, others) = (r.below(9), r.pick(&[0, 20, 60]));
                let fields = cases::log_fields(&mut r, s, frames, others);
                let log = cases::log_bytes(&fields);
                let lent = lent(&mut r, &log);
                let whole = c.walk(&lent[..log.len()]);
                assert_eq!((whole.settings, whole.frames.len(), whole.refusal), (Some(s), frames, 0));
                c.seen.add("whole logs with other fields", (fields.len() > frames + 2) as u64);
                c.seen.add(format!("whole logs of format {}", s.format), 1);
            }
            1 => {
                let mut log = cases::log_bytes(&cases::log_fields(&mut r, s, 3, 30));
                for _ in 0..r.within(1, 3) {
                    cases::damage_log(&mut r, &mut log);
                }
                let lent = lent(&mut r, &log);
                let whole = c.walk(&lent[..log.len()]);
                c.seen.add("damaged, still whole", (whole.refusal == 0) as u64);
            }
            _ => {
                let SpoiledLog { log, way, frames, refusal } = cases::spoiled_log(&mut r, s, i % LOG_SPOILS.len());
                let lent = lent(&mut r, &log);
                let whole = c.walk(&lent[..log.len()]);
                assert_eq!((whole.frames.len(), whole.refusal), (frames, refusal), "{way}");
                c.seen.add(way, 1);
            }
        }
    }
    c.seen.report("log, whole, spoiled and damaged");
    c.seen.at_least(2000, &LOG_SPOILS.map(|(way, _)| way));
    c.seen.at_least(2000, &["refusal 11", "refusal 17", "refusal 18", "refusal 19", "refusal 20", "frames", "ends"]);
    c.seen.at_least(2000, &["whole logs with other fields"]);
    for format in 1..=5 {
        c.seen.at_least(2000, &[&format!("whole logs of format {format}")]);
    }
    c.seen.at_least(100, &["damaged, still whole"]);
}

/// Small logs cut at every place, with their own bytes behind the cut; and with every place left out.
#[test]
fn cut_everywhere() {
    let mut r = Random::new(92);
    let mut c = Comparer::new(&mut r);
    for _ in 0..50 {
        for s in every_settings(&mut r) {
            let (frames, others) = (r.below(4), r.pick(&[0, 40]));
            let log = cases::log_bytes(&cases::log_fields(&mut r, s, frames, others));
            let places = cases::log_places(&log);
            for cut in 0..log.len() {
                let refusal = if places.contains(&(cut as u64)) { 18 } else { 17 };
                assert_eq!(c.walk(&log[..cut]).refusal, refusal);
            }
            c.walk(&log);
            for place in (0..log.len()).filter(|place| *place < 40 || place % 7 == 0) {
                c.walk(&[&log[..place], &log[place + 1..]].concat());
            }
        }
    }
    c.seen.report("log, cut everywhere");
    c.seen.at_least(1000, &["refusal 17", "refusal 18", "refusal 19", "frames"]);
}

/// Every value of every byte of short logs.
#[test]
fn every_byte() {
    let mut r = Random::new(93);
    let mut c = Comparer::new(&mut r);
    for s in every_settings(&mut r) {
        let other = LogField::new(9, vec![3, 0, 4]);
        let one = [vec![other, cases::log_frame(&mut r, s)], vec![LogField::first(s)]].concat();
        for fields in [&one[..0], &one[..1], &one[..2], &one] {
            let count = fields.iter().filter(|field| field.tag == 2).count() as u32;
            let log = cases::log_bytes(&[&[LogField::first(s)], fields, &[LogField::last(count)]].concat());
            for at in 0..log.len() {
                // of a frame's bytes a few
                if !(28..log.len() - 8).contains(&at) {
                    let mut log = log.clone();
                    for value in 0..=255 {
                        log[at] = value;
                        c.walk(&log);
                    }
                }
            }
        }
    }
    c.seen.report("log, every byte");
    c.seen.at_least(1000, &["refusal 11", "refusal 17", "refusal 18", "refusal 19", "refusal 20", "frames", "ends"]);
}

/// Settings in range and not, all zeros among them: in a log (19), in a cursor (11), and to be written (11).
#[test]
fn every_setting() {
    let mut r = Random::new(103);
    let mut c = Comparer::new(&mut r);
    let types = [0, 1, 2, 96, 97, 126, 127, 128, 129, 254, 255];
    for format in (0..=7).chain([128, 255]) {
        for channels in (0..=MAX_CHANNELS + 2).chain([128, 255]) {
            for (payload_type, redundancy_type) in types.into_iter().flat_map(|t| types.map(|other| (t, other))) {
                let s = Settings { format, channels, payload_type, redundancy_type };
                let log = cases::log_bytes(&[LogField::first(s), LogField::last(0)]);
                let whole = c.walk(&log);
                assert_eq!(whole.refusal, if s.in_range() { 0 } else { 19 }, "{s:?}");
                let answer = c.step(LogCursor { settings: s, place: LOG_FIRST as u64, count: 0 }, &log).1;
                assert_eq!(answer, if s.in_range() { Ok(LogStep::End) } else { Err(11) });
                let written = c.write(s, &List::default(), MOST);
                assert_eq!(written, if s.in_range() { Ok(log.len() as u64) } else { Err(11) });
            }
        }
    }
    c.seen.report("log, settings");
    c.seen.at_least(500, &["ends", "refusal 11", "refusal 19"]);
}

/// Every class with every length in every format and channel: in a log, and in a row to be written.
#[test]
fn classes_lengths_and_channels() {
    let mut r = Random::new(94);
    let mut c = Comparer::with_area(&mut r, 1024);
    let bytes = r.bytes(700);
    for s in every_settings(&mut r) {
        let all = cases::log_frames(s.format);
        let one = |c: &mut Comparer, channel: u8, class: u8, length: usize| {
            let allowed = channel < s.channels && all.contains(&(class, length));
            let frame = LogField::frame(77, channel, class, &bytes[..length]);
            let log = cases::log_bytes(&[LogField::first(s), frame, LogField::last(1)]);
            let cursor = LogCursor { settings: s, place: LOG_FIRST as u64, count: 0 };
            assert_eq!(c.step(cursor, &log).1.err(), if allowed { None } else { Some(19) });
            let words = vec![77, 256 * class as u32 + channel as u32, 0, length as u32];
            let written = c.write(s, &List { words, bytes: bytes.clone() }, 1000);
            assert_eq!(written, if allowed { Ok(log.len() as u64) } else { Err(19) });
            c.seen.add("allowed", allowed as u64);
        };
        for class in (0..=9).chain([15, 129, 255]) {
            for length in 0..=700 {
                one(&mut c, 0, class, length);
            }
        }
        for class in 0..=255 {
            for (_, length) in &all {
                one(&mut c, 0, class, *length);
            }
        }
        for channel in 0..=255 {
            for (class, length) in &all {
                one(&mut c, channel, *class, *length);
            }
        }
    }
    c.seen.report("log, classes, lengths and channels");
    c.seen.at_least(400, &["allowed"]);
}

/// Lengths of two bytes, in fields of all tags: fields that are passed over of any length; frames and ends too long by 256 and more.
#[test]
fn long_fields() {
    let mut r = Random::new(95);
    let mut c = Comparer::new(&mut r);
    let s = cases::settings(&mut r);
    let frame = cases::log_frame(&mut r, s);
    let lengths = [0, 1, 2, 4, 255, 256, 257, 260, 511, 512, 1024, 1028, 32_767, 32_768, 65_279, 65_280, 65_534, 65_535];
    for length in lengths {
        for tag in [0, 4, 255, 1, 2, 3] {
            let field = LogField::new(tag, r.bytes(length));
            let fields = [LogField::first(s), field, frame.clone(), LogField::last(1)];
            let log = cases::log_bytes(&fields);
            let whole = c.walk(&log);
            c.seen.add("passed over", (whole.refusal == 0) as u64);
            // short by one, and by the rest
            c.walk(&log[..LOG_FIRST + 3 + length.saturating_sub(1)]);
            c.walk(&log[..LOG_FIRST + 3]);
        }
        c.walk(&cases::log_bytes(&[LogField::new(1, vec![3; length]), LogField::last(0)]));
    }
    c.seen.report("log, long fields");
    c.seen.at_least(lengths.len() as u64 * 3, &["passed over"]);
}

/// Cursors with any numbers, and every place of small logs with counts around the edges; 11 before 15, and a refusal leaves the cursor.
#[test]
fn cursors() {
    let mut r = Random::new(96);
    let mut c = Comparer::new(&mut r);
    for i in 0..60_000 {
        let s = cases::settings(&mut r);
        let log = if i % 2 == 0 {
            cases::log_bytes(&cases::log_fields(&mut r, s, 3, 20))
        } else {
            cases::spoiled_log(&mut r, s, i % LOG_SPOILS.len()).log
        };
        for _ in 0..6 {
            let cursor = cases::log_cursor(&mut r, s, &log);
            let (after, answer) = c.step(cursor, &log);
            assert!(matches!(answer, Ok(LogStep::Frame(_))) || after == cursor);
        }
    }
    c.seen.at_least(1000, &["refusal 11", "refusal 15", "refusal 17", "refusal 18", "refusal 19", "refusal 20", "frames", "ends"]);
    for s in every_settings(&mut r) {
        let bad = cases::bad_settings(&mut r);
        let log = cases::log_bytes(&cases::log_fields(&mut r, s, 2, 20));
        let length = log.len() as u64;
        for place in (0..=length + 3).chain([1 << 32, (1 << 32) + 7, (1 << 32) + length, 1 << 63, u64::MAX]) {
            let around = [place.saturating_sub(1), place, place.saturating_add(1)];
            for count in [0, 1, 2, 7, 1 << 32, (1 << 32) + 2, 1 << 63, u64::MAX].into_iter().chain(around) {
                let spoiled = place < 7 || place > length || count > place;
                for settings in [s, bad, Settings::default()] {
                    let refusal = c.step(LogCursor { settings, place, count }, &log).1.err();
                    match settings == s {
                        true => assert_eq!(refusal == Some(15), spoiled),
                        false => assert_eq!(refusal, Some(11)),
                    }
                }
            }
        }
        // no log at all
        for place in [0, 6, 7, 8] {
            assert_eq!(c.step(LogCursor { settings: s, place, count: 0 }, &[]).1, Err(15));
        }
    }
    c.seen.report("log, cursors");
}

/// A cursor is believed: at the end of a log its count decides, up to its place.
#[test]
fn counts_of_cursors() {
    let mut r = Random::new(97);
    let mut c = Comparer::new(&mut r);
    let s = cases::settings(&mut r);
    let before = cases::log_bytes(&[LogField::first(s), LogField::new(7, r.bytes(65_535)), LogField::new(8, r.bytes(40_000))]);
    let place = before.len() as u64;
    let counts = [0, 1, 127, 128, 255, 256, 257, 65_535, 65_536, 65_537, place - 1, place, place + 1];
    for said in counts.into_iter().chain([1 << 24, (1 << 24) + 1, 1 << 31, u32::MAX as u64]) {
        let log = [&before[..], &cases::log_bytes(&[LogField::last(said as u32)])].concat();
        for count in counts.into_iter().chain([said.swap_bytes(), said + (1 << 32), said + (1 << 16), said ^ 1]) {
            let refusal = c.step(LogCursor { settings: s, place, count }, &log).1.err();
            assert_eq!(refusal, if count > place { Some(15) } else { Some(20).filter(|_| count != said) });
        }
    }
    c.seen.report("log, counts of cursors");
    c.seen.at_least(10, &["ends", "refusal 15", "refusal 20"]);
}

/// Lists that can be written, with areas long enough and not; the log is read back by both. Lists that are spoiled.
#[test]
fn writing() {
    let mut r = Random::new(98);
    let mut c = Comparer::new(&mut r);
    for i in 0..60_000 {
        let s = cases::settings(&mut r);
        let rows = r.below(MOST_ROWS + 1);
        let mut list = cases::log_list(&mut r, s, rows);
        let length = cases::log_length(&list);
        assert_eq!(c.write(s, &list, length), Ok(length as u64));
        if i % 3 == 0 {
            for short in [length - 1, length - LOG_LAST, r.below(length), 0] {
                assert_eq!(c.write(s, &list, short), Err(AREA_TOO_SHORT));
            }
            c.write(s, &list, r.within(length, MOST)).unwrap();
            // bytes that are just enough, and settings out of range
            let end = list.words.chunks_exact(ROW_WORDS).map(|row| row[2] + row[3]).max().unwrap_or(0);
            list.bytes.truncate(end as usize);
            c.write(s, &list, length).unwrap();
            assert_eq!(c.write(cases::bad_settings(&mut r), &list, length), Err(11));
        }
        if i % 2 == 0 && rows > 0 {
            let spoil = i / 2 % LOG_LIST_SPOILS.len();
            cases::spoil_log_list(&mut r, s, &mut list, spoil);
            let (way, refusal) = LOG_LIST_SPOILS[spoil];
            assert_eq!(c.write(s, &list, MOST), Err(refusal), "{way}");
            assert_eq!(c.write(s, &list, r.below(length)), Err(refusal), "{way}");
            c.seen.add(way, 1);
            // once more: some of them are 14 and 19
            let again = r.below(LOG_LIST_SPOILS.len());
            if list.rows() > 0 && !list.bytes.is_empty() && list.words.chunks_exact(ROW_WORDS).all(|row| inside(row, &list.bytes)) {
                cases::spoil_log_list(&mut r, s, &mut list, again);
                c.write(s, &list, MOST).ok();
            }
        }
    }
    c.seen.report("log, writing");
    c.seen.at_least(1000, &["accepted", "refusal 11", "refusal 12", "refusal 14", "refusal 19"]);
    c.seen.at_least(1000, &LOG_LIST_SPOILS.map(|(way, _)| way));
}

fn inside(row: &[u32], bytes: &[u8]) -> bool {
    row[2] as u64 + row[3] as u64 <= bytes.len() as u64
}

/// The order is 11, 14, 19, 12: every choice of them at once, in every order of the rows at fault.
#[test]
fn order_of_refusals() {
    let mut r = Random::new(99);
    let mut c = Comparer::new(&mut r);
    for round in 0..200 {
        for s in every_settings(&mut r) {
            for faults in 0..16 {
                let has = |number: u32| faults >> number & 1 == 1;
                let mut list = cases::log_list(&mut r, s, 3);
                let (one, two) = r.pick(&[(0, 4), (4, 0), (0, 8), (8, 0), (4, 8), (8, 4), (0, 0), (8, 8)]);
                if has(2) {
                    match round % 4 {
                        0 => list.words[one + 1] += 2 * PRIMARY,
                        1 => list.words[one + 1] = 0,
                        2 => list.words[one + 1] |= 255,
                        _ => list.words.truncate(11),
                    }
                }
                if has(1) && two + 3 < list.words.len() {
                    list.words[two + 2] = list.bytes.len() as u32 + 1;
                } else if has(1) {
                    list.words[2] = list.bytes.len() as u32 + 1;
                }
                let given = if has(0) { cases::bad_settings(&mut r) } else { s };
                let out = if has(3) { LOG_FIRST + LOG_LAST } else { MOST };
                let expected = (0..4).find(|number| has(*number)).map(|number| [11, 14, 19, 12][number as usize]);
                assert_eq!(c.write(given, &list, out).err(), expected, "{faults:04b}");
            }
        }
    }
    c.seen.report("log, order of refusals");
}

/// Every part of a row, every mark, every bit above it, and words behind the rows that are no row.
#[test]
fn parts_and_marks() {
    let mut r = Random::new(100);
    let mut c = Comparer::new(&mut r);
    for _ in 0..100 {
        for s in every_settings(&mut r) {
            let list = cases::log_list(&mut r, s, 3);
            let length = c.write(s, &list, MOST).unwrap();
            for words in 0..list.words.len() {
                let part = List { words: list.words[..words].to_vec(), bytes: list.bytes.clone() };
                assert_eq!(c.write(s, &part, MOST).is_ok(), words % ROW_WORDS == 0);
            }
            let mut written = Vec::new();
            for marks in 0..8u32 {
                let mut marked = list.clone();
                for (i, row) in marked.words.chunks_exact_mut(ROW_WORDS).enumerate() {
                    row[1] = row[1] & !PRIMARY | (marks >> i & 1) * PRIMARY;
                }
                assert_eq!(c.write(s, &marked, MOST), Ok(length));
                let mut out = vec![0; length as usize];
                assert_eq!(raw::log_write(settings(s), &marked.words, &marked.bytes, &mut out).refusal, 0);
                written.push(out);
            }
            assert!(written.iter().all(|log| *log == written[0]));
            for bit in (0..32).filter(|bit| *bit != 16) {
                let mut other = list.clone();
                other.words[ROW_WORDS * r.below(3) + 1] ^= 1 << bit;
                let written = c.write(s, &other, MOST);
                assert!(bit < 16 || written == Err(19));
            }
        }
    }
    c.seen.report("log, parts and marks");
}

/// A log that the library writes is read by the reference, and the other way round: the same settings and frames.
#[test]
fn both_ways() {
    let mut r = Random::new(101);
    let mut frames = 0;
    for _ in 0..20_000 {
        let s = cases::settings(&mut r);
        let rows = r.below(MOST_ROWS + 1);
        let list = cases::log_list(&mut r, s, rows);
        let (mut mine, mut theirs) = (vec![1; cases::log_length(&list)], vec![2; cases::log_length(&list)]);
        let length = mine.len();
        assert_eq!(write_log(settings(s).into(), &list.words, &list.bytes, &mut mine), Ok(length));
        assert_eq!(reference::log_write(s, &list.words, &list.bytes, &mut theirs), Ok(length as u64));
        let asked = (Some(settings(s)), of_rows(&list), 0);
        assert_eq!(of_whole(&mine, &reference::read_log(&mine)), asked);
        assert_eq!(by_iterator(&theirs), asked);
        frames += rows;
    }
    println!("log, both ways: 20000 logs of {frames} frames");
}

/// Logs of many frames: counts over a byte and over two, 64 KiB and more.
#[test]
fn many_frames() {
    let mut r = Random::new(102);
    for (format, rows) in [(3, 255), (3, 256), (4, 257), (1, 390), (5, 3000), (3, 65_535), (4, 65_536), (3, 70_000)] {
        let s = Settings { format, channels: 1, ..cases::settings(&mut r) };
        let list = cases::log_list(&mut r, s, rows);
        let length = cases::log_length(&list);
        let mut c = Comparer::with_area(&mut r, length + 9);
        assert_eq!(c.write(s, &list, length - 1), Err(12));
        assert_eq!(c.write(s, &list, length + 9), Ok(length as u64));
        let mut log = vec![0; length];
        assert_eq!(write_log(settings(s).into(), &list.words, &list.bytes, &mut log), Ok(length));
        let whole = c.walk(&log);
        assert_eq!((whole.frames.len(), whole.refusal), (rows, 0));
        assert_eq!(of_whole(&log, &whole).1, of_rows(&list));
        // the count one less, one more, and with its bytes turned round
        for count in [rows as u32 - 1, rows as u32 + 1, (rows as u32).swap_bytes(), rows as u32 % 256, rows as u32 % 65_536] {
            log[length - 4..].copy_from_slice(&count.to_be_bytes());
            let cursor = LogCursor { settings: s, place: (length - LOG_LAST) as u64, count: rows as u64 };
            assert_eq!(c.step(cursor, &log).1.err(), Some(20).filter(|_| count != rows as u32));
        }
        // a frame at fault far in the log
        let place = whole.frames[rows - 1].start as usize;
        log[place - 1] = 0;
        let cursor = LogCursor { settings: s, place: (place - LOG_FRAME) as u64, count: rows as u64 - 1 };
        assert_eq!(c.step(cursor, &log).1, Err(19));
        c.seen.report(&format!("log, {rows} frames"));
    }
}

/// A log by hand, through the friendly functions.
#[test]
fn a_log_by_hand() {
    let log = [
        &[1, 0, 4, 4, 1, 97, 128][..],
        &[77, 0, 1, 3],
        &[2, 0, 11, 0, 0, 1, 0, 0, 6, 10, 20, 30, 40, 50],
        &[2, 0, 18, 255, 255, 255, 255, 0, 1, 1, 2, 3, 4, 5, 6, 7, 8, 9, 10, 11, 12],
        &[3, 0, 4, 0, 0, 0, 2],
    ]
    .concat();
    let settings = heolstorpit::Settings { format: heolstorpit::Format::Amr, channels: 1, payload_type: 97, redundancy_type: 128 };
    let mut reader = LogReader::open(&log).unwrap();
    assert_eq!((reader.settings(), reader.place(), reader.count()), (settings, 7, 0));
    let first = LogFrame { time: 256, channel: 0, class: Class::DamagedSid, bytes: &log[20..25] };
    let second = LogFrame { time: u32::MAX, channel: 0, class: Class::Sound, bytes: &log[34..46] };
    assert_eq!(reader.step(), Ok(Some(first)));
    assert_eq!((reader.place(), reader.count()), (25, 1));
    // from here on
    assert_eq!(reader.into_iter().collect::<Result<Vec<_>, _>>(), Ok(vec![second]));
    assert_eq!(reader.step(), Ok(Some(second)));
    let end = reader;
    assert_eq!((reader.step(), reader.step(), reader), (Ok(None), Ok(None), end));
    // the frames outlive the reader: they are parts of the log
    let frames = LogReader::open(&log).unwrap().into_iter().collect::<Result<Vec<_>, _>>().unwrap();
    assert_eq!(frames, [first, second]);
    assert!(std::ptr::eq(frames[0].bytes, &log[20..25]));

    // written again, without the field that was passed over, at the front of an area
    let rows = [[256, 6 * 256, 20, 5], [u32::MAX, PRIMARY + 256, 34, 12]].concat();
    let mut out = vec![9; MAX_PACKET];
    let whole = [&log[..7], &log[11..]].concat();
    assert_eq!(write_log(settings, &rows, &log, &mut out), Ok(whole.len()));
    assert_eq!((&out[..whole.len()], &out[whole.len()..]), (&whole[..], &vec![9; MAX_PACKET - whole.len()][..]));

    // refusals: after both frames, and the reader stays; the iterator says it once
    let cut = &log[..log.len() - 1];
    let mut reader = LogReader::open(cut).unwrap();
    assert!(reader.step().is_ok() && reader.step().is_ok());
    let before = reader;
    assert_eq!((reader.step(), reader.step(), reader), (Err(Refusal::CutField), Err(Refusal::CutField), before));
    let items: Vec<_> = LogReader::open(cut).unwrap().into_iter().collect();
    assert_eq!(items, [Ok(first), Ok(second), Err(Refusal::CutField)]);
    assert_eq!(LogReader::open(&log[1..]), Err(Refusal::MisplacedTag));
    assert_eq!(LogReader::open(&[]), Err(Refusal::MisplacedTag));
    assert_eq!(LogReader::open(&[1, 0, 0]), Err(Refusal::NotAllowed));
    let mut wrong = log.clone();
    *wrong.last_mut().unwrap() = 3;
    assert_eq!(LogReader::open(&wrong).unwrap().into_iter().last(), Some(Err(Refusal::WrongCount)));
    assert_eq!(write_log(settings, &rows, &log, &mut out[..whole.len() - 1]), Err(Refusal::AreaTooShort));
    assert_eq!(write_log(settings, &rows[..7], &log, &mut out), Err(Refusal::NotAllowed));
    assert_eq!(write_log(settings, &rows, &log[..45], &mut out), Err(Refusal::RowOutsideBytes));
    let spoiled = raw::LogCursor { place: 6, ..*LogReader::open(&log).unwrap().as_raw() };
    assert_eq!(LogReader::from_raw(&log, spoiled).step(), Err(Refusal::Malformed));
    assert_eq!(LogReader::from_raw(&log, raw::LogCursor::default()).step(), Err(Refusal::SettingsOutOfRange));
}
