//! P3: the reference reads and writes logs as the paper says: a written log reads back, the steps come to what the whole log is, and a log
//! that was spoiled gets the refusal that its way of being spoiled leads to.

use cases::{LogField, Random, SpoiledLog, LOG_LIST_SPOILS, LOG_SPOILS};
use reference::*;

/// The log by steps, as the whole reader has it.
fn by_steps(log: &[u8]) -> WholeLog {
    let (mut cursor, opened) = log_open(log);
    let mut whole = WholeLog::default();
    if let Err(refusal) = opened {
        assert_eq!(cursor, LogCursor::default());
        return WholeLog { refusal, ..whole };
    }
    whole.settings = Some(cursor.settings);
    loop {
        let (after, answer) = log_step(&cursor, log);
        match answer {
            Ok(LogStep::Frame(frame)) => {
                assert!(after.place > cursor.place && after.place == frame.start + frame.length && after.count == cursor.count + 1);
                whole.frames.push(frame);
                cursor = after;
            }
            _ => {
                assert_eq!(after, cursor);
                return WholeLog { refusal: answer.err().unwrap_or(0), ..whole };
            }
        }
    }
}

/// What was written reads back, by both readers; every cut of it is 17 or 18, and shows the frames that are whole.
#[test]
fn logs_read_back() {
    let mut r = Random::new(81);
    for round in 0..3000 {
        let s = cases::settings(&mut r);
        let rows = r.below(8);
        let mut list = cases::log_list(&mut r, s, rows);
        let length = cases::log_length(&list);
        let mut out = vec![0xEE; length + 5];
        assert_eq!(log_write(s, &list.words, &list.bytes, &mut out), Ok(length as u64));
        assert_eq!(out[length..], [0xEE; 5]);
        cases::remark(&mut r, &mut list);
        let mut again = vec![0xEE; length];
        assert_eq!(log_write(s, &list.words, &list.bytes, &mut again), Ok(length as u64));
        assert_eq!(log_write(s, &list.words, &list.bytes, &mut vec![0; length - 1]), Err(12));
        assert_eq!(again, out[..length]);
        let log = &out[..length];
        let whole = read_log(log);
        assert_eq!((&by_steps(log), whole.settings, whole.refusal), (&whole, Some(s), 0));
        assert_eq!(whole.frames.len(), rows);
        for (frame, words) in whole.frames.iter().zip(list.words.chunks_exact(ROW_WORDS)) {
            let row = Row::from_words(words);
            assert_eq!((frame.time, frame.channel, frame.class), (row.time, row.channel, row.class));
            let bytes = &list.bytes[row.start as usize..][..row.length as usize];
            assert_eq!(&log[frame.start as usize..][..frame.length as usize], bytes);
        }
        for cut in 0..length {
            if round < 200 || r.percent(2) {
                let part = read_log(&log[..cut]);
                assert_eq!(by_steps(&log[..cut]), part);
                let at_field = cases::log_places(log).contains(&(cut as u64));
                assert_eq!(part.refusal, if at_field { 18 } else { 17 }, "{cut} of {log:02x?}");
                assert_eq!(part.frames[..], whole.frames[..part.frames.len()]);
                assert!(whole.frames.iter().skip(part.frames.len()).all(|frame| frame.start + frame.length > cut as u64));
            }
        }
    }
}

/// Each way to spoil a log leads to its refusal, after the frames before it.
#[test]
fn spoiled_logs() {
    let mut r = Random::new(82);
    for i in 0..200_000 {
        let s = cases::settings(&mut r);
        let spoiled = cases::spoiled_log(&mut r, s, i % LOG_SPOILS.len());
        let SpoiledLog { log, frames, refusal, .. } = &spoiled;
        let whole = read_log(log);
        assert_eq!((whole.frames.len(), whole.refusal), (*frames, *refusal), "{spoiled:02x?}");
        assert_eq!(by_steps(log), whole, "{spoiled:02x?}");
    }
}

/// Whole logs with other fields between; then damaged anyhow: the steps come to what the whole log is.
#[test]
fn damaged_logs() {
    let mut r = Random::new(83);
    let mut seen = [0; 21];
    for _ in 0..100_000 {
        let s = cases::settings(&mut r);
        let frames = r.below(5);
        let others = r.pick(&[0, 30, 60]);
        let fields = cases::log_fields(&mut r, s, frames, others);
        let mut log = cases::log_bytes(&fields);
        let whole = read_log(&log);
        assert_eq!((by_steps(&log), whole.settings, whole.frames.len(), whole.refusal), (whole.clone(), Some(s), frames, 0));
        for _ in 0..r.within(1, 2) {
            cases::damage_log(&mut r, &mut log);
        }
        let whole = read_log(&log);
        assert_eq!(by_steps(&log), whole, "{log:02x?}");
        seen[whole.refusal as usize] += 1;
    }
    assert!([0, 17, 18, 19, 20].iter().all(|refusal| seen[*refusal] > 200), "{seen:?}");
}

/// The frames that a format has are those that reading its packets gives.
#[test]
fn frames_of_packets() {
    let mut r = Random::new(84);
    let mut area = vec![0; ROW_AREA];
    let mut found: Vec<_> = (0..=5).map(|_| std::collections::BTreeSet::new()).collect();
    for _ in 0..20_000 {
        let s = cases::settings(&mut r);
        let packet = cases::packet(&mut r, s, cases::Shape { bytes: MAX_PAYLOAD, rows: MAX_ROWS, alike: false });
        let Ok(reading) = read(s, &packet, &mut area) else {
            continue;
        };
        for row in area.chunks_exact(ROW_WORDS).take(reading.rows as usize).map(Row::from_words).filter(|row| row.class != 0) {
            found[s.format as usize].insert((row.class as u8, row.length as usize));
            // and each is a log's
            let frame = LogField::frame(row.time, row.channel as u8, row.class as u8, &packet[row.start as usize..][..row.length as usize]);
            if r.percent(2) {
                let log = cases::log_bytes(&[LogField::first(s), frame, LogField::last(1)]);
                assert_eq!(read_log(&log).refusal, 0);
            }
        }
    }
    for format in 1..=5 {
        assert_eq!(found[format as usize].iter().copied().collect::<Vec<_>>(), {
            let mut all = cases::log_frames(format);
            all.sort();
            all
        });
    }
}

/// Lists that are spoiled get their refusal; the area stays.
#[test]
fn spoiled_lists() {
    let mut r = Random::new(85);
    for i in 0..60_000 {
        let s = cases::settings(&mut r);
        let rows = r.within(1, 5);
        let mut list = cases::log_list(&mut r, s, rows);
        let spoil = i % LOG_LIST_SPOILS.len();
        cases::spoil_log_list(&mut r, s, &mut list, spoil);
        let mut out = vec![0xEE; r.pick(&[0, 2000])];
        let (way, refusal) = LOG_LIST_SPOILS[spoil];
        assert_eq!(log_write(s, &list.words, &list.bytes, &mut out), Err(refusal), "{way} {s:?} {list:?}");
        assert!(out.iter().all(|byte| *byte == 0xEE));
    }
}
