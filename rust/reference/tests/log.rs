//! Logs: examples worked by hand from document 02's P3.

use reference::*;

const GSM_HR: Settings = Settings { format: 3, channels: 1, payload_type: 97, redundancy_type: 128 };

/// The first field of a log with the settings above.
const FIRST: [u8; 7] = [1, 0, 4, 3, 1, 97, 128];

/// A frame of 14 bytes: sound at time 0x01020304, all bytes 7.
const SOUND: [u8; 23] = [2, 0, 20, 1, 2, 3, 4, 0, 1, 7, 7, 7, 7, 7, 7, 7, 7, 7, 7, 7, 7, 7, 7];

/// The last field, with this count.
fn last(count: u8) -> [u8; 7] {
    [3, 0, 4, 0, 0, 0, count]
}

/// A field that is passed over.
const OTHER: [u8; 5] = [9, 0, 2, 1, 3];

/// The log of these parts: the frames shown and how it ends, by the whole reader and by steps.
fn frames_and_ending(parts: &[&[u8]]) -> (usize, u32) {
    let log = parts.concat();
    let whole = read_log(&log);
    let (mut cursor, opened) = log_open(&log);
    if let Err(refusal) = opened {
        assert_eq!((cursor, &whole), (LogCursor::default(), &WholeLog { settings: None, frames: vec![], refusal }));
        // "A record's settings out of range (zero after a refused first field) are 11"
        assert_eq!(log_step(&cursor, &log), (cursor, Err(11)));
        return (0, refusal);
    }
    assert_eq!((cursor.place, cursor.count, Some(cursor.settings)), (7, 0, whole.settings));
    let mut frames = Vec::new();
    let refusal = loop {
        let (after, answer) = log_step(&cursor, &log);
        match answer {
            Ok(LogStep::Frame(frame)) => {
                frames.push(frame);
                assert_eq!((after.place, after.count), (frame.start + frame.length, frames.len() as u64));
            }
            Ok(LogStep::End) | Err(_) => {
                assert_eq!(after, cursor);
                break answer.err().unwrap_or(0);
            }
        }
        cursor = after;
    };
    assert_eq!((&frames, refusal), (&whole.frames, whole.refusal));
    (frames.len(), refusal)
}

#[test]
fn a_log_by_hand() {
    let log = [&FIRST[..], &OTHER, &SOUND, &last(1)].concat();
    let frame = LogFrame { time: 0x0102_0304, channel: 0, class: 1, start: 7 + 5 + 9, length: 14 };
    assert_eq!(read_log(&log), WholeLog { settings: Some(GSM_HR), frames: vec![frame], refusal: 0 });
    let (opened, answer) = log_open(&log);
    assert_eq!((opened, answer), (LogCursor { settings: GSM_HR, place: 7, count: 0 }, Ok(())));
    let (after, answer) = log_step(&opened, &log);
    assert_eq!((after, answer), (LogCursor { place: 35, count: 1, ..opened }, Ok(LogStep::Frame(frame))));
    assert_eq!(log_step(&after, &log), (after, Ok(LogStep::End)));
    assert_eq!(log_step(&after, &log), (after, Ok(LogStep::End)));
}

#[test]
fn whole_logs() {
    assert_eq!(frames_and_ending(&[&FIRST, &last(0)]), (0, 0));
    assert_eq!(frames_and_ending(&[&FIRST, &SOUND, &last(1)]), (1, 0));
    assert_eq!(frames_and_ending(&[&FIRST, &SOUND, &SOUND, &last(2)]), (2, 0));
    // other tags, empty ones and those of zeros too, anywhere between
    assert_eq!(frames_and_ending(&[&FIRST, &OTHER, &last(0)]), (0, 0));
    assert_eq!(frames_and_ending(&[&FIRST, &[0, 0, 0], &OTHER, &SOUND, &[255, 0, 0], &[4, 0, 1, 3], &last(1)]), (1, 0));
}

#[test]
fn ways_to_18() {
    // a tag other than 1 at the start: before 17 and 19
    for tag in (0..=255).filter(|tag| *tag != 1) {
        assert_eq!(frames_and_ending(&[&[tag]]), (0, 18));
        assert_eq!(frames_and_ending(&[&[tag], &FIRST[1..], &last(0)]), (0, 18));
    }
    assert_eq!(frames_and_ending(&[&OTHER, &FIRST, &last(0)]), (0, 18));
    assert_eq!(frames_and_ending(&[&SOUND, &last(1)]), (0, 18));
    assert_eq!(frames_and_ending(&[&last(0)]), (0, 18));
    // it stops before tag 1
    assert_eq!(frames_and_ending(&[]), (0, 18));
    // a second tag 1: whole, cut, of wrong length or settings
    for second in [&FIRST[..], &[1], &[1, 0], &[1, 0, 9, 0], &[1, 0, 3, 3, 1, 97], &[1, 0, 4, 0, 0, 0, 0]] {
        assert_eq!(frames_and_ending(&[&FIRST, &SOUND, &OTHER, second]), (1, 18));
        assert_eq!(frames_and_ending(&[&FIRST, second, &last(0)]), (0, 18));
    }
    // any byte after tag 3: also a whole field, another end
    for more in [&[0][..], &[1], &[2], &[3], &OTHER, &SOUND, &last(1), &FIRST] {
        assert_eq!(frames_and_ending(&[&FIRST, &SOUND, &last(1), more]), (1, 18));
    }
    // it stops before tag 3
    assert_eq!(frames_and_ending(&[&FIRST]), (0, 18));
    assert_eq!(frames_and_ending(&[&FIRST, &SOUND]), (1, 18));
    assert_eq!(frames_and_ending(&[&FIRST, &OTHER]), (0, 18));
}

#[test]
fn cut_fields() {
    for cut in 1..FIRST.len() {
        assert_eq!(frames_and_ending(&[&FIRST[..cut]]), (0, 17));
    }
    for cut in 1..SOUND.len() {
        assert_eq!(frames_and_ending(&[&FIRST, &SOUND, &SOUND[..cut]]), (1, 17));
    }
    for cut in 1..OTHER.len() {
        assert_eq!(frames_and_ending(&[&FIRST, &SOUND, &OTHER[..cut]]), (1, 17));
    }
    // before 19 and 20
    for cut in 1..7 {
        assert_eq!(frames_and_ending(&[&FIRST, &SOUND, &last(9)[..cut]]), (1, 17));
    }
    assert_eq!(frames_and_ending(&[&[1, 0, 5, 0, 0, 0, 0]]), (0, 17));
    assert_eq!(frames_and_ending(&[&FIRST, &[2, 0, 5, 0, 0, 0, 0]]), (0, 17));
    assert_eq!(frames_and_ending(&[&FIRST, &[3, 1, 0, 0, 0, 0, 0]]), (0, 17));
}

#[test]
fn content_not_allowed() {
    // tag 1: lengths other than 4, settings out of range
    for first in [&[1, 0, 0][..], &[1, 0, 3, 3, 1, 97], &[1, 0, 5, 3, 1, 97, 128, 0]] {
        assert_eq!(frames_and_ending(&[first, &last(0)]), (0, 19));
    }
    for content in [[0, 1, 97, 128], [6, 1, 97, 128], [3, 2, 97, 128], [1, 0, 97, 128], [1, 7, 97, 128], [3, 1, 128, 97], [3, 1, 97, 97]] {
        assert_eq!(frames_and_ending(&[&[1, 0, 4], &content, &last(0)]), (0, 19));
    }
    // tag 2: under 6 bytes, no frame byte, one more or less; channel 1; classes 0, 3, 5, 6
    for length in (0..=5).chain([6, 19, 21]) {
        assert_eq!(frames_and_ending(&[&FIRST, &[2, 0, length], &vec![1; length as usize], &last(0)]), (0, 19));
    }
    let spoiled = |at: usize, value: u8| {
        let mut frame = SOUND;
        frame[at] = value;
        frames_and_ending(&[&FIRST, &SOUND, &frame, &last(2)])
    };
    assert_eq!([0, 1, 2, 3, 5, 6, 255].map(|class| spoiled(8, class)), [(1, 19), (2, 0), (2, 0), (1, 19), (1, 19), (1, 19), (1, 19)]);
    assert_eq!([0, 1, 255].map(|channel| spoiled(7, channel)), [(2, 0), (1, 19), (1, 19)]);
    // tag 3: lengths other than 4, whatever the count; before 20
    for end in [&[3, 0, 0][..], &[3, 0, 3, 0, 0, 0], &[3, 0, 5, 0, 0, 0, 0, 0], &[3, 0, 1, 9]] {
        assert_eq!(frames_and_ending(&[&FIRST, end]), (0, 19));
    }
    // the first field at fault decides
    assert_eq!(frames_and_ending(&[&FIRST, &[2, 0, 0], &FIRST]), (0, 19));
}

#[test]
fn wrong_counts() {
    assert_eq!(frames_and_ending(&[&FIRST, &last(1)]), (0, 20));
    assert_eq!([0, 1, 2, 3, 255].map(|n| frames_and_ending(&[&FIRST, &SOUND, &OTHER, &SOUND, &last(n)]).1), [20, 20, 0, 20, 20]);
    // each of its bytes counts
    for high in [[1, 0, 0, 1], [0, 1, 0, 1], [0, 0, 1, 1], [1, 0, 0, 0]] {
        assert_eq!(frames_and_ending(&[&FIRST, &SOUND, &[3, 0, 4], &high]), (1, 20));
    }
    // before the bytes after it, which are the next field
    assert_eq!(frames_and_ending(&[&FIRST, &SOUND, &last(2), &[0]]), (1, 20));
}

/// Each format's classes and lengths, and each channel, count as they do in packets.
#[test]
fn frames_that_the_settings_allow() {
    let of = |format: u8, channels: u8| -> usize {
        let all = (0..=7)
            .chain([255])
            .into_iter()
            .flat_map(|channel| (0..=8).flat_map(move |class| (0..400u16).map(move |length| (channel, class, length))));
        all.filter(|(channel, class, length)| {
            let head = [&[1, 0, 4, format, channels, 0, 128, 2][..], &(6 + length).to_be_bytes()].concat();
            let log = [&head[..], &[0, 0, 0, 9, *channel, *class], &vec![0; *length as usize], &last(1)].concat();
            let answer = read_log(&log);
            assert!(answer.refusal == 0 || answer.refusal == 19);
            answer.refusal == 0
        })
        .count()
    };
    // G.719 has 20 lengths, in one to six channels; GSM-HR sound and SID; AMR 8 of sound and a SID, AMR-WB 9, each good or damaged
    for format in [1, 2] {
        assert_eq!([0, 1, 2, 3, 4, 5, 6, 7].map(|channels| of(format, channels)), [0, 20, 40, 60, 80, 100, 120, 0]);
    }
    assert_eq!([of(3, 1), of(4, 1), of(5, 1)], [2, 18, 20]);
}

#[test]
fn records_refused() {
    let log = [&FIRST[..], &SOUND, &SOUND, &last(2)].concat();
    let step = |settings, place, count| {
        let cursor = LogCursor { settings, place, count };
        let (after, answer) = log_step(&cursor, &log);
        assert!(answer.is_ok() || after == cursor);
        answer.err().unwrap_or(0)
    };
    assert_eq!([0, 6, 7, 30].map(|place| step(GSM_HR, place, 0)), [15, 15, 0, 0]);
    // at the end of the part it stops before tag 3; past it is 15
    assert_eq!([59, 60, 61, 1 << 32, u64::MAX].map(|place| step(GSM_HR, place, 0)), [17, 18, 15, 15, 15]);
    assert_eq!([0, 7, 8, 1 << 32, u64::MAX].map(|count| step(GSM_HR, 7, count)), [0, 0, 15, 15, 15]);
    // 11 before 15
    let bad = Settings { channels: 2, ..GSM_HR };
    assert_eq!([(0, 0), (7, 0), (7, 8), (99, 0)].map(|(place, count)| step(bad, place, count)), [11; 4]);
    assert_eq!(step(Settings::default(), 0, 0), 11);
    // the record is believed: a count, a place inside a field
    assert_eq!([0, 1, 2, 3].map(|count| step(GSM_HR, 53, count)), [20, 20, 0, 20]);
    assert_eq!(step(GSM_HR, 53 + 3, 0), 17);
}

/// A written log is the bytes of the paper, and reads back.
#[test]
fn written_logs() {
    let stereo = Settings { format: 1, channels: 2, payload_type: 5, redundancy_type: 6 };
    let bytes: Vec<u8> = (0..200).map(|i| i as u8).collect();
    let rows = [u32::MAX, 257, 0, 80, 960, 65_536 + 256, 110, 90];
    let mut out = vec![0xEE; 300];
    let head = |time: [u8; 4], channel: u8, length: u8| [&[2, 0, 6 + length][..], &time, &[channel, 1]].concat();
    let log = [
        &[1, 0, 4, 1, 2, 5, 6][..],
        &head([255; 4], 1, 80),
        &bytes[..80],
        &head([0, 0, 3, 192], 0, 90),
        &bytes[110..],
        &[3, 0, 4, 0, 0, 0, 2],
    ]
    .concat();
    assert_eq!(log.len(), 14 + 2 * 9 + 170);
    assert_eq!(log_write(stereo, &rows, &bytes, &mut out), Ok(202));
    assert_eq!((&out[..202], &out[202..]), (&log[..], &[0xEE; 98][..]));
    let whole = read_log(&log);
    assert_eq!((whole.settings, whole.frames.len(), whole.refusal), (Some(stereo), 2, 0));
    // no row is a log of no frame; the area is just long enough
    assert_eq!(log_write(stereo, &[], &[], &mut out[..14]), Ok(14));
    assert_eq!(&out[..14], &[1, 0, 4, 1, 2, 5, 6, 3, 0, 4, 0, 0, 0, 0]);
}

#[test]
fn writing_refused() {
    let bytes = vec![5; 100];
    let write = |settings, rows: &[u32], length: usize| {
        let mut out = vec![0xEE; length];
        let answer = log_write(settings, rows, &bytes, &mut out);
        assert!(answer.is_ok() || out.iter().all(|byte| *byte == 0xEE));
        answer.map_or_else(|refusal| refusal, |_| 0)
    };
    let good = [0, 256, 0, 14];
    assert_eq!([37, 36, 14, 0].map(|length| write(GSM_HR, &good, length)), [0, 12, 12, 12]);
    // 14 of whole rows, of those of no data too; also where the sum passes 32 bits
    let rows = |second: [u32; 4]| [good, second].concat();
    for outside in [[9, 256, 87, 14], [9, 256, 101, 0], [9, 0, 101, 0], [9, 256, u32::MAX, 14], [9, 256, 14, u32::MAX], [9, 7, 90, 11]] {
        assert_eq!(write(GSM_HR, &rows(outside), 99), 14);
        assert_eq!(write(GSM_HR, &[rows(outside), vec![1]].concat(), 0), 14);
        assert_eq!(write(Settings { format: 9, ..GSM_HR }, &rows(outside), 99), 11);
    }
    assert_eq!(write(GSM_HR, &[&good[..], &[0, 256, 101]].concat(), 99), 19);
    // 19: no data, other classes, lengths, channels; bits above the mark, which alone is ignored
    for row in [[9, 0, 0, 0], [9, 0, 100, 0], [9, 0, 0, 14], [9, 256, 0, 13], [9, 256, 0, 15], [9, 257, 0, 14], [9, 3 * 256, 0, 14]] {
        assert_eq!(write(GSM_HR, &rows(row), 99), 19);
        assert_eq!(write(GSM_HR, &rows(row), 0), 19);
    }
    assert_eq!(write(GSM_HR, &rows([9, 65_536 + 512, 86, 14]), 60), 0);
    for bit in 17..32 {
        assert_eq!(write(GSM_HR, &rows([9, (1 << bit) + 256, 0, 14]), 99), 19);
    }
    // part rows
    for part in 1..4 {
        assert_eq!(write(GSM_HR, &good[..part], 99), 19);
        assert_eq!(write(GSM_HR, &rows(good)[..4 + part], 99), 19);
    }
}
