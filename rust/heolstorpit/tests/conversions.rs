//! The wrapper's values and the library's numbers: every number has a value and comes back from it, those that the library does not answer
//! today among them. No function of the library is called.

mod common;

use cases::Random;
use common::{raw_reception, to_raw};
use heolstorpit::{
    raw, Buffer, Class, Fault, Format, Frame, LogFrame, LogReader, Reception, Refusal, Report, Row, Settings, MAX_PACKET, MAX_ROWS,
    MIN_PACKET, ROW_WORDS,
};
use std::collections::HashSet;
use std::fmt::Display;
use std::num::NonZeroU32;

/// Numbers of a word: small ones, those around the powers of two, and some anywhere.
fn numbers() -> Vec<u32> {
    let mut r = Random::new(61);
    let mut numbers: Vec<u32> = (0..=70_000).chain((0..32).flat_map(|bit| [(1 << bit) - 1, 1 << bit, (1 << bit) + 1])).collect();
    numbers.extend((0..200_000).map(|_| r.word() >> r.below(32)));
    numbers.extend([u32::MAX - 1, u32::MAX]);
    numbers
}

/// The words of each are its own.
fn assert_told_apart<T: Display>(values: impl IntoIterator<Item = T>) {
    let mut seen = HashSet::new();
    for value in values {
        let words = value.to_string();
        assert!(!words.is_empty() && seen.insert(words.clone()), "said twice: {words}");
    }
}

#[test]
fn classes() {
    let named = [Class::NoData, Class::Sound, Class::Sid, Class::DamagedSound, Class::DamagedSid];
    assert_eq!([0, 1, 2, 5, 6].map(Class::from), named);
    assert_eq!(Class::NAMED, named);
    for number in numbers() {
        let class = Class::from(number);
        assert_eq!((class.number(), u32::from(class)), (number, number));
        assert_eq!(Class::NAMED.contains(&class), [0, 1, 2, 5, 6].contains(&number));
        assert_eq!(matches!(class, Class::Other { .. }), !named.contains(&class));
        assert_ne!(class, Class::from(number.wrapping_add(1)));
    }
    assert_told_apart((0..1000).chain([u32::MAX]).map(Class::from));
    assert!(Class::from(70_001).to_string().contains("70001"));
}

#[test]
fn formats() {
    let named = [Format::G719Basic, Format::G719Interleaved, Format::GsmHr, Format::Amr, Format::AmrWb];
    assert_eq!([1, 2, 3, 4, 5].map(Format::from), named);
    for number in 0..=u8::MAX {
        let format = Format::from(number);
        assert_eq!((format.number(), u8::from(format)), (number, number));
        assert_eq!(matches!(format, Format::Other { .. }), !(1..=5).contains(&number));
        assert_eq!(Format::NAMED.contains(&format), (1..=5).contains(&number));
    }
    assert_told_apart((0..=u8::MAX).map(Format::from));
}

#[test]
fn refusals() {
    assert_eq!(Refusal::from_number(0), None);
    let named: Vec<u32> = (1..=15).chain(17..=20).collect();
    assert_eq!(Refusal::NAMED.iter().map(|refusal| refusal.number()).collect::<Vec<_>>(), named);
    assert_eq!(Refusal::from_number(1), Some(Refusal::PacketLength));
    assert_eq!(Refusal::from_number(15), Some(Refusal::Malformed));
    let log = [Refusal::CutField, Refusal::MisplacedTag, Refusal::NotAllowed, Refusal::WrongCount];
    assert_eq!([17, 18, 19, 20].map(Refusal::from_number), log.map(Some));
    for number in numbers() {
        let refusal = Refusal::from_number(number);
        assert_eq!(refusal.map_or(0, Refusal::number), number);
        assert_eq!(refusal, NonZeroU32::new(number).map(Refusal::from));
        assert_eq!(refusal.map_or(0, u32::from), number);
        assert_eq!(matches!(refusal, Some(Refusal::Other { .. })), number != 0 && !named.contains(&number));
        assert_ne!(refusal, Refusal::from_number(number.wrapping_add(1)));
    }
    assert_told_apart((1..1000).chain([u32::MAX]).filter_map(Refusal::from_number));
    let words = |number| -> String {
        let error: Box<dyn std::error::Error> = Refusal::from_number(number).unwrap().into();
        error.to_string()
    };
    assert_eq!(words(1), format!("the packet is shorter than {MIN_PACKET} or longer than {MAX_PACKET} bytes"));
    assert_eq!(words(9), format!("the packet has more than {MAX_ROWS} frames"));
    assert!(words(16).contains("16") && words(u32::MAX).contains("4294967295"));
}

#[test]
fn settings() {
    let mut r = Random::new(62);
    for format in 0..=u8::MAX {
        for _ in 0..100 {
            let numbers = raw::Settings { format, channels: r.byte(), payload_type: r.byte(), redundancy_type: r.byte() };
            let settings = Settings::from(numbers);
            assert_eq!((settings.format, raw::Settings::from(settings)), (Format::from(format), numbers));
        }
    }
}

/// Rows of any class, those that no reading gives today among them: all are kept, as they are.
#[test]
fn rows() {
    let mut r = Random::new(63);
    let tags = numbers();
    let area: Vec<u32> = tags.iter().flat_map(|tag| [r.word(), *tag, r.word(), r.word()]).collect();
    let rows: Vec<Row> = Row::list(&area, tags.len() as u32).collect();
    assert_eq!(rows.len(), tags.len());
    for (row, words) in rows.iter().zip(area.chunks_exact(ROW_WORDS)) {
        let (class, channel, primary) = (Class::from(words[1] / 256 & !256), words[1] % 256, words[1] >> 16 & 1 == 1);
        assert_eq!((row.time, row.class, row.channel as u32, row.start, row.length), (words[0], class, channel, words[2], words[3]));
        assert_eq!(row.primary, primary);
        assert_eq!(row.words().unwrap(), *words);
    }
    // no more than the count, and no more than the area has
    assert_eq!(Row::list(&area, 3).count(), 3);
    assert_eq!(Row::list(&area[..4 * ROW_WORDS - 1], u32::MAX).count(), 3);
}

/// A class has 24 bits in a row, without the primary one: one that does not fit is refused, and not taken for another or for a mark.
#[test]
fn rows_of_classes_that_do_not_fit() {
    let row = |class, primary| Row { time: 1, class: Class::from(class), channel: 255, primary, start: 2, length: 3 };
    assert_eq!(row((1 << 24) - 1 - 256, true).words(), Ok([1, u32::MAX, 2, 3]));
    assert_eq!(row((1 << 24) - 1 - 256, false).words(), Ok([1, u32::MAX - 65_536, 2, 3]));
    assert_eq!([false, true].map(|primary| row(1, primary).words().unwrap()[1]), [511, 65_536 + 511]);
    for class in [256, 257, 511, 768, (1 << 24) - 1, 1 << 24, (1 << 24) + 1, 1 << 31, u32::MAX] {
        for primary in [false, true] {
            assert_eq!(row(class, primary).words(), Err(Refusal::Unwritable));
        }
    }
}

fn buffer() -> raw::Buffer {
    to_raw(&reference::fresh(reference::Settings { format: 1, channels: 1, payload_type: 97, redundancy_type: 98 }).0)
}

/// A frame drawn is a frame whatever its class; only an answer that says so is empty.
#[test]
fn frames_drawn() {
    let drawn = raw::Drawn { refusal: 0, empty: 0, time: 9, channel: 1, frame_class: 0, length: 80, primary: 1, buffer: buffer() };
    for frame_class in numbers() {
        let frame = Frame { time: 9, channel: 1, class: Class::from(frame_class), length: 80, primary: true };
        assert_eq!(raw::Drawn { frame_class, ..drawn }.result(), Ok(Some(frame)));
        assert_eq!(raw::Drawn { frame_class, primary: 0, ..drawn }.result(), Ok(Some(Frame { primary: false, ..frame })));
        assert_eq!(frame.class.number(), frame_class);
    }
    let none = raw::Drawn { refusal: 0, empty: 1, time: 0, channel: 0, frame_class: 0, length: 0, primary: 0, buffer: buffer() };
    assert_eq!(none.result(), Ok(None));
}

/// Every answer with a refusal is that refusal, whatever its number; with 0 it is what the library answered.
#[test]
fn answers() {
    let reading =
        raw::Reading { refusal: 0, offset: 0, rows: 1, marker: 1, sequence: 65_535, timestamp: u32::MAX, source: 5, mode_request: 14 };
    let written = raw::Written { refusal: 0, length: 7 };
    let fresh = raw::Fresh { refusal: 0, buffer: buffer() };
    let offered =
        raw::Offered { refusal: 0, offset: 0, late: 1, far: 2, repeated: 3, better: 4, no_room: 5, inserted: 6, buffer: buffer() };
    let drawn = raw::Drawn { refusal: 0, empty: 0, time: 0, channel: 0, frame_class: 0, length: 0, primary: 0, buffer: buffer() };
    let reception = raw_reception(&reference::Reception { jitter: 1, started: 1, ..Default::default() });
    let received = raw::Received { refusal: 0, valid: 1, reception };
    let reported = raw::Reported { refusal: 0, fraction_lost: 255, cumulative_lost: -1, highest_sequence: 2, jitter: 3, reception };
    let (log, opened, written_log) = ([0; 9], raw::LogOpened::default(), raw::LogWritten { refusal: 0, length: 1 << 33 });
    let stepped = raw::LogStepped { start: 2, length: 3, ..raw::LogStepped::default() };
    for refusal in numbers().into_iter().filter(|number| *number != 0) {
        let found = [
            raw::Reading { refusal, ..reading }.result().err().map(Refusal::from),
            raw::Written { refusal, ..written }.result().err(),
            raw::Fresh { refusal, ..fresh }.result().err(),
            raw::Offered { refusal, ..offered }.result().err().map(Refusal::from),
            raw::Drawn { refusal, ..drawn }.result().err(),
            raw::Drawn { refusal, empty: 1, ..drawn }.result().err(),
            raw::Received { refusal, ..received }.result().err(),
            raw::Reported { refusal, ..reported }.result().err(),
            raw::LogOpened { refusal, ..opened }.result(&log).err(),
            raw::LogStepped { refusal, ..stepped }.result(&log).err(),
            raw::LogStepped { refusal, end: 1, ..stepped }.result(&log).err(),
            raw::LogWritten { refusal, ..written_log }.result().err(),
        ];
        assert_eq!(found.map(|refusal| refusal.map_or(0, Refusal::number)), [refusal; 12]);
    }
    let of = reading.result().unwrap();
    assert_eq!((of.rows, of.marker, of.sequence, of.timestamp, of.source, of.mode_request), (1, true, 65_535, u32::MAX, 5, 14));
    assert_eq!(written.result(), Ok(7));
    assert_eq!(fresh.result().map(|buffer| *buffer.as_raw()), Ok(buffer()));
    let of = offered.result().unwrap();
    assert_eq!([of.late, of.far, of.repeated, of.better, of.no_room, of.inserted], [1, 2, 3, 4, 5, 6]);
    assert_eq!([0, 1].map(|valid| raw::Received { valid, ..received }.result()), [Ok(false), Ok(true)]);
    assert_eq!(reported.result(), Ok(Report { fraction_lost: 255, cumulative_lost: -1, highest_sequence: 2, jitter: 3 }));
    assert_eq!(written_log.result(), Ok(1 << 33));
}

/// A frame of a log is a frame whatever its class, and shows its part of the log; only an answer that says so is the end.
#[test]
fn frames_of_logs() {
    let log: Vec<u8> = (0..40).collect();
    let stepped = raw::LogStepped { time: 9, channel: 1, start: 5, length: 14, ..raw::LogStepped::default() };
    for frame_class in numbers() {
        let frame = LogFrame { time: 9, channel: 1, class: Class::from(frame_class), bytes: &log[5..19] };
        assert_eq!(raw::LogStepped { frame_class, ..stepped }.result(&log), Ok(Some(frame)));
        assert_eq!(frame.class.number(), frame_class);
    }
    assert_eq!(raw::LogStepped { end: 1, ..raw::LogStepped::default() }.result(&log), Ok(None));
    // places that are not in the log are no panic
    for start in [0, 26, 27, 40, 41, 1 << 32, u64::MAX] {
        for length in [0, 14, 40, 41, 1 << 32, u64::MAX] {
            let bytes = if start.saturating_add(length) <= 40 { &log[start as usize..][..length as usize] } else { &[] };
            let frame = raw::LogStepped { start, length, ..stepped }.result(&log).unwrap().unwrap();
            assert_eq!(frame.bytes, bytes);
        }
    }
}

/// A reader of a log keeps the numbers that it has, whatever they are.
#[test]
fn readers_of_logs() {
    let mut r = Random::new(65);
    let log = r.bytes(100);
    for format in 0..=u8::MAX {
        let settings = raw::Settings { format, channels: r.byte(), payload_type: r.byte(), redundancy_type: r.byte() };
        let cursor = raw::LogCursor { settings, place: r.bits(), count: r.bits() };
        let reader = LogReader::from_raw(&log, cursor);
        assert_eq!((*reader.as_raw(), reader.log(), reader.settings()), (cursor, &log[..], settings.into()));
        assert_eq!((reader.place(), reader.count()), (cursor.place, cursor.count));
        assert_eq!(raw::LogOpened { refusal: 0, cursor }.result(&log), Ok(reader));
    }
}

/// A fault has the offset that was answered, whatever the refusal; 0 is none.
#[test]
fn offsets() {
    let offered =
        raw::Offered { refusal: 7, offset: 0, late: 0, far: 0, repeated: 0, better: 0, no_room: 0, inserted: 0, buffer: buffer() };
    for (number, refusal) in [(7, Refusal::ReservedCode), (3, Refusal::HeaderTruncated), (99, Refusal::from_number(99).unwrap())] {
        for offset in numbers() {
            let fault = Fault { refusal, offset: if offset == 0 { None } else { Some(offset as usize) } };
            assert_eq!(raw::Reading { refusal: number, offset, ..raw::Reading::default() }.result(), Err(fault));
            assert_eq!(raw::Offered { refusal: number, offset, ..offered }.result(), Err(fault));
        }
    }
    // an answer that is accepted has none
    assert!(raw::Reading { offset: 5, ..raw::Reading::default() }.result().is_ok());
    let words = |offset| -> String {
        let error: Box<dyn std::error::Error> = Fault { refusal: Refusal::ReservedCode, offset }.into();
        error.to_string()
    };
    assert_eq!(words(None), Refusal::ReservedCode.to_string());
    assert!(words(Some(40)).starts_with(&words(None)) && words(Some(40)).contains("byte 40"));
}

/// A reception keeps the numbers that it has, whatever they are.
#[test]
fn receptions() {
    let mut r = Random::new(64);
    for _ in 0..1000 {
        let state = raw_reception(&cases::any_reception(&mut r));
        assert_eq!(*Reception::from_raw(state).as_raw(), state);
    }
}

/// A buffer keeps the settings that it has, of a format with no name too.
#[test]
fn settings_of_buffers() {
    for format in 0..=u8::MAX {
        let mut state = buffer();
        state.settings.format = format;
        assert_eq!(Buffer::from_raw(state).settings(), Settings::from(state.settings));
        assert_eq!(raw::Settings::from(Buffer::from_raw(state).settings()), state.settings);
    }
}

/// The header, the wrapper and the reference have the same figures.
#[test]
fn figures() {
    let header = include_str!("../../../include/heolstorpit.h");
    let defined = |name: &str| -> usize {
        let line = header.lines().find(|line| line.split_whitespace().nth(1) == Some(&format!("HSP_{name}"))).expect(name);
        line.split_whitespace().nth(2).and_then(|word| word.parse().ok()).expect(name)
    };
    macro_rules! same {
        ($($name:ident)*) => { $(assert_eq!([heolstorpit::$name as usize, reference::$name as usize], [defined(stringify!($name)); 2]);)* };
    }
    same!(MAX_PACKET MAX_PAYLOAD MAX_ROWS ROW_WORDS ROW_AREA SLOTS SLOT_BYTES STORE_BYTES DRAW_AREA PRIMARY MAX_REDUNDANT NO_REDUNDANCY NO_MODE_REQUEST);
    same!(LOG_FIRST LOG_FRAME LOG_LAST MAX_CHANNELS);
    assert_eq!(heolstorpit::MIN_PACKET, reference::MIN_PACKET);
}
