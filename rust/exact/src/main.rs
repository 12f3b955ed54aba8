//! Each call with every area in a heap block of exactly its length, so that valgrind sees any byte read or written outside; the
//! answers are compared with the reference too. Arguments: none, or the number of cases for each function.
#![forbid(unsafe_code)]
#![allow(unused_imports, dead_code)]

#[path = "../../heolstorpit/tests/common/convert.rs"]
mod convert;

use cases::{Random, Shape};
use convert::{raw_cursor, raw_drawn, raw_log_written, raw_opened, raw_reception, raw_stepped, settings, to_raw};
use heolstorpit::raw;
use reference::{LogStep, DRAW_AREA, MAX_PACKET, MAX_PAYLOAD, MAX_ROWS, ROW_AREA, ROW_WORDS, STORE_BYTES};

fn main() {
    let cases: usize = match std::env::args().nth(1) {
        None => 2000,
        Some(word) => word.parse().expect("the number of cases"),
    };
    let mut r = Random::new(31);
    #[cfg(feature = "read")]
    read(&mut r, cases);
    #[cfg(feature = "write")]
    write(&mut r, cases);
    #[cfg(feature = "buffer")]
    buffer(&mut r, cases);
    #[cfg(feature = "reception")]
    reception(&mut r, cases);
    #[cfg(feature = "log")]
    log(&mut r, cases);
}

/// A heap block of exactly these elements.
fn exact<T: Copy>(values: &[T]) -> Box<[T]> {
    Box::from(values)
}

fn some_packet(r: &mut Random, s: reference::Settings) -> Box<[u8]> {
    let shape = Shape { bytes: r.pick(&[100, 400, MAX_PAYLOAD]), rows: MAX_ROWS, alike: r.percent(50) };
    let mut packet = cases::packet(r, s, shape);
    if r.percent(50) {
        cases::damage(r, &mut packet);
    }
    exact(&packet)
}

#[cfg(feature = "read")]
fn read(r: &mut Random, cases: usize) {
    for _ in 0..cases {
        let s = if r.percent(3) { cases::bad_settings(r) } else { cases::settings(r) };
        let packet = some_packet(r, s);
        let words = if r.percent(90) { ROW_AREA } else { r.below(ROW_AREA) };
        let (mut one, mut two) = (exact(&vec![7; words]), exact(&vec![7; words]));
        let answer = raw::read(settings(s), &packet, &mut one);
        let expected = reference::read(s, &packet, &mut two);
        let numbers = expected.map_or_else(|fault| (fault.refusal, fault.offset, 0, 0), |e| (0, 0, e.rows, e.mode_request));
        assert_eq!(((answer.refusal, answer.offset, answer.rows, answer.mode_request), one), (numbers, two));
    }
    println!("exact lengths: {cases} calls of read");
}

#[cfg(feature = "write")]
fn write(r: &mut Random, cases: usize) {
    for _ in 0..cases {
        let s = cases::settings(r);
        let (mut list, mut counts) = cases::lists_for_packet(r, s);
        match r.below(10) {
            0..=2 => cases::damage_list(r, s, &mut list),
            3 => cases::counts_of(r, &mut counts),
            _ => {}
        }
        let (rows, bytes, counts) = (exact(&list.words), exact(&list.bytes), exact(&counts));
        let mode = cases::mode_request(r);
        let length = reference::write_packet(s, mode, true, 1, 2, &counts, &rows, &bytes, &mut [0; MAX_PACKET]);
        let out = match length {
            Ok(length) if r.percent(80) => length as usize,
            Ok(length) => r.below(length as usize),
            Err(_) => r.below(100),
        };
        let (mut one, mut two) = (exact(&vec![7; out]), exact(&vec![7; out]));
        let answer = raw::write_packet(settings(s), mode, 1, 1, 2, &counts, &rows, &bytes, &mut one);
        let expected = reference::write_packet(s, mode, true, 1, 2, &counts, &rows, &bytes, &mut two);
        assert_eq!((answer.refusal, answer.length, one), (expected.err().unwrap_or(0), expected.unwrap_or(0), two));

        let first = exact(&rows[..rows.len().min(ROW_WORDS * counts.first().map_or(0, |count| (*count).min(1000) as usize))]);
        let length = reference::write_payload(s, mode, &first, &bytes, &mut [0; MAX_PACKET]);
        let out = length.map_or(r.below(100), |length| length as usize);
        let (mut one, mut two) = (exact(&vec![7; out]), exact(&vec![7; out]));
        let answer = raw::write_payload(settings(s), mode, &first, &bytes, &mut one);
        let expected = reference::write_payload(s, mode, &first, &bytes, &mut two);
        assert_eq!((answer.refusal, answer.length, one), (expected.err().unwrap_or(0), expected.unwrap_or(0), two));
    }
    println!("exact lengths: {cases} calls of write_packet and of write_payload");
}

#[cfg(feature = "buffer")]
fn buffer(r: &mut Random, cases: usize) {
    let mut buffer = reference::Buffer::zero();
    let (mut one_store, mut two_store) = (exact(&vec![7; STORE_BYTES]), exact(&vec![7; STORE_BYTES]));
    for i in 0..cases {
        if i % 200 == 0 {
            buffer = reference::fresh(cases::settings(r)).0;
        }
        let mut given = buffer;
        if r.percent(10) {
            let way = r.below(cases::SPOILS);
            cases::spoil(r, &mut given, way);
        }
        let state = to_raw(&given);
        if r.percent(65) {
            let shape = Shape { bytes: MAX_PAYLOAD, rows: r.pick(&[1, 8, MAX_ROWS]), alike: true };
            let time = (960 * r.below(300) as u32).wrapping_sub(960 * 150);
            let mut packet = cases::packet_at(r, buffer.settings, shape, time);
            if r.percent(10) {
                cases::damage(r, &mut packet);
            }
            let packet = exact(&packet);
            let words = if r.percent(95) { ROW_AREA } else { r.below(ROW_AREA) };
            let (mut one, mut two) = (exact(&vec![7; words]), exact(&vec![7; words]));
            let answer = raw::offer(state, &packet, &mut one, &mut one_store);
            let (after, expected) = reference::offer(&given, &packet, &mut two, &mut two_store);
            let fault = expected.err().unwrap_or(reference::Fault::from(0));
            assert!(answer.refusal == fault.refusal && answer.offset == fault.offset && answer.buffer == to_raw(&after));
            assert!(answer.inserted == expected.map_or(0, |v| v.inserted) && one == two && one_store == two_store);
            if given == buffer {
                buffer = after;
            }
        } else {
            let bytes = if r.percent(95) { DRAW_AREA } else { r.below(DRAW_AREA) };
            let (mut one, mut two) = (exact(&vec![7; bytes]), exact(&vec![7; bytes]));
            let answer = raw::draw(state, &one_store, &mut one);
            let (after, expected) = reference::draw(&given, &two_store, &mut two);
            assert_eq!(answer, raw_drawn(expected, &after));
            assert!(one == two);
            if given == buffer {
                buffer = after;
            }
        }
    }
    println!("exact lengths: {cases} calls of offer and draw");
}

/// No area is lent here: that nothing else is read or written, and that every number of the answer is set.
#[cfg(feature = "reception")]
fn reception(r: &mut Random, cases: usize) {
    let mut record = reference::Reception::default();
    let mut source = cases::Source::new(r, 20);
    for i in 0..cases {
        if i % 200 == 0 {
            record = reference::Reception::default();
            assert_eq!(raw::reception_new(), raw_reception(&record));
            source = cases::Source::new(r, 20);
        }
        let packet = source.packet(r, &record);
        let given = if r.percent(80) { record } else { cases::any_reception(r) };
        let answer = raw::reception_packet(raw_reception(&given), packet.sequence, packet.timestamp, packet.arrival);
        let (after, expected) = reference::reception_packet(&given, packet.sequence, packet.timestamp, packet.arrival);
        let numbers = (expected.err().unwrap_or(0), expected.unwrap_or(false) as u32, raw_reception(&after));
        assert_eq!((answer.refusal, answer.valid, answer.reception), numbers);
        let answer = raw::reception_report(raw_reception(&after));
        let (noted, expected) = reference::reception_report(&after);
        let report = expected.unwrap_or_default();
        assert_eq!((answer.refusal, answer.reception), (expected.err().unwrap_or(0), raw_reception(&noted)));
        assert_eq!((answer.fraction_lost, answer.cumulative_lost), (report.fraction_lost, report.cumulative_lost));
        assert_eq!((answer.highest_sequence, answer.jitter), (report.highest_sequence, report.jitter));
        if given == record {
            record = if r.percent(20) { noted } else { after };
        }
    }
    println!("exact lengths: {cases} calls of reception_packet and of reception_report");
}

#[cfg(feature = "log")]
fn log(r: &mut Random, cases: usize) {
    for i in 0..cases {
        let s = cases::settings(r);
        let rows = r.below(6);
        let mut list = cases::log_list(r, s, rows);
        let length = cases::log_length(&list);
        if rows > 0 && r.percent(20) {
            cases::spoil_log_list(r, s, &mut list, i % cases::LOG_LIST_SPOILS.len());
        }
        let (words, bytes) = (exact(&list.words), exact(&list.bytes));
        let out = if r.percent(80) { length } else { r.below(length) };
        let (mut one, mut two) = (exact(&vec![7; out]), exact(&vec![7; out]));
        let answer = raw::log_write(settings(s), &words, &bytes, &mut one);
        let expected = reference::log_write(s, &words, &bytes, &mut two);
        assert_eq!((answer, &one), (raw_log_written(expected), &two));

        let log = match r.below(4) {
            0 => exact(&cases::spoiled_log(r, s, i % cases::LOG_SPOILS.len()).log),
            1 => exact(&two[..r.below(out + 1)]),
            2 => {
                let mut log = two.to_vec();
                cases::damage_log(r, &mut log);
                exact(&log)
            }
            _ => two,
        };
        let answer = raw::log_open(&log);
        let (mut cursor, expected) = reference::log_open(&log);
        assert_eq!(answer, raw_opened(&cursor, expected));
        loop {
            let answer = raw::log_step(raw_cursor(&cursor), &log);
            let (after, expected) = reference::log_step(&cursor, &log);
            assert_eq!(answer, raw_stepped(&after, expected));
            if !matches!(expected, Ok(LogStep::Frame(_))) {
                break;
            }
            cursor = after;
        }
        let given = cases::log_cursor(r, s, &log);
        let (after, expected) = reference::log_step(&given, &log);
        assert_eq!(raw::log_step(raw_cursor(&given), &log), raw_stepped(&after, expected));
    }
    println!("exact lengths: {cases} calls of log_write and of log_open, steps to the end and from any cursor");
}
