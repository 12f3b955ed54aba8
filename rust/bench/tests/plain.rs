//! The plain Rust version answers and leaves what the reference does.

use bench::plain;
use cases::{Arrival, Random, Shape, Source, LOG_LIST_SPOILS, LOG_SPOILS};
use reference::{DRAW_AREA, MAX_PACKET, MAX_PAYLOAD, MAX_ROWS, ROW_AREA, ROW_WORDS, STORE_BYTES};

#[test]
fn reading() {
    let mut r = Random::new(41);
    let (mut one, mut two) = (vec![0; ROW_AREA], vec![0; ROW_AREA]);
    for _ in 0..200_000 {
        let s = if r.percent(2) { cases::bad_settings(&mut r) } else { cases::settings(&mut r) };
        let bytes = r.pick(&[100, 400, MAX_PAYLOAD]);
        let mut packet = cases::packet(&mut r, s, Shape { bytes, rows: MAX_ROWS + 2, alike: false });
        if r.percent(50) {
            cases::damage(&mut r, &mut packet);
        }
        assert_eq!(plain::read(s, &packet, &mut one), reference::read(s, &packet, &mut two), "{s:?} {packet:02x?}");
        assert_eq!(one, two);
    }
}

#[test]
fn writing() {
    let mut r = Random::new(42);
    for _ in 0..100_000 {
        let s = cases::settings(&mut r);
        let (mut list, mut counts) = cases::lists_for_packet(&mut r, s);
        match r.below(10) {
            0..=3 => cases::damage_list(&mut r, s, &mut list),
            4 => cases::counts_of(&mut r, &mut counts),
            _ => {}
        }
        let mode = cases::mode_request(&mut r);
        let length = if r.percent(50) { MAX_PACKET } else { r.below(MAX_PACKET) };
        let (mut one, mut two) = (vec![0; length], vec![0; length]);
        let mine = plain::write_packet(s, mode, true, 1, 2, &counts, &list.words, &list.bytes, &mut one);
        let theirs = reference::write_packet(s, mode, true, 1, 2, &counts, &list.words, &list.bytes, &mut two);
        assert_eq!((mine, &one), (theirs, &two), "{s:?} {counts:?} {list:?}");
        let end = list.words.len().min(ROW_WORDS * counts.first().map_or(0, |count| (*count).min(1000) as usize));
        let mine = plain::write_payload(s, mode, &list.words[..end], &list.bytes, &mut one);
        let theirs = reference::write_payload(s, mode, &list.words[..end], &list.bytes, &mut two);
        assert_eq!((mine, &one), (theirs, &two), "{s:?} {list:?}");
    }
}

#[test]
fn gathering() {
    let mut r = Random::new(43);
    let (mut one_rows, mut two_rows) = (vec![0; ROW_AREA], vec![0; ROW_AREA]);
    let (mut one_store, mut two_store) = (vec![0; STORE_BYTES], vec![0; STORE_BYTES]);
    let (mut one_area, mut two_area) = (vec![0; DRAW_AREA], vec![0; DRAW_AREA]);
    for _ in 0..400 {
        let s = cases::settings(&mut r);
        let mut take = plain::Take::new(s).unwrap();
        let mut buffer = reference::fresh(s).0;
        let base = if r.percent(50) { 0 } else { r.word() };
        let rows = r.pick(&[1, 8, MAX_ROWS]);
        for i in 0..200u32 {
            if r.percent(65) {
                let mut time = base.wrapping_add(960 * (i / 2 + r.below(40) as u32));
                if r.percent(3) {
                    time = time.wrapping_add(r.pick(&[1 << 31, (1 << 31) - 1, 1 << 30, 3 << 30]));
                }
                let packet = cases::packet_at(&mut r, s, Shape { bytes: 1200, rows, alike: true }, time);
                let mine = take.offer(&packet, &mut one_rows, &mut one_store);
                let (after, theirs) = reference::offer(&buffer, &packet, &mut two_rows, &mut two_store);
                buffer = after;
                assert_eq!(mine, theirs);
                assert!(one_rows == two_rows && one_store == two_store);
            } else {
                let mine = take.draw(&one_store, &mut one_area);
                let (after, theirs) = reference::draw(&buffer, &two_store, &mut two_area);
                buffer = after;
                assert_eq!(mine, theirs);
                assert!(one_area == two_area);
            }
        }
    }
}

#[test]
fn receiving() {
    let mut r = Random::new(44);
    for _ in 0..2000 {
        let (mut mine, mut theirs) = (plain::Reception::default(), reference::Reception::default());
        let trouble = r.pick(&[0, 5, 60]);
        let mut source = Source::new(&mut r, trouble);
        for _ in 0..r.pick(&[10, 300]) {
            let Arrival { sequence, timestamp, arrival } = source.packet(&mut r, &theirs);
            let (after, valid) = reference::reception_packet(&theirs, sequence, timestamp, arrival);
            theirs = after;
            assert_eq!(Ok(mine.packet(sequence, timestamp, arrival)), valid);
            if r.percent(30) {
                let (after, report) = reference::reception_report(&theirs);
                theirs = after;
                assert_eq!(Ok(mine.report()), report);
            }
        }
        assert_eq!(Ok(mine.report()), reference::reception_report(&theirs).1);
    }
}

#[test]
fn logs() {
    let mut r = Random::new(45);
    for i in 0..100_000 {
        let s = cases::settings(&mut r);
        let rows = r.below(6);
        let mut log = match r.below(3) {
            0 => cases::spoiled_log(&mut r, s, i % LOG_SPOILS.len()).log,
            _ => cases::log_bytes(&cases::log_fields(&mut r, s, rows, 20)),
        };
        if r.percent(30) {
            cases::damage_log(&mut r, &mut log);
        }
        let whole = reference::read_log(&log);
        let mut frames = whole.frames.iter();
        let ending = plain::Log::open(&log).map_or_else(
            |refusal| refusal,
            |mut mine| loop {
                assert_eq!(Some(mine.settings), whole.settings);
                match mine.step() {
                    Ok(Some(frame)) => {
                        let of = frames.next().expect("a frame of the reference");
                        let bytes = &log[of.start as usize..][..of.length as usize];
                        assert_eq!((frame.time, frame.channel as u32, frame.class as u32), (of.time, of.channel, of.class));
                        assert_eq!(frame.bytes, bytes);
                    }
                    Ok(None) => break 0,
                    Err(refusal) => break refusal,
                }
            },
        );
        assert_eq!((ending, frames.next()), (whole.refusal, None), "{log:02x?}");

        let mut list = cases::log_list(&mut r, s, rows);
        let given = if r.percent(2) { cases::bad_settings(&mut r) } else { s };
        let length = cases::log_length(&list);
        if rows > 0 && r.percent(30) {
            cases::spoil_log_list(&mut r, s, &mut list, i % LOG_LIST_SPOILS.len());
        }
        let out = if r.percent(80) { length } else { r.below(length) };
        let (mut one, mut two) = (vec![7; out], vec![7; out]);
        let mine = plain::write_log(given, &list.words, &list.bytes, &mut one).map(|length| length as u64);
        let theirs = reference::log_write(given, &list.words, &list.bytes, &mut two);
        assert_eq!((mine, one), (theirs, two), "{given:?} {list:?}");
    }
}
