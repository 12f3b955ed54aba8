//! The reference has the properties that the papers claim of the build: what is written reads back, demand 3, and what P7 says of reports.

use cases::{Arrival, Random, Shape, Source};
use reference::*;
use std::collections::BTreeMap;

/// A packet written reads back: header, mode request, times, channels, classes, lengths, frame bytes; P6: with the marks of its lists,
/// whatever those of the rows given, which change nothing of what is written.
#[test]
fn packets_read_back() {
    let mut r = Random::new(51);
    // packets written; those of six channels, and those with runs over 255
    let (mut written, mut six, mut long) = (0, 0, 0);
    for _ in 0..60_000 {
        let s = cases::settings(&mut r);
        let (mut list, counts) = cases::lists_for_packet(&mut r, s);
        let (mode_request, marker, sequence, source) = (r.below(16) as u8, r.percent(50), r.word() as u16, r.word());
        let mut out = vec![0; MAX_PACKET];
        let Ok(length) = write_packet(s, mode_request, marker, sequence, source, &counts, &list.words, &list.bytes, &mut out) else {
            continue;
        };
        written += 1;
        six += (s.channels == MAX_CHANNELS) as u32;
        long += (cases::long_runs(s, &list.words) > 0) as u32;
        let packet = &out[..length as usize];
        cases::remark(&mut r, &mut list);
        let mut again = vec![0; MAX_PACKET];
        let answer = write_packet(s, mode_request, marker, sequence, source, &counts, &list.words, &list.bytes, &mut again);
        assert_eq!((answer, &again), (Ok(length), &out));
        let mut area = vec![0; ROW_AREA];
        let reading = read(s, packet, &mut area).expect("what is written reads");
        let primary = list.words.len() / ROW_WORDS - *counts.last().unwrap() as usize;
        let header = Reading {
            rows: list.rows() as u32,
            marker: marker as u32,
            sequence: sequence as u32,
            timestamp: list.words[ROW_WORDS * primary],
            source,
            mode_request: if s.format >= 4 { mode_request } else { NO_MODE_REQUEST } as u32,
        };
        assert_eq!(reading, header);
        for (i, (back, row)) in area.chunks(ROW_WORDS).zip(list.words.chunks(ROW_WORDS)).enumerate() {
            let mark = if i < primary { 0 } else { PRIMARY };
            assert_eq!((back[0], back[1], back[3]), (row[0], row[1] & !PRIMARY | mark, row[3]));
            let frame = |bytes: &[u8], row: &[u32]| bytes[row[2] as usize..(row[2] + row[3]) as usize].to_vec();
            assert_eq!(frame(packet, back), frame(&list.bytes, row));
        }
    }
    assert!(written > 10_000 && six > 500 && long > 50, "{written} {six} {long}");
}

/// P6: rows that differ in their marks only are written alike or refused alike; a bit above the mark is 13, asked after 11 and 14.
#[test]
fn writers_ignore_marks() {
    let mut r = Random::new(56);
    let (mut written, mut unwritable, mut above) = (0, 0, [0; 32]);
    for _ in 0..60_000 {
        let s = if r.percent(2) { cases::bad_settings(&mut r) } else { cases::settings(&mut r) };
        let good = if s.in_range() { s } else { cases::settings(&mut r) };
        let (mut list, counts) = cases::lists_for_packet(&mut r, good);
        if r.percent(40) {
            cases::damage_list(&mut r, good, &mut list);
        }
        let (mode_request, length) = (cases::mode_request(&mut r), if r.percent(80) { MAX_PACKET } else { r.below(MAX_PACKET) });
        let end = list.words.len().min(ROW_WORDS * counts[0] as usize);
        let both = |list: &cases::List| {
            let (mut packet, mut payload) = (vec![7; length], vec![7; length]);
            let whole = write_packet(s, mode_request, true, 1, 2, &counts, &list.words, &list.bytes, &mut packet);
            let alone = write_payload(s, mode_request, &list.words[..end], &list.bytes, &mut payload);
            (whole, packet, alone, payload)
        };
        let answer = both(&list);
        cases::remark(&mut r, &mut list);
        assert_eq!(both(&list), answer);
        written += answer.0.is_ok() as u32;
        unwritable += (answer.0 == Err(13)) as u32;
        // one bit above, in any row of the first list
        if end >= ROW_WORDS {
            let bit = r.within(17, 31);
            list.words[ROW_WORDS * r.below(end / ROW_WORDS) + 1] |= 1 << bit;
            let (whole, _, alone, _) = both(&list);
            let refused = |before: Result<u32, u32>| if before == Err(11) || before == Err(14) { before } else { Err(13) };
            assert_eq!((whole, alone), (refused(answer.0), refused(answer.2)));
            above[bit] += 1;
        }
    }
    assert!(written > 10_000 && unwritable > 5000 && above[17..].iter().all(|n| *n > 1000), "{written} {unwritable} {above:?}");
}

/// P6: a row is marked exactly where it is of a plain payload or of the last block. Judged by another reading: with the last block's type
/// changed, exactly its rows are gone, and with the types of all other blocks changed, only they are left.
#[test]
fn rows_of_the_last_block_are_marked() {
    let mut r = Random::new(57);
    let (mut plain, mut first_hand, mut second_hand, mut none) = (0, 0, 0, [0, 0]);
    for _ in 0..100_000 {
        let s = cases::settings(&mut r);
        let packet = cases::packet(&mut r, s, Shape { bytes: 600, rows: 40, alike: false });
        let rows = |packet: &[u8]| -> Option<Vec<Row>> {
            let mut area = vec![0; ROW_AREA];
            let reading = read(s, packet, &mut area).ok()?;
            Some(area.chunks(ROW_WORDS).take(reading.rows as usize).map(Row::from_words).collect())
        };
        let Some(all) = rows(&packet) else {
            continue;
        };
        for row in all.iter().filter(|row| row.class == 0) {
            none[row.primary as usize] += 1;
        }
        if packet[1] & 127 == s.payload_type {
            plain += 1;
            assert!(all.iter().all(|row| row.primary));
            continue;
        }
        // the places of the headers, the last one's among them
        let mut headers = vec![cases::payload_start(&packet)];
        while packet[headers[headers.len() - 1]] & F_BIT != 0 {
            headers.push(headers[headers.len() - 1] + 4);
        }
        let other = s.payload_type ^ 1;
        let last = headers.pop().unwrap();
        let (mut without, mut alone) = (packet.clone(), packet.clone());
        without[last] = other;
        for header in headers {
            alone[header] = F_BIT | other;
        }
        let (without, alone) = (rows(&without).unwrap(), rows(&alone).unwrap());
        assert!(without.iter().all(|row| !row.primary) && alone.iter().all(|row| row.primary));
        assert_eq!([&without[..], &alone[..]].concat(), all);
        first_hand += alone.len();
        second_hand += without.len();
    }
    assert!(plain > 10_000 && first_hand > 10_000 && second_hand > 10_000, "{plain} {first_hand} {second_hand}");
    assert!(none.iter().all(|n| *n > 1000), "{none:?}");
}

/// A copy of a frame, ordered by "better": good over damaged, sound over SID, length, bytes.
type Copy = (bool, bool, usize, Vec<u8>);

/// Demand 3: offers in any order and number, then draws to the end, give each pair heard once, in time order, with its best copy; P6: and
/// marked if some copy of it, the best or not, is first-hand.
#[test]
fn any_order_draws_the_best_copies_in_time_order() {
    let mut r = Random::new(52);
    let (mut judged, mut frames, mut damaged) = (0, 0, 0);
    // frames drawn by mark; and those marked whose best copies are all second-hand
    let (mut marks, mut by_another) = ([0, 0], 0);
    for _ in 0..3000 {
        let s = cases::settings(&mut r);
        let base = if r.percent(50) { 0u32.wrapping_sub(960 * 20) } else { r.word() };
        let reach = r.pick(&[5, 40, 1 << 20]);
        let mut packets: Vec<Vec<u8>> = Vec::new();
        for _ in 0..r.within(1, 30) {
            let time = base.wrapping_add(960 * r.below(reach) as u32);
            let rows = r.pick(&[1, 4, 12]);
            let mut packet = cases::packet_at(&mut r, s, Shape { bytes: 900, rows, alike: true }, time);
            if r.percent(10) {
                cases::damage(&mut r, &mut packet);
            }
            packets.push(packet);
        }
        // The draw list, from the rows that reading gives.
        let from = base.wrapping_sub(1 << 30);
        let mut best: BTreeMap<(u32, u32), Copy> = BTreeMap::new();
        let mut first_hand: BTreeMap<(u32, u32), Vec<Copy>> = BTreeMap::new();
        let mut wide = false;
        for packet in &packets {
            let mut area = vec![0; ROW_AREA];
            let Ok(reading) = read(s, packet, &mut area) else {
                continue;
            };
            for row in area.chunks(ROW_WORDS).take(reading.rows as usize).map(Row::from_words).filter(|row| row.class != 0) {
                let ahead = row.time.wrapping_sub(from);
                wide |= ahead >= 1 << 31;
                let bytes = packet[row.start as usize..(row.start + row.length) as usize].to_vec();
                let copy = (row.class <= 2, row.class == 1 || row.class == 5, bytes.len(), bytes);
                if row.primary {
                    first_hand.entry((ahead, row.channel)).or_default().push(copy.clone());
                }
                let held = best.entry((ahead, row.channel)).or_insert_with(|| copy.clone());
                if copy > *held {
                    *held = copy;
                }
            }
        }
        if wide || best.len() > SLOTS {
            continue;
        }
        judged += 1;
        frames += best.len();
        damaged += best.values().filter(|copy| !copy.0).count();
        marks[1] += first_hand.len();
        marks[0] += best.len() - first_hand.len();
        by_another += first_hand.iter().filter(|(pair, copies)| !copies.contains(&best[pair])).count();
        for _ in 0..2 {
            // some order, some repeated
            let mut order: Vec<usize> = (0..packets.len()).collect();
            for i in (1..order.len()).rev() {
                order.swap(i, r.below(i + 1));
            }
            for _ in 0..r.below(4) {
                let again = order[r.below(order.len())];
                order.push(again);
            }
            let (mut buffer, _) = fresh(s);
            let (mut area, mut store) = (vec![0; ROW_AREA], r.bytes(STORE_BYTES));
            let mut inserted = 0;
            for i in order {
                let (after, verdicts) = offer(&buffer, &packets[i], &mut area, &mut store);
                assert!(is_well_formed(&after));
                assert_eq!(verdicts.is_ok(), read(s, &packets[i], &mut area).is_ok());
                inserted += verdicts.map_or(0, |v| v.inserted as usize);
                buffer = after;
            }
            assert_eq!(inserted, buffer.held());
            let mut out = vec![0; DRAW_AREA];
            for ((ahead, channel), (good, sound, length, bytes)) in &best {
                let class = if *sound { 1 } else { 2 } + if *good { 0 } else { 4 };
                let (after, drawn) = draw(&buffer, &store, &mut out);
                assert!(is_well_formed(&after));
                let primary = first_hand.contains_key(&(*ahead, *channel));
                let expected = Drawn::Frame { time: from.wrapping_add(*ahead), channel: *channel, class, length: *length as u32, primary };
                assert_eq!(drawn, Ok(expected));
                assert_eq!(out[..*length], bytes[..]);
                buffer = after;
            }
            assert_eq!(draw(&buffer, &store, &mut out).1, Ok(Drawn::Empty));
        }
    }
    assert!(judged > 2000 && frames > 20_000 && damaged > 1000, "{judged} {frames} {damaged}");
    assert!(marks.iter().all(|n| *n > 5000) && by_another > 500, "{marks:?} {by_another}");
}

/// P7: from any record that is not refused the sum keeps its bound and the reported numbers their ranges, and the record after a call is not
/// refused; a packet that is not valid changes only what A.1 says, and is not received.
#[test]
fn receptions_keep_their_ranges() {
    let mut r = Random::new(53);
    for _ in 0..300_000 {
        let record = if r.percent(70) { cases::any_reception(&mut r) } else { cases::reception_before_report(&mut r) };
        let Arrival { sequence, timestamp, arrival } = Source::new(&mut r, 100).packet(&mut r, &record);
        let (after, valid) = reception_packet(&record, sequence, timestamp, arrival);
        let (noted, report) = reception_report(&record);
        assert_eq!(valid.is_err(), report.is_err());
        let Ok(report) = report else {
            assert_eq!((after, noted, valid, report), (record, record, Err(15), Err(15)));
            continue;
        };
        assert!(after.jitter <= MAX_JITTER_SUM && after.probation <= MIN_SEQUENTIAL);
        assert!(report.jitter < 1 << 31 && report.fraction_lost <= MAX_FRACTION);
        assert!((MIN_LOST..=MAX_LOST).contains(&report.cumulative_lost));
        assert!(reception_packet(&after, sequence, timestamp, arrival).1.is_ok() && reception_report(&noted).1.is_ok());
        let Reception { expected_prior, received_prior, .. } = noted;
        assert_eq!(noted, Reception { expected_prior, received_prior, ..record });
        // a second report has the same numbers, and nothing since
        let (again, second) = reception_report(&noted);
        assert_eq!((again, second), (noted, Ok(Report { fraction_lost: 0, ..report })));
        if valid == Ok(false) {
            let Reception { jitter, transit, transit_set, received, .. } = after;
            assert_eq!((jitter, transit, transit_set), (record.jitter, record.transit, record.transit_set));
            assert!(received == record.received || (record.started == 0 && received == 0));
            if record.started != 0 && record.probation == 0 {
                assert_eq!(after, Reception { bad: after.bad, ..record });
            }
        }
    }
}

/// P7: n packets in a row from a base raise the highest sequence by n - 1, and nothing is lost; of a stream with losses, each report says how
/// many of those sent since the last one did not come.
#[test]
fn receptions_count_a_stream() {
    let mut r = Random::new(54);
    let mut cycles = 0;
    for round in 0..60 {
        let anywhere = r.word() % SEQUENCES;
        let first = r.pick(&[0, 1, 65_534, 65_535, anywhere]);
        let lossy = round % 3 > 0;
        let mut record = reception_packet(&Reception::default(), (first as u16).wrapping_sub(1), 0, 0).0;
        // sent from the base on, come of them; and both at the last report
        let (mut sent, mut come, mut sent_prior, mut come_prior) = (0u32, 0, 0, 0);
        for _ in 0..r.pick(&[5, 1000, 150_000]) {
            sent += 1;
            if come > 0 && lossy {
                sent += r.pick(&[0, 0, 0, 0, 0, 1, 2, 40]);
            }
            come += 1;
            let (after, valid) = reception_packet(&record, (first + sent - 1) as u16, r.word(), r.word());
            assert_eq!(valid, Ok(true));
            record = after;
            if r.percent(1) || sent < 5 {
                let (after, report) = reception_report(&record);
                let fraction = 256 * ((sent - sent_prior) - (come - come_prior)) / (sent - sent_prior);
                let numbers = Report {
                    fraction_lost: fraction,
                    cumulative_lost: (sent - come) as i32,
                    highest_sequence: first + sent - 1,
                    ..report.unwrap()
                };
                assert_eq!(report, Ok(numbers));
                assert!(lossy || (fraction, sent - come) == (0, 0));
                (record, sent_prior, come_prior) = (after, sent, come);
            }
        }
        cycles += record.cycles / SEQUENCES;
    }
    assert!(cycles > 20, "{cycles}");
}
