//! Refusal 13 is given exactly when no plain payload reads to the list: all tables for small lists are tried.

use reference::*;

/// All tables that a payload of `blocks` frame-blocks can have with frame lengths 0, 80 and 90 and displacements 0 to
/// 2, each entry's DIS1 among them, as bytes.
fn tables(format: u8, blocks: usize) -> Vec<Vec<u8>> {
    let mut all = Vec::new();
    for count in 1..=blocks {
        for code in [0u8, 8, 9] {
            let mut displacements = vec![vec![]];
            if format == 2 {
                for _ in 0..count {
                    displacements = displacements.iter().flat_map(|d| [0, 1, 2].map(|next| [&d[..], &[next]].concat())).collect();
                }
            }
            for mut list in displacements {
                if list.len() % 2 == 1 {
                    list.push(0);
                }
                let rests = if count == blocks { vec![vec![]] } else { tables(format, blocks - count) };
                for rest in rests {
                    let another = if count == blocks { 0 } else { F_BIT };
                    let mut table = vec![another + 4 * code, count as u8];
                    if format == 2 {
                        table.extend(list.chunks(2).map(|two| 16 * two[0] + two[1]));
                    }
                    table.extend(rest);
                    all.push(table);
                }
            }
        }
    }
    all
}

/// The times, tags and lengths that a table reads to, at time 0, the mark left out; its sound is a whole number of `unit` bytes.
fn reads_to(settings: Settings, table: &[u8], unit: usize) -> Vec<(u32, u32, u32)> {
    let mut packet = vec![0x80, 97, 0, 0, 0, 0, 0, 0, 0, 0, 0, 0];
    packet.extend_from_slice(table);
    for _ in 0..200 {
        let mut area = vec![0; ROW_AREA];
        if let Ok(reading) = read(settings, &packet, &mut area) {
            return area[..ROW_WORDS * reading.rows as usize].chunks(ROW_WORDS).map(|row| (row[0], row[1] & !PRIMARY, row[3])).collect();
        }
        packet.extend(vec![0; unit]);
    }
    panic!("no length of sound fits {table:?}");
}

#[test]
fn thirteen_exactly_when_no_table_reads_to_it() {
    // of six channels no more frame-blocks than fit a packet
    for (format, channels, most) in [(1, 1, 4), (2, 1, 4), (1, 2, 4), (2, 2, 4), (1, 6, 3), (2, 6, 3)] {
        let settings = Settings { format, channels, payload_type: 97, redundancy_type: NO_REDUNDANCY };
        let (mut written, mut refused) = (0, 0);
        for blocks in 1..=most {
            let unit = 10 * channels as usize;
            let readable: std::collections::HashSet<_> = tables(format, blocks).iter().map(|t| reads_to(settings, t, unit)).collect();
            // Every list of this many frame-blocks with steps 0 to 3 and those lengths, classes 0 and 1.
            let choices = 4 * 3;
            for number in 0..(choices as u32).pow(blocks as u32) {
                let mut rest = number;
                let mut time = 0u32;
                let mut list = Vec::new();
                for block in 0..blocks {
                    let (step, length) = (rest % 4, [0, 80, 90][(rest / 4 % 3) as usize]);
                    rest /= choices;
                    if block > 0 {
                        time += 960 * step;
                    }
                    for channel in 0..channels as u32 {
                        list.push((time, if length == 0 { channel } else { 256 + channel }, length));
                    }
                }
                let words: Vec<u32> = list.iter().flat_map(|row| [row.0, row.1, 0, row.2]).collect();
                let answer = write_payload(settings, NO_MODE_REQUEST, &words, &[0; 90], &mut [0; MAX_PAYLOAD]);
                if readable.contains(&list) {
                    assert!(answer.is_ok(), "{list:?}");
                    written += 1;
                } else {
                    assert_eq!(answer, Err(13), "{list:?}");
                    refused += 1;
                }
            }
        }
        assert!(written > 100 && refused > 100);
    }
}

/// AMR and AMR-WB: lists of one and two frames of every class and length, against all tables of one and two entries.
#[test]
fn thirteen_exactly_when_no_amr_table_reads_to_it() {
    for (format, step) in [(4, 160u32), (5, 320)] {
        let settings = Settings { format, channels: 1, payload_type: 97, redundancy_type: NO_REDUNDANCY };
        let mut readable = std::collections::HashSet::new();
        for first in 0..=255u8 {
            // the mode byte, then the entries; those that end the table, and those with another after them
            let seconds: Vec<Option<u8>> = if first & F_BIT == 0 { vec![None] } else { (0..128).map(Some).collect() };
            for second in seconds {
                let mut table = vec![0xF0, first];
                table.extend(second);
                let entries = &table[1..];
                let known = |entry: &u8| {
                    let code = entry >> 3 & 15;
                    code == 15 || (format == 5 && code == 14) || code < if format == 4 { 9 } else { 10 }
                };
                if entries.iter().all(known) {
                    readable.insert(reads_to(settings, &table, 1));
                }
            }
        }
        let (mut written, mut refused) = (0, 0);
        let mut judge = |list: Vec<(u32, u32, u32)>| {
            let words: Vec<u32> = list.iter().flat_map(|row| [row.0, row.1, 0, row.2]).collect();
            let answer = write_payload(settings, 7, &words, &[0; 90], &mut [0; MAX_PAYLOAD]);
            if readable.contains(&list) {
                assert!(answer.is_ok(), "{format} {list:?}");
                written += 1;
            } else {
                assert_eq!(answer, Err(13), "{format} {list:?}");
                refused += 1;
            }
        };
        for class in 0..=8 {
            for length in 0..=61 {
                judge(vec![(0, 256 * class, length)]);
                judge(vec![(0, 256 * class + 1, length)]);
                for (other, ticks) in
                    [(0, step), (1, step), (5, step), (6, step), (2, 0), (2, step - 1), (2, step + 1), (2, 2 * step), (2, step)]
                {
                    let other_length = if other == 0 {
                        0
                    } else if other % 4 == 2 {
                        5
                    } else {
                        17
                    };
                    judge(vec![(0, 256 * class, length), (ticks, 256 * other, other_length)]);
                }
            }
        }
        assert!(written > 100 && refused > 1000, "{written} {refused}");
    }
}

/// The fewest bytes that entries of these many frame-blocks can take, however they are cut: "a byte counting frame-blocks" says 1 to 255,
/// and kind 2 has four bits for each, and four more if the number is odd.
fn shortest_entries(format: u8, blocks: usize) -> usize {
    let mut shortest = vec![0];
    for n in 1..=blocks {
        let size = |last: usize| 2 + if format == 2 { last.div_ceil(2) } else { 0 };
        shortest.push((1..=n.min(255)).map(|last| shortest[n - last] + size(last)).min().unwrap());
    }
    shortest[blocks]
}

/// Lists with long runs of no data between frames, of about 2,036 bytes: 13 exactly where no way of cutting the runs into entries has room.
/// Where there is one, the payload written is one of the shortest.
#[test]
fn thirteen_exactly_by_size_with_long_runs() {
    let lengths: Vec<usize> = (80..=220).step_by(10).chain((240..=320).step_by(20)).collect();
    for format in [1, 2] {
        let settings = Settings { format, channels: 1, payload_type: 97, redundancy_type: NO_REDUNDANCY };
        let mut seen = std::collections::BTreeSet::new();
        for none in 1..=MAX_ROWS {
            let quiet = shortest_entries(format, none);
            for before in 0..=6usize {
                for after in 1..=4usize {
                    for length in lengths.iter().filter(|length| **length != 320) {
                        let tables = quiet + shortest_entries(format, before) + shortest_entries(format, after);
                        let size = tables + 320 * before + length * after;
                        if before + none + after > MAX_ROWS || !(MAX_PAYLOAD - 6..=MAX_PAYLOAD + 6).contains(&size) {
                            continue;
                        }
                        let runs = [(320, before), (0, none), (*length as u32, after)];
                        let frames = runs.iter().flat_map(|(length, blocks)| vec![*length; *blocks]);
                        let words: Vec<u32> =
                            frames.enumerate().flat_map(|(i, length)| [960 * i as u32, length.min(1) * 256, 0, length]).collect();
                        let answer = write_payload(settings, NO_MODE_REQUEST, &words, &[0; SLOT_BYTES], &mut [0; MAX_PAYLOAD]);
                        let expected = if size <= MAX_PAYLOAD { Ok(size as u32) } else { Err(NOT_WRITABLE) };
                        assert_eq!(answer, expected, "{format} {runs:?}");
                        seen.insert((none > 255, size));
                    }
                }
            }
        }
        // in kind 1 the run over 255 is what is too much: tables of 6 bytes, or 8; in kind 2 there is every size
        let sizes = |long| seen.iter().filter(|(over, _)| *over == long).map(|(_, size)| *size).collect::<Vec<_>>();
        let every: Vec<usize> = (MAX_PAYLOAD - 6..=MAX_PAYLOAD + 6).collect();
        assert_eq!([sizes(false), sizes(true)], if format == 1 { [vec![2036], vec![2038]] } else { [every.clone(), every] });
    }
}

#[test]
fn edges_of_the_sizes() {
    let settings = Settings { format: 1, channels: 1, payload_type: 97, redundancy_type: 121 };
    let list = |lengths: &[u32]| -> Vec<u32> {
        lengths.iter().enumerate().flat_map(|(i, length)| [i as u32 * 960, if *length == 0 { 0 } else { 256 }, 0, *length]).collect()
    };
    let bytes = [3; SLOT_BYTES];
    let mut out = vec![0; 4096];
    // six frames of 320 and one of 110, in two entries: 4 + 2030 = 2034; with a third entry of no data 2036; with a fourth 2038
    let mut lengths = vec![320, 320, 320, 320, 320, 320, 110];
    assert_eq!(write_payload(settings, NO_MODE_REQUEST, &list(&lengths), &bytes, &mut out), Ok(2034));
    lengths.push(0);
    assert_eq!(write_payload(settings, NO_MODE_REQUEST, &list(&lengths), &bytes, &mut out), Ok(MAX_PAYLOAD as u32));
    assert_eq!(write_payload(settings, NO_MODE_REQUEST, &list(&lengths), &bytes, &mut out[..MAX_PAYLOAD - 1]), Err(12));
    assert_eq!(write_packet(settings, NO_MODE_REQUEST, true, 1, 2, &[8], &list(&lengths), &bytes, &mut out), Ok(MAX_PACKET as u32));
    lengths.insert(0, 0);
    assert_eq!(write_payload(settings, NO_MODE_REQUEST, &list(&lengths), &bytes, &mut out), Err(13));
    // the most rows, of no data, in two entries; and one more
    assert_eq!(write_payload(settings, NO_MODE_REQUEST, &list(&[0; MAX_ROWS]), &[], &mut out), Ok(4));
    assert_eq!(write_payload(settings, NO_MODE_REQUEST, &list(&[0; MAX_ROWS + 1]), &[], &mut out), Err(13));
    // an empty list, a part of a row, a row outside
    assert_eq!(write_payload(settings, NO_MODE_REQUEST, &[], &bytes, &mut out), Err(13));
    assert_eq!(write_payload(settings, NO_MODE_REQUEST, &[0, 256, 0, 80, 0], &bytes, &mut out), Err(13));
    assert_eq!(write_payload(settings, NO_MODE_REQUEST, &[0, 256, 241, 80, 0], &bytes, &mut out), Err(14));
    assert_eq!(write_payload(settings, NO_MODE_REQUEST, &[0, 0, u32::MAX, u32::MAX], &bytes, &mut out), Err(14));
    // offsets of 16383 and 16384
    let two = |first: u32| [first, 256, 0, 80, 20000, 256, 0, 80];
    assert_eq!(write_packet(settings, NO_MODE_REQUEST, false, 1, 2, &[1, 1], &two(20000 - 16383), &bytes, &mut out), Ok(12 + 5 + 164));
    assert_eq!(out[12..17], [0xE1, 0xFF, 0xFC, 0x52, 0x61]);
    assert_eq!(write_packet(settings, NO_MODE_REQUEST, false, 1, 2, &[1, 1], &two(20000 - 16384), &bytes, &mut out), Err(13));
}
