//! AMR and AMR-WB (document 02, P1) by RFC 4867's octet-aligned layout, worked out by hand, through the public functions.
//!
//! A payload is the mode byte (CMR in its upper half), an entry for each frame (F, FT in four bits, Q, two bits of padding), and the
//! frames. So `0x3C` is F 0, FT 7, Q 1: a good frame of AMR's 12.2 kbit/s, and `0xBC` the same with another after it.

use reference::*;

const PLAIN: u8 = 97;
const REDUNDANCY: u8 = 121;
const AMR: Settings = Settings { format: 4, channels: 1, payload_type: PLAIN, redundancy_type: REDUNDANCY };
const AMR_WB: Settings = Settings { format: 5, ..AMR };

const SOUND: u32 = 1;
const SID: u32 = 2;
const DAMAGED_SOUND: u32 = 5;
const DAMAGED_SID: u32 = 6;

fn packet(payload_type: u8, time: u32, parts: &[&[u8]]) -> Vec<u8> {
    let mut bytes = vec![0x80, payload_type, 0, 1];
    bytes.extend(time.to_be_bytes());
    bytes.extend([0, 0, 0, 7]);
    for part in parts {
        bytes.extend_from_slice(part);
    }
    bytes
}

/// The rows and the mode request, or the refusal.
fn rows(settings: Settings, packet: &[u8]) -> Result<(Vec<Row>, u32), u32> {
    let mut area = vec![0xdead_beef; ROW_AREA];
    let reading = read(settings, packet, &mut area).map_err(|fault| fault.refusal)?;
    let used = reading.rows as usize * ROW_WORDS;
    assert!(area[used..].iter().all(|word| *word == 0xdead_beef));
    Ok((area[..used].chunks(ROW_WORDS).map(Row::from_words).collect(), reading.mode_request))
}

/// A row of a plain payload or a primary block.
fn row(time: u32, class: u32, start: u32, length: u32) -> Row {
    Row { time, class, channel: 0, primary: true, start, length }
}

fn words(rows: &[Row]) -> Vec<u32> {
    rows.iter().flat_map(Row::words).collect()
}

fn written(settings: Settings, mode_request: u8, rows: &[Row], bytes: &[u8]) -> Result<Vec<u8>, u32> {
    let mut out = vec![0; MAX_PAYLOAD];
    let length = write_payload(settings, mode_request, &words(rows), bytes, &mut out)?;
    Ok(out[..length as usize].to_vec())
}

/// One frame of each type, good and damaged: the entry's byte, the frame's class and length.
#[test]
fn one_frame_of_each_type() {
    let amr = [
        (0x04, SOUND, 12),
        (0x0C, SOUND, 13),
        (0x14, SOUND, 15),
        (0x1C, SOUND, 17),
        (0x24, SOUND, 19),
        (0x2C, SOUND, 20),
        (0x34, SOUND, 26),
        (0x3C, SOUND, 31),
        (0x44, SID, 5),
    ];
    let amr_wb = [
        (0x04, SOUND, 17),
        (0x0C, SOUND, 23),
        (0x14, SOUND, 32),
        (0x1C, SOUND, 36),
        (0x24, SOUND, 40),
        (0x2C, SOUND, 46),
        (0x34, SOUND, 50),
        (0x3C, SOUND, 58),
        (0x44, SOUND, 60),
        (0x4C, SID, 5),
    ];
    for (settings, types) in [(AMR, &amr[..]), (AMR_WB, &amr_wb[..])] {
        for &(entry, class, length) in types {
            let frame: Vec<u8> = (0..length as u8).map(|i| 200 - i).collect();
            let damaged = if class == SOUND { DAMAGED_SOUND } else { DAMAGED_SID };
            for (entry, class) in [(entry, class), (entry & !0x04, damaged)] {
                // mode request 6; the four reserved bits and the two of padding are passed over
                for noise in [0, 3] {
                    let whole = packet(PLAIN, 50, &[&[0x60 | noise << 2 | noise, entry | noise], &frame]);
                    assert_eq!(rows(settings, &whole), Ok((vec![row(50, class, 14, length)], 6)));
                }
                let payload = written(settings, 6, &[row(50, class, 0, length)], &frame).unwrap();
                assert_eq!(payload, [&[0x60, entry][..], &frame].concat());
                // a byte more or less
                assert_eq!(rows(settings, &packet(PLAIN, 50, &[&[0x60, entry], &frame, &[0]])), Err(10));
                assert_eq!(rows(settings, &packet(PLAIN, 50, &[&[0x60, entry], &frame[1..]])), Err(10));
            }
        }
    }
}

/// Type 15, and 14 in AMR-WB, is no data whatever its quality bit, and is written as 7C.
#[test]
fn no_data() {
    for (settings, entries) in [(AMR, &[0x7C, 0x78, 0x7F][..]), (AMR_WB, &[0x7C, 0x78, 0x74, 0x70, 0x7B][..])] {
        for entry in entries {
            assert_eq!(rows(settings, &packet(PLAIN, 9, &[&[0xF0, *entry]])), Ok((vec![row(9, 0, 14, 0)], 15)));
        }
        assert_eq!(written(settings, 15, &[row(9, 0, 0, 0)], &[]), Ok(vec![0xF0, 0x7C]));
    }
}

/// AMR's types 9 to 14 and AMR-WB's 10 to 13 are 7, whatever the other bits.
#[test]
fn reserved_types() {
    for (settings, types) in [(AMR, 9..=14u8), (AMR_WB, 10..=13)] {
        for kind in types {
            for rest in [0x00, 0x04, 0x03, 0x80, 0x87] {
                assert_eq!(rows(settings, &packet(PLAIN, 0, &[&[0xF0, kind << 3 | rest], &[0; 40]])), Err(7));
            }
        }
    }
}

/// An empty payload, a mode byte alone, and a table that has no end are 6; 6 is asked of an entry before 7, 7 before 9.
#[test]
fn tables_that_run_out() {
    for settings in [AMR, AMR_WB] {
        for payload in [&[][..], &[0xF0], &[0xF0, 0x84], &[0xF0, 0xFC, 0xFC]] {
            assert_eq!(rows(settings, &packet(PLAIN, 0, &[payload])), Err(6));
        }
        assert_eq!(rows(settings, &packet(PLAIN, 0, &[&[0xF0, 0xFC, 0x58]])), Err(7));
        // 384 rows of no data are the most; with one more 9, but 7 where that is of a reserved type
        let most = [&[0xFC; 383][..], &[0x7C]].concat();
        assert_eq!(rows(settings, &packet(PLAIN, 0, &[&[0xF0], &most])).map(|(rows, _)| rows.len()), Ok(384));
        assert_eq!(rows(settings, &packet(PLAIN, 0, &[&[0xF0, 0xFC], &most])), Err(9));
        assert_eq!(rows(settings, &packet(PLAIN, 0, &[&[0xF0], &[0xFC; 384], &[0x58]])), Err(7));
        assert_eq!(rows(settings, &packet(PLAIN, 0, &[&[0xF0], &[0xFC; 384]])), Err(6));
    }
}

/// RFC 4867, 4.3: several frames. AMR: 12.2 kbit/s good, 4.75 damaged, no data, SID good, SID damaged, in steps of 160 ticks across the
/// wrap; all entries come first.
#[test]
fn several_frames_of_amr() {
    let table = [0x20, 0xBC, 0x80, 0xFC, 0xC4, 0x40];
    let frames = [&[1; 31][..], &[2; 12], &[3; 5], &[4; 5]].concat();
    let time = 4294967136;
    let expected =
        [row(time, SOUND, 18, 31), row(0, DAMAGED_SOUND, 49, 12), row(160, 0, 61, 0), row(320, SID, 61, 5), row(480, DAMAGED_SID, 66, 5)];
    let whole = packet(PLAIN, time, &[&table, &frames]);
    assert_eq!(rows(AMR, &whole), Ok((expected.to_vec(), 2)));
    assert_eq!(written(AMR, 2, &expected, &whole).unwrap(), whole[12..]);
}

/// AMR-WB: 23.85 kbit/s damaged, no data as type 14, SID good, 6.60 good, in steps of 320 ticks.
#[test]
fn several_frames_of_amr_wb() {
    let frames = [&[1; 60][..], &[3; 5], &[4; 17]].concat();
    let expected = [row(7, DAMAGED_SOUND, 17, 60), row(327, 0, 77, 0), row(647, SID, 77, 5), row(967, SOUND, 82, 17)];
    let whole = packet(PLAIN, 7, &[&[0x8F, 0xC0, 0xF0, 0xCC, 0x04], &frames]);
    assert_eq!(rows(AMR_WB, &whole), Ok((expected.to_vec(), 8)));
    // written: the reserved bits 0, and no data as type 15 with the bit set
    assert_eq!(written(AMR_WB, 8, &expected, &whole).unwrap(), [&[0x80, 0xC0, 0xFC, 0xCC, 0x04], &frames[..]].concat());
}

/// A redundant block 160 ticks before: each block has a mode byte of its own. The last with rows says the mode request.
#[test]
fn with_redundancy() {
    let old = [&[0x10, 0x3C][..], &[1; 31]].concat();
    let new = [&[0x50, 0x44][..], &[2; 5]].concat();
    // F 1, type 97, offset 160 = 0b00000010100000, length 33 = 0b0000100001; then type 97
    let headers = [0xE1, 0x02, 0x80, 0x21, 0x61];
    let whole = packet(REDUNDANCY, 1000, &[&headers, &old, &new]);
    let expected = [Row { primary: false, ..row(840, SOUND, 19, 31) }, row(1000, SID, 52, 5)];
    assert_eq!(rows(AMR, &whole), Ok((expected.to_vec(), 5)));

    // an empty primary block, one of another type: the redundant block's
    assert_eq!(rows(AMR, &packet(REDUNDANCY, 1000, &[&headers, &old])), Ok((vec![expected[0]], 1)));
    let other = [0xE1, 0x02, 0x80, 0x21, 0x62];
    assert_eq!(rows(AMR, &packet(REDUNDANCY, 1000, &[&other, &old, &new])), Ok((vec![expected[0]], 1)));
    // no block with rows: 15
    assert_eq!(rows(AMR, &packet(REDUNDANCY, 1000, &[&[0x61]])), Ok((vec![], 15)));
    assert_eq!(rows(AMR, &packet(REDUNDANCY, 1000, &[&[0x62], &new])), Ok((vec![], 15)));
    // a block of the mode byte alone is 6
    assert_eq!(rows(AMR, &packet(REDUNDANCY, 1000, &[&[0xE1, 0, 0, 1, 0x61], &[0x10], &new])), Err(6));

    // written: one number in every block
    let mut out = vec![0; MAX_PACKET];
    let length = write_packet(AMR, 9, false, 1, 7, &[1, 1], &words(&expected), &whole, &mut out).unwrap() as usize;
    let both = [&[0x90, 0x3C][..], &[1; 31], &[0x90, 0x44], &[2; 5]].concat();
    assert_eq!(out[..length], packet(REDUNDANCY, 1000, &[&headers, &both]));
    assert_eq!(rows(AMR, &out[..length]), Ok((expected.to_vec(), 9)));
}

/// Kinds 1 to 3 have no mode request: 15 is read, none is written, and over 15 is 11 in every kind.
#[test]
fn mode_requests() {
    for (format, length, entry) in [(1, 80, 0x20), (2, 80, 0x20), (3, 14, 0), (4, 31, 0x3C), (5, 17, 0x04)] {
        let settings = Settings { format, ..AMR };
        let list = [row(0, SOUND, 0, length)];
        let bytes = vec![1; length as usize];
        for mode_request in 0..=255u8 {
            let payload = written(settings, mode_request, &list, &bytes);
            let mut out = vec![0; MAX_PACKET];
            let whole = write_packet(settings, mode_request, false, 1, 7, &[1], &words(&list), &bytes, &mut out);
            if mode_request > 15 {
                assert_eq!((payload, whole), (Err(11), Err(11)));
                continue;
            }
            let head = match format {
                1 => vec![entry, 1],
                2 => vec![entry, 1, 0],
                3 => vec![entry],
                _ => vec![mode_request << 4, entry],
            };
            let payload = payload.unwrap();
            assert_eq!(payload, [&head[..], &bytes[..]].concat());
            out.truncate(whole.unwrap() as usize);
            assert_eq!(out, packet(PLAIN, 0, &[&payload]));
            let (_, back) = rows(settings, &out).unwrap();
            assert_eq!(back, if format > 3 { mode_request as u32 } else { 15 });
        }
        // before 14 and 13
        assert_eq!(written(settings, 16, &[row(0, SOUND, 1, length)], &bytes), Err(11));
        assert_eq!(written(settings, 15, &[row(0, SOUND, 1, length)], &bytes), Err(14));
        assert_eq!(written(settings, 16, &[], &bytes), Err(11));
        // kinds 1 to 3 have no damaged frames
        for class in [DAMAGED_SOUND, DAMAGED_SID] {
            let fits = format > 3 && class == DAMAGED_SOUND;
            assert_eq!(written(settings, 0, &[row(0, class, 0, length)], &bytes).is_ok(), fits);
        }
    }
}

/// Only mono.
#[test]
fn settings_in_range() {
    for (format, channels, fine) in
        [(4, 1, true), (5, 1, true), (4, 2, false), (5, 2, false), (4, 0, false), (5, 0, false), (6, 1, false), (0, 1, false)]
    {
        let settings = Settings { format, channels, ..AMR };
        assert_eq!(settings.in_range(), fine);
        assert_eq!(fresh(settings).1, if fine { Ok(()) } else { Err(11) });
    }
}

fn offered(buffer: &Buffer, store: &mut [u8], packet: &[u8]) -> (Buffer, Verdicts) {
    let mut area = vec![0; ROW_AREA];
    let (after, verdicts) = offer(buffer, packet, &mut area, store);
    (after, verdicts.unwrap())
}

/// Copies of one frame, each better than those before it: whichever of two comes first, the better one is held.
#[test]
fn better_copies() {
    let copies: [(u8, u32, Vec<u8>); 9] = [
        (0x40, DAMAGED_SID, vec![9; 5]),
        (0x00, DAMAGED_SOUND, vec![9; 12]),
        (0x38, DAMAGED_SOUND, vec![1; 31]),
        // the unused bits at the end count
        (0x38, DAMAGED_SOUND, [vec![1; 30], vec![2]].concat()),
        (0x44, SID, vec![1; 5]),
        (0x44, SID, vec![2; 5]),
        (0x04, SOUND, vec![9; 12]),
        (0x3C, SOUND, vec![0; 31]),
        (0x3C, SOUND, vec![1; 31]),
    ];
    let (empty, _) = fresh(AMR);
    for (i, (entry, class, bytes)) in copies.iter().enumerate() {
        for (j, (other_entry, other_class, other)) in copies.iter().enumerate() {
            let mut store = vec![7; STORE_BYTES];
            let (held, first) = offered(&empty, &mut store, &packet(PLAIN, 5, &[&[0xF0, *entry], bytes]));
            assert_eq!(first, Verdicts { inserted: 1, ..Verdicts::default() });
            let (after, second) = offered(&held, &mut store, &packet(PLAIN, 5, &[&[0xF0, *other_entry], other]));
            let better = (j > i) as u32;
            assert_eq!(second, Verdicts { better, repeated: 1 - better, ..Verdicts::default() });
            let (class, best) = if j > i { (other_class, other) } else { (class, bytes) };
            let mut area = vec![0; DRAW_AREA];
            let (_, frame) = draw(&after, &store, &mut area);
            assert_eq!(frame, Ok(Drawn::Frame { time: 5, channel: 0, class: *class, length: best.len() as u32, primary: true }));
            assert_eq!(area[..best.len()], best[..]);
        }
    }
}

/// "A sound take allows the new sorts and lengths": those that reading can give, and no others.
#[test]
fn well_formed_buffers() {
    for format in 1..=5u8 {
        let settings = Settings { format, ..AMR };
        for class in 0..=8 {
            for length in 0..=400 {
                let mut buffer = fresh(settings).0;
                buffer.occupied[0] = 1;
                buffer.tags[0] = 256 * class;
                buffer.lengths[0] = length;
                let fits = match (format, class) {
                    (1 | 2, 1) => matches!(length, 80..=220 if length % 10 == 0) || matches!(length, 240..=320 if length % 20 == 0),
                    (3, 1 | 2) => length == 14,
                    (4, 1 | 5) => [12, 13, 15, 17, 19, 20, 26, 31].contains(&length),
                    (5, 1 | 5) => [17, 23, 32, 36, 40, 46, 50, 58, 60].contains(&length),
                    (4 | 5, 2 | 6) => length == 5,
                    _ => false,
                };
                assert_eq!(is_well_formed(&buffer), fits, "{format} {class} {length}");
            }
        }
    }
}

/// No data gives no entry; frames of AMR-WB are drawn in time order, damaged ones too.
#[test]
fn gathered() {
    let (buffer, _) = fresh(AMR_WB);
    let (mut store, mut area) = (vec![0; STORE_BYTES], vec![0; DRAW_AREA]);
    let late = packet(PLAIN, 640, &[&[0xF0, 0xF4, 0x40], &[1; 60]]);
    let early = packet(PLAIN, 0, &[&[0x20, 0xCC, 0x04], &[2; 5], &[3; 17]]);
    let (buffer, verdicts) = offered(&buffer, &mut store, &late);
    assert_eq!(verdicts, Verdicts { inserted: 1, ..Verdicts::default() });
    let (mut buffer, verdicts) = offered(&buffer, &mut store, &early);
    assert_eq!(verdicts, Verdicts { inserted: 2, ..Verdicts::default() });
    for (time, class, bytes) in [(0, SID, &[2; 5][..]), (320, SOUND, &[3; 17]), (960, DAMAGED_SOUND, &[1; 60])] {
        let (after, frame) = draw(&buffer, &store, &mut area);
        assert_eq!(frame, Ok(Drawn::Frame { time, channel: 0, class, length: bytes.len() as u32, primary: true }));
        assert_eq!(&area[..bytes.len()], bytes);
        buffer = after;
    }
    assert_eq!(draw(&buffer, &store, &mut area).1, Ok(Drawn::Empty));
}

/// The largest payload: 63 frames of 31 bytes and 19 of no data make 1 + 82 + 1953 = 2036 bytes; one more of no data is 13.
#[test]
fn the_most_bytes() {
    let list = |none: u32| -> Vec<Row> {
        (0..63 + none).map(|i| if i < 63 { row(160 * i, SOUND, 0, 31) } else { row(160 * i, 0, 0, 0) }).collect()
    };
    assert_eq!(written(AMR, 0, &list(19), &[5; 31]).map(|payload| payload.len()), Ok(MAX_PAYLOAD));
    assert_eq!(written(AMR, 0, &list(20), &[5; 31]), Err(13));
}
