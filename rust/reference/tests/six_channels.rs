//! Document 02, P12, through the public functions: "Channels go to 1 to 6 for kinds 1 and 2, rows to 384, row area to 1,536 words; slots stay
//! 192. Refusals 9, 11, 12, 13, 15 and 19 read with these figures. A run over 255 frame-blocks is written as 254, then the rest. Old logs read
//! as before."

use reference::*;

const PLAIN: u8 = 97;
const REDUNDANCY: u8 = 98;

fn settings(format: u8, channels: u8) -> Settings {
    Settings { format, channels, payload_type: PLAIN, redundancy_type: REDUNDANCY }
}

fn packet(time: u32, parts: &[&[u8]]) -> Vec<u8> {
    let mut bytes = vec![0x80, PLAIN, 0, 1];
    bytes.extend(time.to_be_bytes());
    bytes.extend([0, 0, 0, 7]);
    bytes.extend(parts.concat());
    bytes
}

/// The rows of a packet; or refusal and offset.
fn rows(settings: Settings, packet: &[u8]) -> Result<Vec<Row>, (u32, u32)> {
    let mut area = vec![0xdead_beef; 1536];
    let reading = read(settings, packet, &mut area).map_err(|fault| (fault.refusal, fault.offset))?;
    let used = reading.rows as usize * 4;
    assert!(area[used..].iter().all(|word| *word == 0xdead_beef));
    Ok(area[..used].chunks(4).map(Row::from_words).collect())
}

fn words(rows: &[Row]) -> Vec<u32> {
    rows.iter().flat_map(Row::words).collect()
}

fn written(settings: Settings, rows: &[Row], bytes: &[u8]) -> Result<Vec<u8>, u32> {
    let mut out = vec![0; 2036];
    let length = write_payload(settings, 15, &words(rows), bytes, &mut out)?;
    Ok(out[..length as usize].to_vec())
}

/// Rows of no data, so many frame-blocks, each so many steps after the one before.
fn no_data(channels: u32, blocks: u32, steps: u32) -> Vec<Row> {
    let row = |block: u32, channel| Row { time: 960 * steps * block, class: 0, channel, primary: true, start: 0, length: 0 };
    (0..blocks).flat_map(|block| (0..channels).map(move |channel| row(block, channel))).collect()
}

/// Sound in which every frame has bytes of its own number.
fn numbered(frames: &[usize]) -> Vec<u8> {
    frames.iter().enumerate().flat_map(|(i, length)| vec![i as u8 + 1; *length]).collect()
}

/// "frame-block by frame-block, channels 0, 1 within each", up to the sixth: two frame-blocks of 80 bytes and one of 90.
#[test]
fn basic() {
    for channels in 1..=6usize {
        let lengths = [vec![80; 2 * channels], vec![90; channels]].concat();
        let sound = numbered(&lengths);
        let whole = packet(1000, &[&[0xA0, 2, 0x24, 1], &sound]);
        let found = rows(settings(1, channels as u8), &whole).unwrap();
        let mut start = 16;
        for (i, length) in lengths.iter().enumerate() {
            let (time, channel) = (1000 + 960 * (i / channels) as u32, (i % channels) as u32);
            assert_eq!(found[i], Row { time, class: 1, channel, primary: true, start: start as u32, length: *length as u32 });
            assert!(whole[start..start + length].iter().all(|byte| *byte == i as u8 + 1));
            start += length;
        }
        assert_eq!(found.len(), lengths.len());
        assert_eq!(written(settings(1, channels as u8), &found, &whole).unwrap(), whole[12..]);
    }
}

/// Two frame-blocks with a gap of 4 between them, a gap of 2, and one of another length; the first DIS1 is passed over and written as 0.
#[test]
fn interleaved() {
    for channels in 1..=6usize {
        let lengths = [vec![80; 2 * channels], vec![90; channels]].concat();
        let sound = numbered(&lengths);
        let whole = packet(4294966336, &[&[0xA0, 2, 0x94, 0x24, 1, 0x20], &sound]);
        let found = rows(settings(2, channels as u8), &whole).unwrap();
        let expected: Vec<_> = [4294966336, 3840, 6720].into_iter().flat_map(|time| (0..channels as u32).map(move |c| (time, c))).collect();
        assert_eq!(found.iter().map(|row| (row.time, row.channel)).collect::<Vec<_>>(), expected);
        assert!(found.iter().enumerate().all(|(i, row)| whole[row.start as usize] == i as u8 + 1 && row.length as usize == lengths[i]));
        let back = written(settings(2, channels as u8), &found, &whole).unwrap();
        assert_eq!(back, [&[0xA0, 2, 0x04, 0x24, 1, 0x20][..], &sound].concat());
    }
}

/// "channels of a frame-block together": of all orders of a frame-block's channels only one can be written, and none with a channel missing
/// or a seventh; nor frames of two lengths in a frame-block.
#[test]
fn frame_blocks_to_write() {
    for format in [1, 2] {
        let block = |channels: &[u32]| -> Vec<Row> {
            channels.iter().map(|channel| Row { time: 5, class: 1, channel: *channel, primary: false, start: 0, length: 80 }).collect()
        };
        let mut orders = vec![vec![]];
        for _ in 0..6 {
            orders = orders
                .iter()
                .flat_map(|order: &Vec<u32>| (0..6).filter(|c| !order.contains(c)).map(|c| [&order[..], &[c]].concat()).collect::<Vec<_>>())
                .collect();
        }
        assert_eq!(orders.len(), 720);
        for order in &orders {
            let answer = written(settings(format, 6), &block(order), &[0; 80]);
            assert_eq!(answer.is_ok(), order[..] == [0, 1, 2, 3, 4, 5]);
            assert!(answer.is_ok() || answer == Err(13));
        }
        for channels in [&[0, 1, 2, 3, 4][..], &[0, 1, 2, 3, 4, 6], &[0, 1, 2, 3, 4, 5, 6], &[0, 1, 2, 3, 4, 5, 0], &[1, 2, 3, 4, 5, 6]] {
            assert_eq!(written(settings(format, 6), &block(channels), &[0; 80]), Err(13));
        }
        for other in 0..6 {
            let mut uneven = block(&[0, 1, 2, 3, 4, 5]);
            uneven[other].length = 90;
            assert_eq!(written(settings(format, 6), &uneven, &[0; 90]), Err(13));
            uneven[other].length = 80;
            uneven[other].time += 960;
            assert_eq!(written(settings(format, 6), &uneven, &[0; 90]), Err(13));
        }
    }
}

/// "A run over 255 frame-blocks is written as 254, then the rest."
#[test]
fn runs_over_255() {
    for (blocks, counts) in [(254, &[254][..]), (255, &[255]), (256, &[254, 2]), (257, &[254, 3]), (383, &[254, 129]), (384, &[254, 130])] {
        let list = no_data(1, blocks, 1);
        let (last, first) = counts.split_last().unwrap();
        let entries = |more: &dyn Fn(u8) -> Vec<u8>| -> Vec<u8> {
            let others = first.iter().flat_map(|count| [&[0x80, *count][..], &more(*count)].concat());
            others.chain([&[0x00, *last][..], &more(*last)].concat()).collect()
        };
        let basic = entries(&|_| vec![]);
        assert_eq!(written(settings(1, 1), &list, &[]).unwrap(), basic);
        let next = entries(&|count| vec![0; count.div_ceil(2) as usize]);
        assert_eq!(written(settings(2, 1), &list, &[]).unwrap(), next);
        for (format, payload) in [(1, &basic), (2, &next)] {
            let back = rows(settings(format, 1), &packet(0, &[payload])).unwrap();
            assert_eq!(back.len(), blocks as usize);
            assert!(back.iter().enumerate().all(|(i, row)| (row.time, row.length) == (960 * i as u32, 0)));
        }
    }
    // the second entry's DIS1 says the gap across the cut; 130 frame-blocks follow one another in steps of 6, and the first stands at its time
    let far = written(settings(2, 1), &no_data(1, 384, 6), &[]).unwrap();
    assert_eq!(far, [&[0x80, 254, 0x05][..], &[0x55; 126], &[0x00, 130], &[0x55; 65]].concat());
    assert_eq!(rows(settings(2, 1), &packet(0, &[&far])).unwrap().last().unwrap().time, 383 * 6 * 960);
    // other runs beside it: sound, then 300 of no data, then sound
    let mut list = no_data(1, 302, 1);
    for i in [0, 301] {
        list[i] = Row { class: 1, length: 80, ..list[i] };
    }
    assert_eq!(written(settings(1, 1), &list, &[7; 80]).unwrap(), [&[0xA0, 1, 0x80, 254, 0x80, 46, 0x20, 1][..], &[7; 160]].concat());
    // a reader takes any cut
    for table in [&[0x80, 255, 0x00, 129][..], &[0x80, 130, 0x00, 254], &[0x80, 128, 0x80, 128, 0x00, 128]] {
        assert_eq!(rows(settings(1, 1), &packet(0, &[table])).unwrap().len(), 384);
    }
}

/// 9 and 13: 384 rows in all formats and numbers of channels, no more.
#[test]
fn rows_to_384() {
    for channels in 1..=6u32 {
        // as many frame-blocks as there may be, and one more
        let most = 384 / channels;
        for format in [1, 2] {
            let s = settings(format, channels as u8);
            let payload = written(s, &no_data(channels, most, 1), &[]).unwrap();
            assert_eq!(rows(s, &packet(0, &[&payload])).unwrap().len() as u32, channels * most);
            assert_eq!(written(s, &no_data(channels, most + 1, 1), &[]), Err(13));
        }
        let entries = |blocks: u32| -> Vec<u8> { (1..blocks).flat_map(|_| [0x80, 1]).chain([0x00, 1]).collect() };
        assert_eq!(rows(settings(1, channels as u8), &packet(0, &[&entries(most)])).unwrap().len() as u32, channels * most);
        assert_eq!(rows(settings(1, channels as u8), &packet(0, &[&entries(most + 1)])), Err((9, 12 + 2 * most)));
    }
    assert_eq!(rows(settings(1, 6), &packet(0, &[&[0x00, 65]])), Err((9, 12)));
    // one byte a row: GSM-HR, AMR, AMR-WB
    for (format, step, one) in [(3, 160, 0xF0), (4, 160, 0xFC), (5, 320, 0xFC)] {
        let list = |rows: u32| -> Vec<Row> { no_data(1, rows, 1).iter().map(|row| Row { time: row.time / 960 * step, ..*row }).collect() };
        let payload = written(settings(format, 1), &list(384), &[]).unwrap();
        assert_eq!(payload.len(), if format == 3 { 384 } else { 385 });
        assert_eq!(rows(settings(format, 1), &packet(0, &[&payload])).unwrap().len(), 384);
        assert_eq!(written(settings(format, 1), &list(385), &[]), Err(13));
        let over = [if format == 3 { vec![] } else { vec![0xF0] }, vec![one; 384], vec![one & 0x7F]].concat();
        assert_eq!(rows(settings(format, 1), &packet(0, &[&over])), Err((9, 12 + over.len() as u32 - 1)));
    }
    // of all lists of a packet together
    let mut out = [0; 2048];
    for (counts, answer) in [([200, 184], Ok(12 + 5 + 2 + 2)), ([300, 84], Ok(12 + 5 + 4 + 2)), ([200, 185], Err(13)), ([1, 384], Err(13))]
    {
        let list: Vec<Row> = counts.iter().flat_map(|rows| no_data(1, *rows, 1)).collect();
        assert_eq!(write_packet(settings(1, 1), 15, false, 1, 2, &counts, &words(&list), &[], &mut out), answer);
        if let Ok(length) = answer {
            assert_eq!(rows(settings(1, 1), &out[..length as usize]).unwrap().len(), 384);
        }
    }
}

/// 11: "Channels go to 1 to 6 for kinds 1 and 2"; the others have one.
#[test]
fn settings_in_range() {
    for format in 1..=5 {
        for channels in 0..=255 {
            let s = settings(format, channels);
            let expected = if channels >= 1 && channels <= if format <= 2 { 6 } else { 1 } { Ok(()) } else { Err(11) };
            assert_eq!(fresh(s).1, expected);
            let whole = packet(0, &[&[0x00, 1]]);
            assert_eq!(read(s, &whole, &mut [0; 1536]).map_err(|fault| fault.refusal) == Err(11), expected.is_err());
            assert_eq!(write_payload(s, 15, &[], &[], &mut []), Err(if expected.is_ok() { 13 } else { 11 }));
            assert_eq!(log_write(s, &[], &[], &mut []), Err(if expected.is_ok() { 12 } else { 11 }));
            let mut state = fresh(settings(1, 1)).0;
            state.settings = s;
            let area = &mut [0; DRAW_AREA];
            assert_eq!(draw(&state, &[0; STORE_BYTES], area).1, expected.map(|()| Drawn::Empty));
        }
    }
}

/// 12: "row area to 1,536 words".
#[test]
fn row_areas() {
    let (buffer, whole) = (fresh(settings(1, 6)).0, packet(0, &[&[0x00, 64]]));
    for (words, refusal) in [(512, 12), (1535, 12), (1536, 0), (1537, 0)] {
        let mut area = vec![7; words];
        let answer = read(settings(1, 6), &whole, &mut area).map_or_else(|fault| fault.refusal, |_| 0);
        assert_eq!(answer, refusal);
        assert_eq!(area.iter().filter(|word| **word != 7).count(), if refusal == 0 { 1536 } else { 0 });
        let offered = offer(&buffer, &whole, &mut area, &mut [0; STORE_BYTES]).1;
        assert_eq!(offered.map_or_else(|fault| fault.refusal, |_| 0), refusal);
    }
}

/// Six channels gathered from two packets, the later one first, and drawn: "Pairs (time, channel) compare by time, then channel." 15: "channels
/// in range (the last pair's too)".
#[test]
fn gathered() {
    for format in [1, 2] {
        let s = settings(format, 6);
        let table: &[u8] = if format == 1 { &[0x20, 1] } else { &[0x20, 1, 0x00] };
        let (mut area, mut store, mut frame) = (vec![0; ROW_AREA], vec![0; STORE_BYTES], vec![0; DRAW_AREA]);
        let mut buffer = fresh(s).0;
        for time in [960, 0] {
            let (next, verdicts) = offer(&buffer, &packet(time, &[table, &numbered(&[80; 6])]), &mut area, &mut store);
            assert_eq!(verdicts.unwrap().inserted, 6);
            buffer = next;
        }
        for at in [5, 11] {
            let mut spoiled = buffer;
            spoiled.tags[at] = 65_536 + 256 + 6;
            assert_eq!(draw(&spoiled, &store, &mut frame).1, Err(15));
            assert!(!is_well_formed(&spoiled) && is_well_formed(&buffer));
        }
        for time in [0, 960] {
            for channel in 0..6 {
                let (next, drawn) = draw(&buffer, &store, &mut frame);
                assert_eq!(drawn, Ok(Drawn::Frame { time, channel, class: 1, length: 80, primary: true }));
                assert!(frame[..80].iter().all(|byte| *byte as u32 == channel + 1));
                buffer = next;
                for last_channel in 0..=7 {
                    // with the last pair drawn before the next one held
                    let sound = last_channel < 6 && (last_channel <= channel || time == 960 && channel == 5);
                    assert_eq!(is_well_formed(&Buffer { last_channel, ..buffer }), sound);
                }
            }
        }
        assert_eq!(draw(&buffer, &store, &mut frame).1, Ok(Drawn::Empty));
    }
}

/// "slots stay 192": a packet may bring more frames. 339 SIDs of AMR are 2,035 bytes; the later ones find no room.
#[test]
fn more_frames_than_slots() {
    let payload = [&[0xF0][..], &[0xC4; 338], &[0x44], &[9; 5 * 339]].concat();
    assert_eq!(payload.len(), 2035);
    let (mut area, mut store) = (vec![0; ROW_AREA], vec![0; STORE_BYTES]);
    let (buffer, verdicts) = offer(&fresh(settings(4, 1)).0, &packet(0, &[&payload]), &mut area, &mut store);
    assert_eq!(verdicts, Ok(Verdicts { inserted: 192, no_room: 147, ..Verdicts::default() }));
    assert_eq!((buffer.held(), buffer.times[191]), (192, 191 * 160));
    // again: what is held is repeated
    let (again, verdicts) = offer(&buffer, &packet(0, &[&payload]), &mut area, &mut store);
    assert_eq!(verdicts, Ok(Verdicts { repeated: 192, no_room: 147, ..Verdicts::default() }));
    assert_eq!(again, buffer);
}

/// 19: a log of six channels reads back; one of seven does not, nor a frame of a seventh channel. A log of two channels is the bytes that it
/// was, and a frame of a third channel is no more allowed in it than before.
#[test]
fn logs() {
    let log_of = |s: Settings, channels: u32| -> Result<Vec<u8>, u32> {
        let list: Vec<Row> = (0..channels).map(|c| Row { time: 9, class: 1, channel: c, primary: false, start: c, length: 80 }).collect();
        let mut out = vec![0; 4096];
        let length = log_write(s, &words(&list), &(0..200).collect::<Vec<u8>>(), &mut out)?;
        Ok(out[..length as usize].to_vec())
    };
    for channels in 1..=6u8 {
        let s = Settings { redundancy_type: 128, ..settings(2, channels) };
        let log = log_of(s, channels as u32).unwrap();
        assert_eq!(log[..16], [1, 0, 4, 2, channels, 97, 128, 2, 0, 86, 0, 0, 0, 9, 0, 1]);
        assert_eq!(log[log.len() - 7..], [3, 0, 4, 0, 0, 0, channels]);
        let whole = read_log(&log);
        assert_eq!((whole.settings, whole.refusal), (Some(s), 0));
        for (i, frame) in whole.frames.iter().enumerate() {
            assert_eq!((frame.channel, frame.start, frame.length), (i as u32, 16 + 89 * i as u64, 80));
            assert_eq!(log[frame.start as usize], i as u8);
        }
        assert_eq!(whole.frames.len(), channels as usize);
        assert_eq!(log_of(s, channels as u32 + 1), Err(19));
        // one channel fewer: the frame of the last channel is at fault; and seven channels
        let mut fewer = log.clone();
        fewer[4] -= 1;
        let first = read_log(&fewer);
        assert_eq!((first.frames.len(), first.refusal), (channels as usize - 1, 19));
        fewer[4] = 7;
        assert_eq!((read_log(&fewer).settings, read_log(&fewer).refusal), (None, 19));
        assert_eq!(log_open(&fewer), (LogCursor::default(), Err(19)));
    }
    assert_eq!(log_of(settings(1, 7), 7), Err(11));
}
