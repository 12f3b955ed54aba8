//! Document 02, P5, through the public functions: "only the first entry's DIS1 is passed over. In a later entry it counts the frame-blocks
//! between the previous group's last and this group's first"; "The writer now sets it".

use reference::*;

const SETTINGS: Settings = Settings { format: 2, channels: 1, payload_type: 97, redundancy_type: NO_REDUNDANCY };

fn packet(time: u32, payload: &[u8]) -> Vec<u8> {
    let mut bytes = vec![0x80, 97, 0, 1];
    bytes.extend(time.to_be_bytes());
    bytes.extend([0, 0, 0, 7]);
    bytes.extend_from_slice(payload);
    bytes
}

fn times(time: u32, payload: &[u8]) -> Vec<u32> {
    let mut area = vec![0; ROW_AREA];
    let reading = read(SETTINGS, &packet(time, payload), &mut area).unwrap();
    area.chunks(ROW_WORDS).take(reading.rows as usize).map(|row| row[0]).collect()
}

/// Rows of frames at these times and of these lengths, and the bytes they point into.
fn list(frames: &[(u32, u32)]) -> (Vec<u32>, Vec<u8>) {
    let mut words = Vec::new();
    let mut bytes = Vec::new();
    for (i, (time, length)) in frames.iter().enumerate() {
        words.extend([*time, if *length == 0 { 0 } else { 256 }, bytes.len() as u32, *length]);
        bytes.extend(vec![i as u8; *length as usize]);
    }
    (words, bytes)
}

fn written(frames: &[(u32, u32)]) -> Result<Vec<u8>, u32> {
    let (words, bytes) = list(frames);
    let mut out = vec![0; MAX_PAYLOAD];
    let length = write_payload(SETTINGS, NO_MODE_REQUEST, &words, &bytes, &mut out)?;
    Ok(out[..length as usize].to_vec())
}

/// Two frame-blocks of 80 bytes, three steps on one of 90; the first entry's DIS1 says 9 and is passed over.
#[test]
fn two_groups_apart() {
    let table = [0xA0, 2, 0x90, 0x24, 1, 0x20];
    let payload = [&table[..], &[1; 250]].concat();
    assert_eq!(times(1000, &payload), [1000, 1960, 1960 + 3 * 960]);
    assert_eq!(times(0u32.wrapping_sub(2 * 960), &payload), [4294965376, 4294966336, 1920]);
    let back = written(&[(1000, 80), (1960, 80), (4840, 90)]).unwrap();
    assert_eq!(back[..6], [0xA0, 2, 0x00, 0x24, 1, 0x20]);
    let across = written(&[(4294965376, 80), (4294966336, 80), (1920, 90)]).unwrap();
    assert_eq!(across, back);
}

/// The gaps before the second, third and fourth group are 0, 7 and 15: steps of 1, 8 and 16.
#[test]
fn groups_with_gaps_of_0_7_and_15() {
    let frames = [(500, 80), (500 + 960, 90), (500 + 9 * 960, 80), (500 + 25 * 960, 0)];
    let payload = written(&frames).unwrap();
    assert_eq!(payload[..12], [0xA0, 1, 0x00, 0xA4, 1, 0x00, 0xA0, 1, 0x70, 0x00, 1, 0xF0]);
    assert_eq!(payload.len(), 12 + 250);
    assert_eq!(times(500, &payload), frames.map(|(time, _)| time));
}

/// A gap of 16 is 13, and so is a step that is no whole number of frame-blocks, or none; kind 1 has no gaps.
#[test]
fn gaps_that_cannot_be_said() {
    for (ticks, fits) in [(0, false), (959, false), (960, true), (961, false), (16 * 960, true), (17 * 960, false), (18 * 960, false)] {
        let answer = written(&[(7, 80), (7 + ticks, 90)]);
        assert!(if fits { answer.is_ok() } else { answer == Err(13) }, "{ticks} {answer:?}");
        let (words, bytes) = list(&[(7, 80), (7 + ticks, 90)]);
        let basic = Settings { format: 1, ..SETTINGS };
        assert_eq!(write_payload(basic, NO_MODE_REQUEST, &words, &bytes, &mut [0; MAX_PAYLOAD]).is_ok(), ticks == 960);
    }
}

/// The record of a buoy's two groups keeps the gap: the frames are drawn at their times.
#[test]
fn the_record_keeps_the_gap() {
    let payload = [&[0xA0, 1, 0x00, 0x24, 1, 0x50][..], &[1; 80], &[2; 90]].concat();
    let (buffer, _) = fresh(SETTINGS);
    let (mut area, mut store, mut frame) = (vec![0; ROW_AREA], vec![0; STORE_BYTES], vec![0; DRAW_AREA]);
    let (buffer, verdicts) = offer(&buffer, &packet(0, &payload), &mut area, &mut store);
    assert_eq!(verdicts.unwrap().inserted, 2);
    let (buffer, first) = draw(&buffer, &store, &mut frame);
    assert_eq!(first, Ok(Drawn::Frame { time: 0, channel: 0, class: 1, length: 80, primary: true }));
    let (_, second) = draw(&buffer, &store, &mut frame);
    assert_eq!(second, Ok(Drawn::Frame { time: 6 * 960, channel: 0, class: 1, length: 90, primary: true }));
}
