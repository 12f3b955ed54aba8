//! The ten lines of document 01's checked table, through the public functions.

use reference::*;

const PLAIN: u8 = 97;
const REDUNDANCY: u8 = 121;

fn settings(format: u8, channels: u8) -> Settings {
    Settings { format, channels, payload_type: PLAIN, redundancy_type: REDUNDANCY }
}

fn packet(payload_type: u8, time: u32, parts: &[&[u8]]) -> Vec<u8> {
    let mut bytes = vec![0x80, payload_type, 0, 1];
    bytes.extend(time.to_be_bytes());
    bytes.extend([0, 0, 0, 7]);
    for part in parts {
        bytes.extend_from_slice(part);
    }
    bytes
}

fn rows(settings: Settings, packet: &[u8]) -> Result<Vec<Row>, u32> {
    let mut area = vec![0xdead_beef; ROW_AREA];
    let reading = read(settings, packet, &mut area).map_err(|fault| fault.refusal)?;
    let used = reading.rows as usize * ROW_WORDS;
    assert!(area[used..].iter().all(|word| *word == 0xdead_beef));
    Ok(area[..used].chunks(ROW_WORDS).map(Row::from_words).collect())
}

fn lengths(rows: &[Row]) -> Vec<u32> {
    rows.iter().map(|row| row.length).collect()
}

fn times(rows: &[Row]) -> Vec<u32> {
    rows.iter().map(|row| row.time).collect()
}

#[test]
fn line_1_lengths_of_the_codes() {
    for (code, length) in [(8u8, 80usize), (22, 220), (23, 240), (27, 320)] {
        let found = rows(settings(1, 1), &packet(PLAIN, 0, &[&[4 * code, 1], &vec![5; length]])).unwrap();
        assert_eq!(lengths(&found), [length as u32]);
    }
    for code in [7u8, 28] {
        assert_eq!(rows(settings(1, 1), &packet(PLAIN, 0, &[&[4 * code, 1]])), Err(7));
    }
}

#[test]
fn line_2_two_lengths() {
    let payload = [&[0xA0, 2, 0x30, 1][..], &[9; 280]].concat();
    assert_eq!(payload.len(), 284);
    assert_eq!(lengths(&rows(settings(1, 1), &packet(PLAIN, 0, &[&payload])).unwrap()), [80, 80, 120]);
}

#[test]
fn line_3_stereo() {
    let payload = [&[0x20, 2][..], &[9; 320]].concat();
    assert_eq!(payload.len(), 322);
    let found = rows(settings(1, 2), &packet(PLAIN, 0, &[&payload])).unwrap();
    assert_eq!(found.iter().map(|row| row.channel).collect::<Vec<_>>(), [0, 1, 0, 1]);
    assert_eq!(found.iter().map(|row| row.start).collect::<Vec<_>>(), [14, 94, 174, 254]);
}

#[test]
fn line_4_interleaved() {
    let found = rows(settings(2, 1), &packet(PLAIN, 1000, &[&[0x20, 4, 0x04, 0x44], &[1; 320]])).unwrap();
    assert_eq!(times(&found), [1000, 5800, 10600, 15400]);
}

#[test]
fn line_5_wrap() {
    let found = rows(settings(1, 1), &packet(PLAIN, 4294966336, &[&[0x20, 2], &[1; 160]])).unwrap();
    assert_eq!(times(&found), [4294966336, 0]);
}

#[test]
fn line_6_redundant_block() {
    let block = [&[0x20, 1][..], &[3; 80]].concat();
    assert_eq!(block.len(), 82);
    let found = rows(settings(1, 1), &packet(REDUNDANCY, 0, &[&[0xE1, 0x0F, 0, 0x52, 0x61], &block, &block])).unwrap();
    assert_eq!(times(&found), [4294966336, 0]);
    assert_eq!(lengths(&found), [80, 80]);
    assert_eq!(found[0].start, 12 + 5 + 2);
}

#[test]
fn line_7_gsm_hr() {
    let found = rows(settings(3, 1), &packet(PLAIN, 0, &[&[0x80, 0xF0, 0], &[1; 28]])).unwrap();
    assert_eq!(lengths(&found), [14, 0, 14]);
    assert_eq!(times(&found), [0, 160, 320]);
    assert_eq!(found.iter().map(|row| row.class).collect::<Vec<_>>(), [1, 0, 1]);
}

fn offered(buffer: &Buffer, store: &mut [u8], packet: &[u8]) -> (Buffer, Verdicts) {
    let mut area = vec![0; ROW_AREA];
    let (after, verdicts) = offer(buffer, packet, &mut area, store);
    (after, verdicts.unwrap())
}

fn one_frame(time: u32, length: usize, value: u8) -> Vec<u8> {
    packet(PLAIN, time, &[&[4 * (8 + (length - 80) / 10) as u8, 1], &vec![value; length]])
}

#[test]
fn line_8_far() {
    let (empty, fine) = fresh(settings(1, 1));
    assert_eq!(fine, Ok(()));
    for (time, expected) in
        [(2147483647, Verdicts { inserted: 1, ..Verdicts::default() }), (2147483648, Verdicts { far: 1, ..Verdicts::default() })]
    {
        let mut store = vec![0; STORE_BYTES];
        let (held, first) = offered(&empty, &mut store, &one_frame(0, 80, 1));
        assert_eq!(first.inserted, 1);
        let (_, verdicts) = offered(&held, &mut store, &one_frame(time, 80, 2));
        assert_eq!(verdicts, expected);
    }
}

#[test]
fn line_9_late() {
    // Held (0, 0) and (0, 1); after one draw the last pair is (0, 0).
    let stereo = |time| packet(PLAIN, time, &[&[0x20, 1], &[1; 160]]);
    let (empty, _) = fresh(settings(1, 2));
    let mut store = vec![0; STORE_BYTES];
    let (held, _) = offered(&empty, &mut store, &stereo(0));
    let mut area = vec![0; DRAW_AREA];
    let (once, frame) = draw(&held, &store, &mut area);
    assert_eq!(frame, Ok(Drawn::Frame { time: 0, channel: 0, class: 1, length: 80, primary: true }));
    // Take (0, 1) out again by hand, so that it is new.
    let mut drained = once;
    drained.times[0] = 0;
    drained.tags[0] = 0;
    drained.lengths[0] = 0;
    drained.slots[0] = 0;
    drained.occupied = [0; 3];
    let (_, verdicts) = offered(&drained, &mut store, &stereo(0));
    assert_eq!(verdicts, Verdicts { late: 1, inserted: 1, ..Verdicts::default() });
    let (_, verdicts) = offered(&drained, &mut store, &stereo(2147483648));
    assert_eq!(verdicts, Verdicts { late: 2, ..Verdicts::default() });
    let (_, verdicts) = offered(&drained, &mut store, &stereo(2147483647));
    assert_eq!(verdicts, Verdicts { inserted: 2, ..Verdicts::default() });
}

#[test]
fn line_10_better() {
    let (empty, _) = fresh(settings(1, 1));
    let mut store = vec![7; STORE_BYTES];
    let (short, _) = offered(&empty, &mut store, &one_frame(5, 80, 1));
    let (long, verdicts) = offered(&short, &mut store, &one_frame(5, 120, 0));
    assert_eq!(verdicts, Verdicts { better: 1, ..Verdicts::default() });
    assert_eq!((long.lengths[0], &store[..120], &store[120..]), (120, &[0; 120][..], &[7; STORE_BYTES - 120][..]));
    let before = store.clone();
    let (same, verdicts) = offered(&long, &mut store, &one_frame(5, 80, 9));
    assert_eq!(verdicts, Verdicts { repeated: 1, ..Verdicts::default() });
    assert_eq!((same, store), (long, before));
}
