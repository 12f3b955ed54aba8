//! Document 02, P6, worked out by hand, through the public functions: "each held entry shall carry a mark: has any copy judged new, better
//! or repeat for it been the primary block or a plain payload?"
//!
//! A row's second word is mark × 65,536 + 256 × sort + channel, and so is an entry's tag.

use reference::*;

const PLAIN: u8 = 97;
const REDUNDANCY: u8 = 121;
const OTHER: u8 = 96;
const GSM_HR: Settings = Settings { format: 3, channels: 1, payload_type: PLAIN, redundancy_type: REDUNDANCY };

/// Second words of rows.
const SOUND: u32 = 256;
const MARKED_SOUND: u32 = 65_792;
const MARKED_NONE: u32 = 65_536;

fn packet(payload_type: u8, time: u32, parts: &[&[u8]]) -> Vec<u8> {
    let mut bytes = vec![0x80, payload_type, 0, 1];
    bytes.extend(time.to_be_bytes());
    bytes.extend([0, 0, 0, 7]);
    for part in parts {
        bytes.extend_from_slice(part);
    }
    bytes
}

/// Times and second words of the rows.
fn marks(settings: Settings, packet: &[u8]) -> Vec<(u32, u32)> {
    let mut area = vec![0; ROW_AREA];
    let reading = read(settings, packet, &mut area).unwrap();
    area.chunks(ROW_WORDS).take(reading.rows as usize).map(|row| (row[0], row[1])).collect()
}

/// A payload of one frame of sound of GSM-HR, of 14 equal bytes.
fn sound(value: u8) -> Vec<u8> {
    [&[0][..], &[value; 14]].concat()
}

/// A SID, which any sound is better than.
fn sid(value: u8) -> Vec<u8> {
    [&[0x20][..], &[value; 14]].concat()
}

/// The payload at this time, first-hand: plain.
fn plain(time: u32, payload: &[u8]) -> Vec<u8> {
    packet(PLAIN, time, &[payload])
}

/// The payload at this time, first-hand: the primary block, after a redundant one of another type.
fn last_block(time: u32, payload: &[u8]) -> Vec<u8> {
    packet(REDUNDANCY, time, &[&[0x80 + OTHER, 0, 0, 2, PLAIN], &[1, 2], payload])
}

/// The payload at this time, second-hand: a redundant block, before a primary one of no rows.
fn redundant(time: u32, payload: &[u8]) -> Vec<u8> {
    // offset 160 = 0b00000010100000, then ten bits of length
    packet(REDUNDANCY, time + 160, &[&[0x80 + PLAIN, 2, 0x80, payload.len() as u8, PLAIN], payload])
}

#[test]
fn rows_of_plain_payloads_are_marked() {
    // sound, no data, SID
    let payload = [&[0x80, 0xF0, 0x20][..], &[1; 28]].concat();
    assert_eq!(marks(GSM_HR, &plain(0, &payload)), [(0, MARKED_SOUND), (160, MARKED_NONE), (320, 66_048)]);
    // stereo: channels 0 and 1
    let stereo = Settings { format: 1, channels: 2, ..GSM_HR };
    assert_eq!(marks(stereo, &plain(0, &[&[0x20, 1][..], &[1; 160]].concat())), [(0, 65_792), (0, 65_793)]);
    assert_eq!(marks(stereo, &plain(0, &[0x00, 1])), [(0, 65_536), (0, 65_537)]);
    // AMR: damaged sound, no data
    let amr = Settings { format: 4, ..GSM_HR };
    assert_eq!(marks(amr, &plain(0, &[&[0xF0, 0x80, 0x7C][..], &[1; 12]].concat())), [(0, 65_536 + 5 * 256), (160, MARKED_NONE)]);
}

#[test]
fn rows_of_the_last_block_are_marked() {
    let none = [0x70];
    // two redundant blocks of 15 and 1 bytes, 320 and 160 ticks before, then sound and no data
    let headers = [0xE1, 5, 0, 15, 0xE1, 2, 0x80, 1, 0x61];
    let primary = [&[0x80, 0x70][..], &[3; 14]].concat();
    let whole = packet(REDUNDANCY, 1000, &[&headers, &sound(1), &none, &primary]);
    assert_eq!(marks(GSM_HR, &whole), [(680, SOUND), (840, 0), (1000, MARKED_SOUND), (1160, MARKED_NONE)]);
    // an empty primary block, or one of another type: no row is marked, the last one neither
    assert_eq!(marks(GSM_HR, &packet(REDUNDANCY, 1000, &[&headers, &sound(1), &none])), [(680, SOUND), (840, 0)]);
    let other = [0xE1, 5, 0, 15, 0xE1, 2, 0x80, 1, 0x60];
    assert_eq!(marks(GSM_HR, &packet(REDUNDANCY, 1000, &[&other, &sound(1), &none, &primary])), [(680, SOUND), (840, 0)]);
    // a primary block alone
    assert_eq!(marks(GSM_HR, &packet(REDUNDANCY, 1000, &[&[0x61], &primary])), [(1000, MARKED_SOUND), (1160, MARKED_NONE)]);
    // an offset of 0 makes no block the primary one
    assert_eq!(marks(GSM_HR, &packet(REDUNDANCY, 1000, &[&[0xE1, 0, 0, 1, 0x61], &none, &none])), [(1000, 0), (1000, MARKED_NONE)]);
}

/// "every writer ignores that bit, and reading back sets it by this rule"; the bits above it are of no class that a kind has.
#[test]
fn writers_ignore_the_bit() {
    let bytes = [9; 14];
    let list = |first: u32, second: u32| [1000, first, 0, 14, 1160, second, 0, 0];
    let payload = |words: &[u32]| {
        let mut out = vec![0; MAX_PAYLOAD];
        write_payload(GSM_HR, 15, words, &bytes, &mut out).map(|length| out[..length as usize].to_vec())
    };
    let whole = |words: &[u32]| {
        let mut out = vec![0; MAX_PACKET];
        write_packet(GSM_HR, 15, false, 1, 7, &[1, 1], words, &bytes, &mut out).map(|length| out[..length as usize].to_vec())
    };
    let expected = [&[0x80, 0x70][..], &bytes].concat();
    let blocks = packet(REDUNDANCY, 1160, &[&[0xE1, 2, 0x80, 15, 0x61], &[0], &bytes, &[0x70]]);
    for (first, second) in [(SOUND, 0), (MARKED_SOUND, 0), (SOUND, MARKED_NONE), (MARKED_SOUND, MARKED_NONE)] {
        assert_eq!(payload(&list(first, second)), Ok(expected.clone()));
        assert_eq!(whole(&list(first, second)), Ok(blocks.clone()));
    }
    assert_eq!(marks(GSM_HR, &plain(1000, &expected)), [(1000, MARKED_SOUND), (1160, MARKED_NONE)]);
    assert_eq!(marks(GSM_HR, &blocks), [(1000, SOUND), (1160, MARKED_NONE)]);
    for bit in 17..32 {
        for mark in [0, PRIMARY] {
            for words in [list(SOUND + mark + (1 << bit), 0), list(SOUND, mark + (1 << bit))] {
                assert_eq!((payload(&words), whole(&words)), (Err(13), Err(13)), "bit {bit}");
                // 11 and 14 come before it
                assert_eq!(write_payload(Settings { format: 6, ..GSM_HR }, 15, &words, &bytes, &mut []), Err(11));
                assert_eq!(write_payload(GSM_HR, 16, &words, &bytes, &mut []), Err(11));
                assert_eq!(write_payload(GSM_HR, 15, &words, &bytes[1..], &mut []), Err(14));
                // and 12 after it
                assert_eq!(write_payload(GSM_HR, 15, &words, &bytes, &mut []), Err(13));
            }
        }
    }
    assert_eq!(write_payload(GSM_HR, 15, &list(MARKED_SOUND, MARKED_NONE), &bytes, &mut []), Err(12));
}

const NEW: Verdicts = Verdicts { late: 0, far: 0, repeated: 0, better: 0, no_room: 0, inserted: 1 };
const BETTER: Verdicts = Verdicts { better: 1, inserted: 0, ..NEW };
const REPEATED: Verdicts = Verdicts { repeated: 1, inserted: 0, ..NEW };

struct Held {
    buffer: Buffer,
    store: Vec<u8>,
}

impl Held {
    fn new() -> Held {
        Held { buffer: fresh(GSM_HR).0, store: vec![7; STORE_BYTES] }
    }

    fn offer(&mut self, packet: &[u8]) -> Verdicts {
        let (after, verdicts) = offer(&self.buffer, packet, &mut [0; ROW_AREA], &mut self.store);
        assert!(is_well_formed(&after));
        self.buffer = after;
        verdicts.unwrap()
    }

    /// Time, first byte and mark of the frame drawn.
    fn draw(&mut self) -> (u32, u8, bool) {
        let mut area = [0; DRAW_AREA];
        let (after, drawn) = draw(&self.buffer, &self.store, &mut area);
        self.buffer = after;
        match drawn.unwrap() {
            Drawn::Frame { time, primary, .. } => (time, area[0], primary),
            Drawn::Empty => panic!("no frame is held"),
        }
    }
}

/// One copy, then another: the verdict on the second, and the mark that is left and drawn.
#[test]
fn two_copies() {
    type Way = fn(u32, &[u8]) -> Vec<u8>;
    let ways: [(Way, bool); 3] = [(plain, true), (last_block, true), (redundant, false)];
    for (first, first_hand) in ways {
        for (second, second_hand) in ways {
            for (one, two, verdict, best) in [
                // the same bytes; a worse copy; a copy of greater bytes; sound after a SID
                (sound(5), sound(5), REPEATED, 5),
                (sound(5), sound(4), REPEATED, 5),
                (sound(5), sid(9), REPEATED, 5),
                (sound(5), sound(6), BETTER, 6),
                (sid(5), sound(0), BETTER, 0),
            ] {
                let mut held = Held::new();
                assert_eq!(held.offer(&first(320, &one)), NEW);
                assert_eq!(held.buffer.tags[0] / PRIMARY, first_hand as u32);
                let before = (held.buffer, held.store.clone());
                assert_eq!(held.offer(&second(320, &two)), verdict);
                let mark = first_hand || second_hand;
                assert_eq!(held.buffer.tags[0] / PRIMARY, mark as u32);
                if verdict == REPEATED {
                    // "a repeat may set it", and nothing else changes
                    let mut unmarked = held.buffer;
                    unmarked.tags[0] = before.0.tags[0];
                    assert_eq!((unmarked, held.store.clone()), before);
                }
                assert_eq!(held.draw(), (320, best, mark));
                // the tag and its mark are gone
                assert_eq!(held.buffer.tags[0], 0);
            }
        }
    }
}

/// Three copies: a mark stays through better copies and repeats.
#[test]
fn three_copies() {
    let mut held = Held::new();
    assert_eq!(held.offer(&redundant(320, &sid(1))), NEW);
    assert_eq!(held.offer(&redundant(320, &sound(1))), BETTER);
    assert_eq!(held.buffer.tags[0], SOUND);
    assert_eq!(held.offer(&plain(320, &sid(3))), REPEATED);
    // the mark of the worse copy, the class of the better
    assert_eq!(held.buffer.tags[0], MARKED_SOUND);
    assert_eq!(held.offer(&redundant(320, &sound(2))), BETTER);
    assert_eq!(held.buffer.tags[0], MARKED_SOUND);
    assert_eq!(held.offer(&redundant(320, &sound(2))), REPEATED);
    assert_eq!(held.draw(), (320, 2, true));
}

/// One packet with a redundant and a primary copy of one frame, at offset 0.
#[test]
fn both_in_one_packet() {
    let both = |old: &[u8], new: &[u8]| packet(REDUNDANCY, 320, &[&[0xE1, 0, 0, 15, 0x61], old, new]);
    for (old, new, second) in [(sound(5), sound(5), REPEATED), (sound(5), sid(5), REPEATED), (sid(5), sound(5), BETTER)] {
        let mut held = Held::new();
        assert_eq!(held.offer(&both(&old, &new)), Verdicts { inserted: 1, ..second });
        assert_eq!(held.draw(), (320, 5, true));
    }
}

/// Marks go with their entries, whatever is put before them or drawn.
#[test]
fn each_entry_has_its_own() {
    let mut held = Held::new();
    held.offer(&redundant(1600, &sound(1)));
    held.offer(&plain(800, &sound(2)));
    held.offer(&redundant(480, &sound(3)));
    held.offer(&plain(2400, &sound(4)));
    assert_eq!(held.buffer.tags[..5], [SOUND, MARKED_SOUND, SOUND, MARKED_SOUND, 0]);
    assert_eq!(held.draw(), (480, 3, false));
    assert_eq!(held.draw(), (800, 2, true));
    assert_eq!(held.buffer.tags[..3], [SOUND, MARKED_SOUND, 0]);
    // no data marks no frame
    assert_eq!(held.offer(&plain(1600, &[0x70])), Verdicts { inserted: 0, ..NEW });
    assert_eq!(held.draw(), (1600, 1, false));
    assert_eq!(held.draw(), (2400, 4, true));
}

/// Late, far and no-room copies leave all marks.
#[test]
fn copies_that_are_not_taken() {
    // far
    let mut held = Held::new();
    held.offer(&redundant(320, &sound(1)));
    let before = held.buffer;
    assert_eq!(held.offer(&plain(320 + (1 << 31), &sound(1))), Verdicts { far: 1, inserted: 0, ..NEW });
    assert_eq!(held.buffer, before);
    // late: the frame drawn, and one before it
    held.offer(&redundant(480, &sound(1)));
    assert_eq!(held.draw(), (320, 1, false));
    let before = held.buffer;
    for time in [320, 160] {
        assert_eq!(held.offer(&plain(time, &sound(1))), Verdicts { late: 1, inserted: 0, ..NEW });
        assert_eq!(held.buffer, before);
    }
    assert_eq!(held.draw(), (480, 1, false));
    // no room; what is held may still be marked
    let mut held = Held::new();
    for i in 0..SLOTS as u32 {
        assert_eq!(held.offer(&redundant(160 * i, &sound(1))), NEW);
    }
    let before = held.buffer;
    assert_eq!(held.offer(&plain(160 * SLOTS as u32, &sound(1))), Verdicts { no_room: 1, inserted: 0, ..NEW });
    assert_eq!(held.buffer, before);
    assert_eq!(held.offer(&plain(160 * 100, &sound(1))), REPEATED);
    for i in 0..SLOTS as u32 {
        assert_eq!(held.draw(), (160 * i, 1, i == 100));
    }
}

/// A tag's mark is 0 or 1: bit 16 may be set, 17 to 31 may not; an entry that is not used has none.
#[test]
fn well_formed_marks() {
    let mut held = Held::new();
    held.offer(&redundant(320, &sound(1)));
    for bit in 16..32 {
        for mark in [0, PRIMARY] {
            let mut spoiled = held.buffer;
            spoiled.tags[0] = (SOUND + mark) | 1 << bit;
            let fine = bit == 16;
            assert_eq!(is_well_formed(&spoiled), fine, "bit {bit}");
            let (after, answer) = draw(&spoiled, &held.store, &mut [0; DRAW_AREA]);
            if fine {
                assert_eq!(answer, Ok(Drawn::Frame { time: 320, channel: 0, class: 1, length: 14, primary: true }));
            } else {
                assert_eq!((after, answer), (spoiled, Err(15)));
            }
        }
        let mut spoiled = held.buffer;
        spoiled.tags[1] = 1 << bit;
        assert!(!is_well_formed(&spoiled));
        // a mark makes no class of none
        let mut spoiled = held.buffer;
        spoiled.tags[0] = 1 << bit;
        assert!(!is_well_formed(&spoiled));
    }
}
