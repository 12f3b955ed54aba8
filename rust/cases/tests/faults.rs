//! P2: the reference says where, as worked out by hand; and what an offset is, over generated packets.

use cases::{faults, header_faults, Judged, Random, Shape};
use reference::*;

/// What reading answers to the packet: refusal and offset, 0 where it is accepted.
fn answer(s: Settings, packet: &[u8]) -> (u32, u32) {
    match read(s, packet, &mut [0; ROW_AREA]) {
        Ok(_) => (0, 0),
        Err(Fault { refusal, offset }) => (refusal, offset),
    }
}

/// Each number of 6 to 10 in a plain packet and in a redundancy packet, in each format that has it, with the offset given by hand.
#[test]
fn each_fault_has_its_offset() {
    let mut seen = std::collections::BTreeMap::new();
    for judged in faults() {
        let Judged { settings: s, packet, refusal, offset } = &judged;
        assert_eq!(answer(*s, packet), (*refusal, *offset), "{judged:02x?}");
        assert!(*refusal == 0 || (cases::payload_start(packet)..=packet.len()).contains(&(*offset as usize)));
        *seen.entry((*refusal, s.format, packet[1] == s.redundancy_type)).or_insert(0) += 1;
        for judged in header_faults(&judged) {
            assert_eq!(answer(judged.settings, &judged.packet), (judged.refusal, 0), "{judged:02x?}");
        }
    }
    for format in 1..=5 {
        for refusal in (6..=10).filter(|refusal| *refusal != 8 || format <= 2) {
            assert!([false, true].iter().all(|redundancy| seen.contains_key(&(refusal, format, *redundancy))), "{refusal} {format}");
        }
    }
}

/// `offer` answers what `read` does; 11, 15 and 12 give no offset, whatever the packet.
#[test]
fn offers_say_where_too() {
    let (mut area, mut store) = (vec![0; ROW_AREA], vec![0; STORE_BYTES]);
    for Judged { settings, packet, refusal, offset } in faults() {
        let (buffer, _) = fresh(settings);
        let mut offered = |buffer: &Buffer, rows: usize, bytes: usize| {
            let (after, answer) = offer(buffer, &packet, &mut area[..rows], &mut store[..bytes]);
            assert!(answer.is_ok() || after == *buffer);
            answer.err().unwrap_or(Fault::from(0))
        };
        assert_eq!(offered(&buffer, ROW_AREA, STORE_BYTES), Fault { refusal, offset });
        assert_eq!(offered(&buffer, ROW_AREA - 1, STORE_BYTES), Fault { refusal: 12, offset: 0 });
        assert_eq!(offered(&buffer, ROW_AREA, STORE_BYTES - 1), Fault { refusal: 12, offset: 0 });
        assert_eq!(offered(&Buffer { drawn: 2, ..buffer }, ROW_AREA, STORE_BYTES), Fault { refusal: 15, offset: 0 });
        assert_eq!(offered(&Buffer::zero(), ROW_AREA, STORE_BYTES), Fault { refusal: 11, offset: 0 });
        let bad = Settings { channels: MAX_CHANNELS + 1, ..settings };
        assert_eq!(read(bad, &packet, &mut [0; ROW_AREA]), Err(Fault { refusal: 11, offset: 0 }));
        assert_eq!(read(settings, &packet, &mut [0; ROW_AREA - 1]), Err(Fault { refusal: 12, offset: 0 }));
    }
}

/// An offset comes with 6 to 10 and nothing else, and lies in the payload or at its end. In a plain packet it is the place that the table
/// was fine up to: cut there, the entry is missing (6, same place), or after the tables there is nothing (10, same place; accepted where no
/// sound belongs). The bytes from there on do not matter to 10.
#[test]
fn an_offset_is_where_it_was_fine_up_to() {
    let mut r = Random::new(55);
    let mut seen = [0; 11];
    for _ in 0..300_000 {
        let s = cases::settings(&mut r);
        let (bytes, rows) = (r.pick(&[60, 400]), r.pick(&[8, MAX_ROWS, MAX_ROWS + 20]));
        let mut packet = cases::packet(&mut r, s, Shape { bytes, rows, alike: false });
        for _ in 0..r.within(1, 2) {
            cases::damage(&mut r, &mut packet);
        }
        let (refusal, offset) = answer(s, &packet);
        assert_eq!((6..=10).contains(&refusal), offset != 0);
        if offset == 0 {
            continue;
        }
        let place = offset as usize;
        assert!((cases::payload_start(&packet)..=packet.len()).contains(&place), "{refusal} {offset} {packet:02x?}");
        if packet[1] & 127 != s.payload_type {
            continue;
        }
        seen[refusal as usize] += 1;
        let mut cut = packet[..place].to_vec();
        // no padding
        cut[0] &= !0x20;
        let again = answer(s, &cut);
        match refusal {
            10 => assert!(again == (0, 0) || again == (10, offset), "{again:?} {offset} {packet:02x?}"),
            _ => assert_eq!(again, (6, offset), "{packet:02x?}"),
        }
        if refusal == 10 && packet[0] & 0x20 == 0 {
            r.fill(&mut packet[place..]);
            assert_eq!(answer(s, &packet), (10, offset));
        }
    }
    assert!(seen[6..].iter().all(|n| *n > 200), "{seen:?}");
}
