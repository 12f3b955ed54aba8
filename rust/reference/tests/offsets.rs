//! P2, "Say where": whole packets written out, with the refusal and the offset in each. (`cases` has the rest.)

use reference::*;

/// What reading answers to a packet whose type 97 is plain and 98 is redundancy.
fn fault(format: u8, packet: &[u8]) -> (u32, u32) {
    let settings = Settings { format, channels: 1, payload_type: 97, redundancy_type: 98 };
    let Fault { refusal, offset } = read(settings, packet, &mut [0; ROW_AREA]).unwrap_err();
    (refusal, offset)
}

const HEADER: [u8; 12] = [0x80, 97, 0, 1, 0, 0, 0, 0, 0, 0, 0, 9];
const REDUNDANT: [u8; 12] = [0x80, 98, 0, 1, 0, 0, 0, 0, 0, 0, 0, 9];

#[test]
fn entries() {
    // "the first byte of the entry ... at fault for 6 to 9"
    assert_eq!(fault(1, &[&HEADER[..], &[0xA0, 1, 0x20]].concat()), (6, 14));
    assert_eq!(fault(1, &[&HEADER[..], &[0xA0, 1, 0x1C, 1]].concat()), (7, 14));
    assert_eq!(fault(1, &[&HEADER[..], &[0xA0, 1, 0x20, 0]].concat()), (8, 14));
    assert_eq!(fault(1, &[&HEADER[..], &[0x80, 255, 0x80, 129, 0x00, 1]].concat()), (9, 16));
    // "(where an empty payload, or else a missing one, would start)"
    assert_eq!(fault(1, &HEADER), (6, 12));
    assert_eq!(fault(1, &[&HEADER[..], &[0xA0, 1]].concat()), (6, 14));
    // "for 10 the first byte after the tables"
    assert_eq!(fault(1, &[&HEADER[..], &[0xA0, 1, 0x20, 1, 0xFF]].concat()), (10, 16));
}

/// The mode byte is no entry: it is passed over where there is one.
#[test]
fn amr() {
    for format in [4, 5] {
        assert_eq!(fault(format, &HEADER), (6, 12));
        assert_eq!(fault(format, &[&HEADER[..], &[0xF0]].concat()), (6, 13));
        assert_eq!(fault(format, &[&HEADER[..], &[0xF0, 0x54]].concat()), (7, 13));
        assert_eq!(fault(format, &[&HEADER[..], &[0xF0, 0x04]].concat()), (10, 14));
    }
}

#[test]
fn redundancy() {
    // "of the ... block header at fault"
    assert_eq!(fault(3, &REDUNDANT), (6, 12));
    assert_eq!(fault(3, &[&REDUNDANT[..], &[0xE1, 0, 0, 0, 0xE1, 0]].concat()), (6, 16));
    assert_eq!(fault(3, &[&REDUNDANT[..], &[0xE1, 0, 0, 0]].concat()), (6, 16));
    // "the first byte after the ... block headers"
    assert_eq!(fault(3, &[&REDUNDANT[..], &[0xE1, 0, 0, 3, 0x61, 0x70]].concat()), (10, 17));
    // two blocks: bytes 17 and 18, and from 19 on
    assert_eq!(fault(3, &[&REDUNDANT[..], &[0xE1, 0, 0, 2, 0x61, 0xF0, 0x10, 0x70]].concat()), (7, 18));
    assert_eq!(fault(3, &[&REDUNDANT[..], &[0xE1, 0, 0, 2, 0x61, 0xF0, 0x70, 0xF0]].concat()), (6, 20));
    assert_eq!(fault(3, &[&REDUNDANT[..], &[0xE1, 0, 0, 2, 0x61, 0xF0, 0x70, 0x00, 1]].concat()), (10, 20));
}

/// "an offset in the whole packet": two contributing sources, an extension of a word, and two bytes of padding.
#[test]
fn behind_headers() {
    let mut packet = vec![0xB2, 97, 0, 1, 0, 0, 0, 0, 0, 0, 0, 9];
    packet.extend([0, 0, 0, 1, 0, 0, 0, 2]);
    packet.extend([0xBE, 0xDE, 0, 1, 0, 0, 0, 0]);
    packet.extend([0xF0, 0xF0, 0, 2]);
    assert_eq!(fault(3, &packet), (6, 30));
    packet[29] = 0x40;
    assert_eq!(fault(3, &packet), (7, 29));
    packet[29] = 0x20;
    assert_eq!(fault(3, &packet), (10, 30));
    // "Everything else gives 0."
    for (place, byte, refusal) in [(0, 0x72, 2), (23, 9, 3), (31, 0, 4), (1, 96, 5)] {
        let mut spoiled = packet.clone();
        spoiled[place] = byte;
        assert_eq!(fault(3, &spoiled), (refusal, 0));
    }
    assert_eq!(fault(3, &packet[..11]), (1, 0));
    assert_eq!(fault(6, &packet), (11, 0));
}
