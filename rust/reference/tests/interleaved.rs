//! Document 001's six interleaved packets, in many orders: document 01's list is drawn.

use reference::*;

const DRAWN: [u32; 24] = [1, 5, 6, 9, 10, 11, 13, 14, 15, 16, 17, 18, 19, 20, 21, 22, 23, 24, 26, 27, 28, 31, 32, 36];

/// Packet `n`: frame-blocks first, first + 5, + 10, + 15; each frame filled with its number.
fn packet(first: u32, base: u32) -> Vec<u8> {
    let time = base.wrapping_add(first * 960);
    let mut bytes = vec![0x80, 97, 0, first as u8];
    bytes.extend(time.to_be_bytes());
    bytes.extend([0, 0, 0, 7, 0x20, 4, 0x04, 0x44]);
    for i in 0..4 {
        bytes.extend([(first + 5 * i) as u8; 80]);
    }
    bytes
}

fn drawn_after(order: &[u32], base: u32) -> Vec<u32> {
    let settings = Settings { format: 2, channels: 1, payload_type: 97, redundancy_type: NO_REDUNDANCY };
    let (mut buffer, _) = fresh(settings);
    let mut store = vec![0; STORE_BYTES];
    let mut area = vec![0; ROW_AREA];
    for first in order {
        let (next, verdicts) = offer(&buffer, &packet(*first, base), &mut area, &mut store);
        assert!(verdicts.is_ok());
        buffer = next;
    }
    let mut found = Vec::new();
    let mut frame = vec![0; DRAW_AREA];
    loop {
        let (next, drawn) = draw(&buffer, &store, &mut frame);
        buffer = next;
        match drawn.unwrap() {
            Drawn::Empty => return found,
            Drawn::Frame { time, channel: 0, class: 1, length: 80, primary: true } => {
                let number = time.wrapping_sub(base) / 960;
                assert_eq!(time, base.wrapping_add(number * 960));
                assert!(frame[..80].iter().all(|byte| *byte as u32 == number));
                found.push(number);
            }
            other => panic!("{other:?}"),
        }
    }
}

#[test]
fn any_order_draws_the_same() {
    // All 720 orders, at a base that makes the wrap fall between frame-blocks 18 and 19 and at 0.
    let firsts = [1, 5, 9, 13, 17, 21];
    let mut orders = vec![vec![]];
    for _ in 0..6 {
        orders = orders
            .iter()
            .flat_map(|order: &Vec<u32>| {
                firsts.iter().filter(|f| !order.contains(f)).map(|f| [&order[..], &[*f]].concat()).collect::<Vec<_>>()
            })
            .collect();
    }
    assert_eq!(orders.len(), 720);
    for order in &orders {
        for base in [0, 0u32.wrapping_sub(18 * 960 + 1)] {
            assert_eq!(drawn_after(order, base), DRAWN);
        }
        // and each twice
        assert_eq!(drawn_after(&[&order[..], &order[..3]].concat(), 77), DRAWN);
    }
}
