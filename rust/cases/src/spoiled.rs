//! Buffers spoiled: each clause of document 01's sound take broken, or bent to its edge.

use crate::{other_settings, Random};
use reference::{Buffer, MAX_CHANNELS, PRIMARY, SLOTS};

/// The number of ways to spoil a buffer.
pub const SPOILS: usize = 25;

/// Spoils a buffer in one way; some ways leave it well-formed, at the edge of a clause.
pub fn spoil(r: &mut Random, b: &mut Buffer, way: usize) {
    let held = b.held();
    let some = if held == 0 { 0 } else { r.below(held) };
    let other = if held == 0 { 0 } else { r.below(held) };
    let channels = b.settings.channels as u32;
    let unused = if held == SLOTS { SLOTS - 1 } else { r.within(held, SLOTS - 1) };
    match way {
        // entries strictly ascending
        0 if held >= 2 => {
            let i = r.below(held - 1);
            for column in [&mut b.times, &mut b.tags, &mut b.lengths, &mut b.slots] {
                column.swap(i, i + 1);
            }
        }
        1 if held >= 2 => {
            let i = r.below(held - 1);
            b.times[i + 1] = b.times[i];
            b.tags[i + 1] = b.tags[i];
        }
        2 => b.times[some] = b.times[some].wrapping_add(r.pick(&[1, u32::MAX, 960, 1 << 31])),
        // times within a stretch
        3 if held >= 1 => b.times[held - 1] = b.times[0].wrapping_add(r.pick(&[1 << 31, (1 << 31) - 1, (1 << 31) + 1])),
        4 if held >= 3 => {
            // each after the one before, all round the circle
            for i in 0..held {
                b.times[i] = b.times[0].wrapping_add((i as u32).wrapping_mul(u32::MAX / held as u32));
            }
        }
        // slots distinct and exactly those marked
        5 => b.slots[some] = b.slots[other],
        6 => {
            let (most, slot) = (SLOTS as u32, b.slots[some]);
            b.slots[some] = r.pick(&[most - 1, most, most + 1, 255, 256, u32::MAX, 1 << 31, slot.wrapping_add(64), slot.wrapping_add(256)])
        }
        7 => b.slots.swap(some, other),
        8 => b.occupied[r.below(3)] ^= 1 << r.below(64),
        9 => {
            let moved = r.below(SLOTS) as u32;
            b.slots[some] = moved;
            if r.percent(50) {
                b.occupied[moved as usize / 64] |= 1 << (moved % 64);
            }
        }
        // sorts and lengths as the kind allows
        10 => b.tags[some] = b.tags[some] % 256 + 256 * r.pick(&[0, 1, 2, 3, 4, 5, 6, 7, 255, 256, 1 << 23]),
        11 => b.lengths[some] = r.pick(&[0, 5, 12, 13, 14, 15, 17, 23, 31, 32, 60, 80, 81, 90, 220, 230, 240, 250, 320, 340, u32::MAX]),
        12 => b.settings = other_settings(r, b.settings),
        // channels in range
        13 => b.tags[some] = b.tags[some] / 256 * 256 + r.pick(&[0, 1, 2, channels.saturating_sub(1), channels, MAX_CHANNELS as u32, 255]),
        14 => b.last_channel = r.pick(&[0, 1, 2, channels.saturating_sub(1), channels, MAX_CHANNELS as u32, 255, 256, u32::MAX]),
        // unused entries zero
        15 => match r.below(4) {
            0 => b.times[unused] = r.word(),
            1 => b.tags[unused] = r.pick(&[1, 256, PRIMARY, PRIMARY + 256, 1 << 31]),
            2 => b.lengths[unused] = 1,
            _ => b.slots[unused] = r.pick(&[1, 1 << 31]),
        },
        // all after the last pair drawn; no pair drawn kept as zeros
        16 => b.last_time = b.times[0].wrapping_sub(r.pick(&[0, 1, u32::MAX, (1 << 31) - 1, 1 << 31, (1 << 31) + 1])),
        17 => {
            b.drawn = 1;
            b.last_time = b.times[0];
            b.last_channel = r.below(channels as usize + 1) as u32;
        }
        18 => b.drawn ^= 1,
        19 => b.drawn = r.pick(&[0, 1, 2, 3, 256, u32::MAX]),
        20 => b.last_time = r.word(),
        // settings out of range
        21 => b.settings = crate::bad_settings(r),
        // anything
        22 => {
            let column = [&mut b.times, &mut b.tags, &mut b.lengths, &mut b.slots].into_iter().nth(r.below(4)).unwrap();
            column[r.below(SLOTS)] ^= 1 << r.below(32);
        }
        23 => {
            let column = [&mut b.times, &mut b.tags, &mut b.lengths, &mut b.slots].into_iter().nth(r.below(4)).unwrap();
            column[some] = r.word();
        }
        // marks: another one, which is as well-formed, and what is none
        24 => match r.below(4) {
            0 => b.tags[some] ^= PRIMARY,
            1 => b.tags[some] ^= 1 << r.within(17, 31),
            2 => b.tags[some] = b.tags[some] % PRIMARY + PRIMARY * r.pick(&[0, 1, 2, 3, 256, 65_535]),
            _ => b.tags[some] = b.tags[some].wrapping_add(PRIMARY),
        },
        _ => {}
    }
}
