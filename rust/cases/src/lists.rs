//! Lists of rows to write, with the bytes they point into.

use crate::{Random, Shape};
use reference::{
    step_ticks, Row, Settings, AMR_LENGTHS, AMR_WB_LENGTHS, MAX_BLOCK, MAX_CHANNELS, MAX_OFFSET, MAX_PAYLOAD, MAX_REDUNDANT, MAX_ROWS,
    MAX_RUN, PRIMARY, ROW_AREA, ROW_WORDS, SLOT_BYTES,
};

/// Words of rows, and the byte area that they point into.
#[derive(Clone, Debug, Default)]
pub struct List {
    pub words: Vec<u32>,
    pub bytes: Vec<u8>,
}

impl List {
    pub fn rows(&self) -> usize {
        self.words.len() / ROW_WORDS
    }
}

/// The rows of a valid plain payload with no other headers, as the reference reads them; a writer has to take them.
pub fn list_from_packet(r: &mut Random, s: Settings, shape: Shape, time: u32) -> List {
    let mut packet = vec![0x80, s.payload_type, 0, 0];
    packet.extend(time.to_be_bytes());
    packet.extend([0; 4]);
    packet.extend(crate::payload(r, s, shape));
    let mut area = vec![0; ROW_AREA];
    match reference::read(s, &packet, &mut area) {
        Ok(reading) => {
            area.truncate(ROW_WORDS * reading.rows as usize);
            List { words: area, bytes: packet }
        }
        Err(_) => List { words: Vec::new(), bytes: packet },
    }
}

/// A list made row by row, its frames anywhere in a byte area, overlapping or not: mostly one that can be written.
/// `aim` is the number of bytes that its payload is to come close to, where that can be had with rows of no data.
pub fn made_list(r: &mut Random, s: Settings, time: u32, most_rows: usize, aim: Option<usize>) -> List {
    let channels = s.channels as usize;
    let size = SLOT_BYTES + r.below(700);
    let bytes = r.bytes(size);
    let step = step_ticks(s.format);
    let mut words = Vec::new();
    let mut now = time;
    let mut run: Option<usize> = None;
    let (mut payload, mut run_blocks) = (if s.format >= 4 { 1usize } else { 0 }, 0usize);
    let mut length = pick_length(r, s);
    // frame-blocks of this length that follow in any case
    let mut stay = 0;
    let rows = match aim {
        Some(_) => most_rows,
        None => r.within(1, most_rows),
    };
    while words.len() / ROW_WORDS + channels <= rows.max(channels) {
        // sometimes another length; sometimes no data for long
        if stay > 0 {
            stay -= 1;
        } else if r.percent(25) {
            length = pick_length(r, s);
            if length == 0 && s.format <= 2 && most_rows > MAX_RUN && r.percent(30) {
                stay = if r.percent(50) { MAX_RUN - 3 + r.below(6) } else { r.below(most_rows) };
            }
        }
        if let Some(aim) = aim {
            // close to the aim only frames of no data are added
            let table = displacements(s, run_blocks);
            if payload + table + 4 + channels * length > aim {
                length = 0;
            }
            let entry = if s.format >= 3 { 1 } else { (run != Some(length) || run_blocks == MAX_RUN) as usize * 2 };
            if payload + table + entry > aim + r.below(4) {
                break;
            }
        }
        let same = run == Some(length);
        if !words.is_empty() {
            // in kind 2 there may be a gap, within an entry and between two
            let steps = if s.format == 2 && r.percent(30) { r.within(1, 16) } else { 1 };
            now = now.wrapping_add(step * steps as u32);
        }
        if s.format >= 3 {
            payload += 1;
        } else if !same {
            payload += 2 + displacements(s, run_blocks);
            run_blocks = 0;
        } else if run_blocks == MAX_RUN {
            payload += 2;
        }
        run_blocks += 1;
        run = Some(length);
        payload += channels * length;
        let class = match (s.format, length) {
            (_, 0) => 0,
            (3, _) => r.pick(&[1, 1, 2]),
            (4 | 5, SID_LENGTH) => r.pick(&[2, 2, 6]),
            (4 | 5, _) => r.pick(&[1, 1, 5]),
            _ => 1,
        };
        for channel in 0..channels as u32 {
            let start = match r.below(10) {
                0 => size - length,
                1 => 0,
                _ => r.below(size - length + 1),
            };
            let primary = r.percent(50);
            words.extend(Row { time: now, class, channel, primary, start: start as u32, length: length as u32 }.words());
        }
    }
    List { words, bytes }
}

/// The bytes of a run's displacements.
fn displacements(s: Settings, blocks: usize) -> usize {
    if s.format == 2 {
        blocks.div_ceil(2)
    } else {
        0
    }
}

/// bytes of a SID of AMR and AMR-WB
const SID_LENGTH: usize = 5;

fn pick_length(r: &mut Random, s: Settings) -> usize {
    if r.percent(12) {
        0
    } else if s.format == 3 {
        14
    } else if s.format == 4 {
        r.pick(&AMR_LENGTHS) as usize
    } else if s.format == 5 {
        r.pick(&AMR_WB_LENGTHS) as usize
    } else {
        match r.below(3) {
            0 => r.pick(&[80, 220, 240, 320]),
            1 => 80 + 10 * r.below(15),
            _ => r.pick(&[80, 90, 100]),
        }
    }
}

/// In rows of kind 2: how often frames of another length come after a gap, so that a later entry's DIS1 has to say it.
pub fn groups_apart(s: Settings, words: &[u32]) -> u64 {
    let ticks = step_ticks(s.format);
    let apart = |two: &[u32]| two[3] != two[ROW_WORDS + 3] && (2..=16).any(|step| two[ROW_WORDS].wrapping_sub(two[0]) == step * ticks);
    match s.format {
        2 => words.windows(2 * ROW_WORDS).step_by(ROW_WORDS).filter(|two| apart(two)).count() as u64,
        _ => 0,
    }
}

/// In rows of kinds 1 and 2: how often frame-blocks of one length are more than the byte of an entry can count.
pub fn long_runs(s: Settings, words: &[u32]) -> u64 {
    let lengths: Vec<u32> = words.chunks_exact(ROW_WORDS).step_by(s.channels.max(1) as usize).map(|row| row[3]).collect();
    match s.format {
        1 | 2 => lengths.chunk_by(|a, b| a == b).filter(|run| run.len() > MAX_RUN).count() as u64,
        _ => 0,
    }
}

/// Sets the primary bit of each row or clears it, at random: the writers are to ignore it.
pub fn remark(r: &mut Random, list: &mut List) {
    for row in list.words.chunks_exact_mut(ROW_WORDS) {
        row[1] = row[1] & !PRIMARY | if r.percent(50) { PRIMARY } else { 0 };
    }
}

/// Damages the rows of a list: one field, or the order, number or wholeness of the rows.
pub fn damage_list(r: &mut Random, s: Settings, list: &mut List) {
    let rows = list.rows();
    if rows == 0 {
        list.words.push(r.word());
        return;
    }
    let row = ROW_WORDS * r.below(rows);
    let step = step_ticks(s.format);
    match r.below(15) {
        0 => list.words[row] = r.word(),
        1 => {
            let change = r.pick(&[1, u32::MAX, step, step.wrapping_neg(), 15 * step, 16 * step, 17 * step, 1 << 31, MAX_OFFSET + 1]);
            // this row only, or all from here
            let end = if r.percent(50) { row + ROW_WORDS } else { list.words.len() };
            for place in (row..end).step_by(ROW_WORDS) {
                list.words[place] = list.words[place].wrapping_add(change);
            }
        }
        2 => {
            let sound = 256 + r.within(s.channels as usize - 1, MAX_CHANNELS as usize + 1) as u32;
            list.words[row + 1] =
                r.pick(&[0, 1, 2, 255, 256, 257, 258, sound, sound, 512, 513, 768, 1024, 1280, 1281, 1536, 1792, u32::MAX]);
            list.words[row + 1] ^= r.pick(&[0, PRIMARY, 2 * PRIMARY, 3 * PRIMARY]);
        }
        3 => list.words[row + 1] ^= r.pick(&[1, 2, 4, 128, 256, 512, 1024, PRIMARY, 2 * PRIMARY, 1 << 31]),
        4 => list.words[row + 1] ^= 1 << r.within(16, 31),
        5 => list.words[row + 2] = r.pick(&[0, list.bytes.len() as u32, list.bytes.len() as u32 + 1, u32::MAX, 1 << 31]),
        6 => {
            let beyond = list.bytes.len() as u32 - list.words[row + 3].min(list.bytes.len() as u32);
            list.words[row + 2] = beyond.wrapping_add(r.pick(&[0, 1, u32::MAX]));
        }
        7 => list.words[row + 3] = r.pick(&[0, 5, 12, 13, 14, 15, 17, 31, 32, 60, 61, 79, 80, 90, 220, 230, 240, 250, 320, 340, u32::MAX]),
        8 => list.words[row + 3] = list.words[row + 3].wrapping_add(r.pick(&[1, u32::MAX, 10, 20])),
        9 => {
            // another row, or the neighbour: channels in another order
            let other = ROW_WORDS * if r.percent(50) { r.below(rows) } else { (row / ROW_WORDS + 1) % rows };
            for i in 0..ROW_WORDS {
                list.words.swap(row + i, other + i);
            }
        }
        10 => {
            list.words.drain(row..row + ROW_WORDS);
        }
        11 => {
            let copy: Vec<u32> = list.words[row..row + ROW_WORDS].to_vec();
            list.words.splice(row..row, copy);
        }
        12 => list.words.truncate(list.words.len() - r.within(1, 3)),
        13 => {
            for _ in 0..r.within(1, 5) {
                list.words.push(r.word() >> r.below(32));
            }
        }
        _ => {
            let shorter = r.below(list.bytes.len() + 1);
            list.bytes.truncate(shorter);
        }
    }
}

/// Up to four redundant lists and a primary one, in one word area, all pointing into one byte area.
pub fn lists_for_packet(r: &mut Random, s: Settings) -> (List, Vec<u32>) {
    let redundant = if r.percent(25) { 0 } else { r.within(1, MAX_REDUNDANT) };
    let time = if r.percent(50) { r.word() } else { (r.below(40_000) as u32).wrapping_sub(20_000) };
    let mut whole = List::default();
    let mut counts = Vec::new();
    let most = if r.percent(20) { MAX_ROWS } else { r.within(1, 12) };
    for i in 0..=redundant {
        let offset = match r.below(12) {
            _ if i == redundant => 0,
            0 => MAX_OFFSET,
            1 => MAX_OFFSET + 1,
            2 => r.word(),
            3 => 0,
            4 => (r.below(2000) as u32).wrapping_neg(),
            _ => 160 * 6 * r.below(17) as u32,
        };
        let at = time.wrapping_sub(offset);
        let aim = match r.below(12) {
            0 => Some(MAX_BLOCK - 5 + r.below(9)),
            1 => Some(MAX_PAYLOAD / (redundant + 1)),
            _ => None,
        };
        let list = if r.percent(30) {
            list_from_packet(r, s, Shape { bytes: 600, rows: most, alike: false }, at)
        } else {
            made_list(r, s, at, if aim.is_some() { MAX_ROWS } else { most }, aim)
        };
        let base = whole.bytes.len() as u32;
        whole.bytes.extend_from_slice(&list.bytes);
        counts.push(list.rows() as u32);
        for row in list.words.chunks_exact(ROW_WORDS) {
            whole.words.extend([row[0], row[1], row[2] + base, row[3]]);
        }
    }
    (whole, counts)
}

/// The counts, sometimes damaged.
pub fn counts_of(r: &mut Random, counts: &mut Vec<u32>) {
    let place = r.below(counts.len());
    match r.below(8) {
        0 => counts.clear(),
        1 => counts.insert(place, 0),
        2 => counts[place] = counts[place].wrapping_add(r.pick(&[1, u32::MAX, MAX_ROWS as u32])),
        3 => counts[place] = r.pick(&[0, u32::MAX, 1 << 31]),
        4 => {
            while counts.len() < 6 {
                counts.push(r.below(2) as u32);
            }
        }
        5 => {
            counts.pop();
        }
        6 => {
            // one list as two
            let part = r.below(counts[place] as usize + 1) as u32;
            counts[place] -= part;
            counts.insert(place, part);
        }
        _ => {
            // two numbers whose sum wraps
            counts[place] = counts[place].wrapping_add(1 << 31);
            counts.push(1 << 31);
        }
    }
}
