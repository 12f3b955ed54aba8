//! Packets of a source as they reach a receiver, with what befalls them; and records of a source, with any numbers.

use crate::Random;
use reference::{Reception, MAX_DROPOUT, MAX_JITTER_SUM, MAX_LOST, MAX_MISORDER, MIN_SEQUENTIAL, NO_SEQUENCE, SEQUENCES};

/// What a receiver notes of a packet.
#[derive(Clone, Copy, Debug)]
pub struct Arrival {
    pub sequence: u16,
    pub timestamp: u32,
    pub arrival: u32,
}

/// A sender and the way from it.
#[derive(Clone, Debug)]
pub struct Source {
    /// what it sends next
    sequence: u16,
    timestamp: u32,
    /// the receiver's clock
    clock: u32,
    /// ticks from packet to packet
    step: u32,
    /// the way takes up to this much longer
    shake: usize,
    /// how often something befalls a packet, in percent
    trouble: usize,
}

/// Distances of a sequence number from the highest: around where the rules change.
const AHEAD: [u32; 15] = [
    0,
    1,
    2,
    MAX_DROPOUT - 1,
    MAX_DROPOUT,
    MAX_DROPOUT + 1,
    1 << 15,
    SEQUENCES - MAX_DROPOUT - 1,
    SEQUENCES - MAX_DROPOUT,
    SEQUENCES - MAX_MISORDER - 1,
    SEQUENCES - MAX_MISORDER,
    SEQUENCES - MAX_MISORDER + 1,
    SEQUENCES - MAX_MISORDER + 2,
    SEQUENCES - 2,
    SEQUENCES - 1,
];

/// Distances of a transit from the last: around the lowest signed number, and around 0.
const TRANSITS: [u32; 7] = [1 << 31, (1 << 31) - 1, (1 << 31) + 1, 0, 1, u32::MAX, 1 << 30];

impl Source {
    /// A source whose packets are troubled so often.
    pub fn new(r: &mut Random, trouble: usize) -> Source {
        let anywhere = r.bits() as u16;
        Source {
            sequence: r.pick(&[0, 1, 1000, 65_533, 65_534, 65_535, anywhere, anywhere]),
            timestamp: if r.percent(30) { 0u32.wrapping_sub(r.below(10_000) as u32) } else { r.word() },
            clock: if r.percent(30) { 0u32.wrapping_sub(r.below(10_000) as u32) } else { r.word() },
            step: r.pick(&[0, 1, 160, 960, 1 << 20]),
            shake: r.pick(&[1, 2, 40, 1000, 1 << 31]),
            trouble,
        }
    }

    /// The next packet to come, given what is kept of the source, so that it can be aimed at the edges of the rules.
    pub fn packet(&mut self, r: &mut Random, record: &Reception) -> Arrival {
        let late = r.below(self.shake) as u32;
        let mut packet = Arrival { sequence: self.sequence, timestamp: self.timestamp, arrival: self.clock.wrapping_add(late) };
        if r.percent(self.trouble) {
            let highest = record.highest as u16;
            match r.below(12) {
                // lost ones before it
                0 => self.skip(r.within(1, 10) as u16),
                1 => self.skip(r.pick(&[2997, 2998, 2999, 3000, 3001])),
                // a restart of the source
                2 => self.skip(r.bits() as u16),
                // repeated, late, or anything else from elsewhere: the next one of the source comes after it
                3 => return Arrival { sequence: highest.wrapping_add(r.below(2) as u16), ..packet },
                4 => return Arrival { sequence: highest.wrapping_sub(r.within(1, 120) as u16), ..packet },
                5 => return Arrival { sequence: highest.wrapping_add(r.pick(&AHEAD) as u16), ..packet },
                6 => return Arrival { sequence: (record.bad as u16).wrapping_add(r.pick(&[0, 0, 0, 1, u16::MAX])), ..packet },
                7 => return Arrival { sequence: r.bits() as u16, ..packet },
                // clocks that jump, and go back
                8 => self.clock = r.word(),
                9 => self.clock = self.clock.wrapping_sub(r.below(5000) as u32),
                10 => self.timestamp = r.word(),
                // a transit at an edge of signed numbers
                _ => packet.arrival = packet.timestamp.wrapping_add(record.transit).wrapping_add(r.pick(&TRANSITS)),
            }
            packet.sequence = self.sequence;
        }
        self.sequence = self.sequence.wrapping_add(1);
        self.timestamp = self.timestamp.wrapping_add(self.step);
        self.clock = self.clock.wrapping_add(self.step);
        packet
    }

    fn skip(&mut self, packets: u16) {
        self.sequence = self.sequence.wrapping_add(packets);
        self.timestamp = self.timestamp.wrapping_add(self.step.wrapping_mul(packets as u32));
        self.clock = self.clock.wrapping_add(self.step.wrapping_mul(packets as u32));
    }
}

/// Any number, those at the edges often.
fn number(r: &mut Random) -> u32 {
    match r.below(4) {
        0 => r.pick(&[0, 1, 2, 65_535, 65_536, NO_SEQUENCE, 131_071, (1 << 31) - 1, 1 << 31, u32::MAX - 1, u32::MAX]),
        1 => r.bits() as u16 as u32,
        2 => r.word() >> r.below(32),
        _ => r.word(),
    }
}

fn jitter(r: &mut Random) -> u64 {
    match r.below(8) {
        0 => MAX_JITTER_SUM - r.below(40) as u64,
        1 => MAX_JITTER_SUM + r.below(12) as u64,
        2 => r.below(40) as u64,
        3 => r.pick(&[1 << 31, (1 << 32) - 8, (1 << 32) - 1, 1 << 32, 1 << 35, (1 << 35) - 9, 1 << 36, 1 << 63, u64::MAX]),
        4 => r.bits() >> r.below(64),
        _ => r.bits() % (MAX_JITTER_SUM + 1),
    }
}

fn probation(r: &mut Random) -> u32 {
    match r.below(10) {
        0 => MIN_SEQUENTIAL + 1,
        1 => r.pick(&[4, 256, 257, 65_536, 65_537, 1 << 31, u32::MAX]),
        2..=4 => 0,
        _ => r.below(3) as u32,
    }
}

fn flag(r: &mut Random) -> u32 {
    r.pick(&[0, 1, 1, 1, 2, 256, 65_536, 1 << 31, u32::MAX])
}

/// A record with any numbers.
pub fn any_reception(r: &mut Random) -> Reception {
    Reception {
        jitter: if r.percent(70) { r.bits() % (MAX_JITTER_SUM + 1) } else { jitter(r) },
        probation: if r.percent(70) { r.below(3) as u32 } else { probation(r) },
        started: flag(r),
        base: number(r),
        highest: if r.percent(10) { SEQUENCES - 1 } else { number(r) },
        bad: number(r),
        cycles: number(r),
        received: number(r),
        expected_prior: number(r),
        received_prior: number(r),
        transit: number(r),
        transit_set: flag(r),
    }
}

/// Changes one number of a record.
pub fn change_reception(r: &mut Random, record: &mut Reception) {
    match r.below(12) {
        0 => record.jitter = jitter(r),
        1 => record.probation = probation(r),
        2 => record.started = flag(r),
        3 => record.base = number(r),
        4 => record.highest = number(r),
        5 => record.bad = number(r),
        // counters close to their wrap
        6 => record.cycles = if r.percent(50) { 0u32.wrapping_sub(SEQUENCES) } else { number(r) },
        7 => record.received = if r.percent(50) { u32::MAX - r.below(3) as u32 } else { number(r) },
        8 => record.expected_prior = number(r),
        9 => record.received_prior = number(r),
        10 => record.transit = number(r),
        _ => record.transit_set = flag(r),
    }
}

/// A record whose report comes to numbers at the edges: the loss of all time, and what was expected and lost since the last report.
pub fn reception_before_report(r: &mut Random) -> Reception {
    let lost = MAX_LOST as u32;
    let all = [0, 1, u32::MAX, lost - 1, lost, lost + 1, lost + 2, !lost, !lost - 1, !lost + 1, (1 << 31) - 1, 1 << 31, (1 << 31) + 1];
    let mut record = Reception { started: 1, transit_set: 1, ..any_reception(r) };
    let expected = record.cycles.wrapping_add(record.highest).wrapping_sub(record.base).wrapping_add(1);
    record.received = expected.wrapping_sub(if r.percent(70) { r.pick(&all) } else { number(r) });
    let some = [0, 1, 2, 3, 255, 256, 257, 2999, u32::MAX, u32::MAX - 9, (1 << 31) - 1, 1 << 31, (1 << 31) + 1];
    let interval = if r.percent(60) { r.pick(&some) } else { number(r) };
    // nothing, a few, a part, nearly all, all, more than all
    let lost = match r.below(8) {
        0 => 0,
        1 => r.pick(&[1, 2, u32::MAX]),
        2 => ((interval as u64 * r.below(256) as u64) / 256) as u32,
        3 => ((interval as u64 * r.below(256) as u64) / 256) as u32 + 1,
        4 => interval.wrapping_sub(r.below(3) as u32),
        5 => interval.wrapping_add(r.within(1, 20) as u32),
        6 => r.pick(&some),
        _ => number(r),
    };
    record.expected_prior = expected.wrapping_sub(interval);
    record.received_prior = record.received.wrapping_sub(interval.wrapping_sub(lost));
    record
}
