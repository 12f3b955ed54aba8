//! Reception reports: document 02's P7, by RFC 3550's appendix A.1 (is a packet valid), A.3 (loss) and A.8 (jitter, in whole numbers).
//!
//! Sums and differences are made in wide numbers first, and then brought to the range that the papers say.

use crate::BAD_BUFFER;

/// RTP_SEQ_MOD: sequence numbers have 16 bits
pub const SEQUENCES: u32 = 65_536;
/// "a value that no sequence has": RTP_SEQ_MOD + 1
pub const NO_SEQUENCE: u32 = SEQUENCES + 1;
/// "dropout 3,000"
pub const MAX_DROPOUT: u32 = 3_000;
/// "misorder 100"
pub const MAX_MISORDER: u32 = 100;
/// "two packets of probation"
pub const MIN_SEQUENTIAL: u32 = 2;
/// "a sum over 2^35 − 8 is 15"
pub const MAX_JITTER_SUM: u64 = (1 << 35) - 8;
/// "Cumulative lost is held between −8388608 and 8388607": 24 bits signed
pub const MIN_LOST: i32 = -8_388_608;
pub const MAX_LOST: i32 = 8_388_607;
/// "the fraction .. stops at 255"
pub const MAX_FRACTION: u32 = 255;
/// A record that is refused has the number of a malformed buffer.
pub const BAD_RECEPTION: u32 = BAD_BUFFER;

/// What is kept of a source, as the library lays it out.
#[derive(Clone, Copy, Debug, Default, PartialEq, Eq)]
pub struct Reception {
    /// the sum: 16 times the jitter
    pub jitter: u64,
    /// packets in sequence still wanted
    pub probation: u32,
    /// 0: no packet yet
    pub started: u32,
    pub base: u32,
    pub highest: u32,
    pub bad: u32,
    pub cycles: u32,
    pub received: u32,
    pub expected_prior: u32,
    pub received_prior: u32,
    /// of the last valid packet
    pub transit: u32,
    /// 0: no valid packet yet
    pub transit_set: u32,
}

/// The report block's four numbers.
#[derive(Clone, Copy, Debug, Default, PartialEq, Eq)]
pub struct Report {
    pub fraction_lost: u32,
    pub cumulative_lost: i32,
    pub highest_sequence: u32,
    pub jitter: u32,
}

/// Sequence numbers have 16 bits, and a record handed in may have more of the highest. The papers do not say what that means, so it is a
/// choice, made here: where the rules compare it with a packet's sequence, it is what is left modulo 65,536. All else is read as the number
/// that it is: `bad`, which no sequence equals then, and base and highest in the sums of a report.
fn highest_as_sequence(record: &Reception) -> u32 {
    record.highest % SEQUENCES
}

/// What a flag is once its first packet has come. A record handed in may have other numbers than 1 for that, a choice as well:
/// such a number stays what it is.
const SET: u32 = 1;

/// "Counters run modulo 2^32"
fn modulo(number: i64) -> u32 {
    number.rem_euclid(1 << 32) as u32
}

/// "their differences read as signed"
fn difference(a: u32, b: u32) -> i64 {
    let ahead = modulo(a as i64 - b as i64) as i64;
    if ahead < 1 << 31 {
        ahead
    } else {
        ahead - (1 << 32)
    }
}

/// "a record with probation over 2 or a sum over 2^35 − 8 is 15"
fn refused(record: &Reception) -> bool {
    record.probation > MIN_SEQUENTIAL || record.jitter > MAX_JITTER_SUM
}

/// A packet with its arrival clock: is it valid? Refused calls leave the record as given.
pub fn reception_packet(record: &Reception, sequence: u16, timestamp: u32, arrival: u32) -> (Reception, Result<bool, u32>) {
    if refused(record) {
        return (*record, Err(BAD_RECEPTION));
    }
    let mut after = *record;
    let valid = update_sequence(&mut after, sequence as u32);
    if valid {
        update_jitter(&mut after, timestamp, arrival);
    }
    (after, Ok(valid))
}

/// A.1's init_seq: "base = highest = its sequence, bad = a value that no sequence has, all counts 0"
fn start_anew(record: &mut Reception, sequence: u32) {
    record.base = sequence;
    record.highest = sequence;
    record.bad = NO_SEQUENCE;
    record.cycles = 0;
    record.received = 0;
    record.expected_prior = 0;
    record.received_prior = 0;
}

/// A.1's update_seq, and before it what A.1 does on a source's first packet.
fn update_sequence(record: &mut Reception, sequence: u32) -> bool {
    if record.started == 0 {
        start_anew(record, sequence);
        record.highest = (sequence + SEQUENCES - 1) % SEQUENCES;
        record.probation = MIN_SEQUENTIAL;
        record.started = SET;
    }
    let highest = highest_as_sequence(record);
    let ahead = (sequence + SEQUENCES - highest) % SEQUENCES;
    if record.probation > 0 {
        // "0 follows 65535"
        let follows = sequence == (highest + 1) % SEQUENCES;
        record.highest = sequence;
        if !follows {
            record.probation = MIN_SEQUENTIAL - 1;
            return false;
        }
        record.probation -= 1;
        if record.probation > 0 {
            return false;
        }
        start_anew(record, sequence);
    } else if ahead < MAX_DROPOUT {
        // in order
        if sequence < highest {
            record.cycles = modulo(record.cycles as i64 + SEQUENCES as i64);
        }
        record.highest = sequence;
    } else if ahead <= SEQUENCES - MAX_MISORDER {
        // the first of two in a row is not valid; the second is a restart
        if sequence != record.bad {
            record.bad = (sequence + 1) % SEQUENCES;
            return false;
        }
        start_anew(record, sequence);
    }
    // and else late or repeated: nothing of the sequence changes
    record.received = modulo(record.received as i64 + 1);
    true
}

/// A.8: "the first valid packet only sets the transit"; "sum += d − (sum + 8) / 16".
fn update_jitter(record: &mut Reception, timestamp: u32, arrival: u32) {
    let transit = modulo(arrival as i64 - timestamp as i64);
    if record.transit_set != 0 {
        // "their size is exact at the lowest value"
        let size = difference(transit, record.transit).unsigned_abs();
        record.jitter = record.jitter + size - (record.jitter + 8) / 16;
    } else {
        record.transit_set = SET;
    }
    record.transit = transit;
}

/// A.3: the report, and the record that notes it. "a report before [the first valid packet] is all zeros and changes nothing"
pub fn reception_report(record: &Reception) -> (Reception, Result<Report, u32>) {
    if refused(record) {
        return (*record, Err(BAD_RECEPTION));
    }
    if record.transit_set == 0 {
        return (*record, Ok(Report::default()));
    }
    let highest = modulo(record.cycles as i64 + record.highest as i64);
    let expected = modulo(highest as i64 - record.base as i64 + 1);
    let lost = difference(expected, record.received);
    let expected_interval = difference(expected, record.expected_prior);
    let received_interval = difference(record.received, record.received_prior);
    // a difference of counters as well: modulo 2^32, read as signed
    let lost_interval = difference(modulo(expected_interval), modulo(received_interval));
    let report = Report {
        fraction_lost: fraction(lost_interval, expected_interval),
        cumulative_lost: lost.clamp(MIN_LOST as i64, MAX_LOST as i64) as i32,
        highest_sequence: highest,
        jitter: (record.jitter / 16) as u32,
    };
    (Reception { expected_prior: expected, received_prior: record.received, ..*record }, Ok(report))
}

/// "the fraction is 0 unless lost and expected since the last report are above 0, and stops at 255"
fn fraction(lost: i64, expected: i64) -> u32 {
    if lost <= 0 || expected <= 0 {
        return 0;
    }
    (lost * 256 / expected).min(MAX_FRACTION as i64) as u32
}
