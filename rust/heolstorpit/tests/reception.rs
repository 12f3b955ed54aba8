//! `Reception` against the reference: long lists of packets and reports, every sequence number after many states, and records with any
//! numbers; answers and whole records are compared after each call.

mod common;

use cases::{Arrival, Random, Source};
use common::{raw_reception, Seen};
use heolstorpit::{raw, Reception, Refusal, Report};
use reference::{MAX_FRACTION, MAX_JITTER_SUM, MAX_LOST, MIN_LOST, SEQUENCES};

/// A record held by the library and by the reference.
#[derive(Default)]
struct Pair {
    record: reference::Reception,
    seen: Seen,
}

impl Pair {
    fn fresh(&mut self) {
        self.record = reference::Reception::default();
        assert_eq!(raw::reception_new(), raw_reception(&self.record));
    }

    /// A packet for this record; answers the record after it.
    fn packet_for(&mut self, record: reference::Reception, packet: Arrival) -> reference::Reception {
        let Arrival { sequence, timestamp, arrival } = packet;
        let answer = raw::reception_packet(raw_reception(&record), sequence, timestamp, arrival);
        let (after, expected) = reference::reception_packet(&record, sequence, timestamp, arrival);
        let numbers = raw::Received {
            refusal: expected.err().unwrap_or(0),
            valid: expected.unwrap_or(false) as u32,
            reception: raw_reception(&after),
        };
        assert_eq!(answer, numbers, "library, reference; {packet:?} for {record:?}");
        self.seen.refusal(answer.refusal);
        if let Ok(valid) = expected {
            self.seen.add(what_came(&record, &after, sequence, valid), 1);
            if valid {
                self.seen.add(what_moved(&record, &after), 1);
            }
        }
        after
    }

    /// A report of this record; answers the record after it.
    fn report_of(&mut self, record: reference::Reception) -> reference::Reception {
        let answer = raw::reception_report(raw_reception(&record));
        let (after, expected) = reference::reception_report(&record);
        let reference::Report { fraction_lost, cumulative_lost, highest_sequence, jitter } = expected.unwrap_or_default();
        let refusal = expected.err().unwrap_or(0);
        let reception = raw_reception(&after);
        let numbers = raw::Reported { refusal, fraction_lost, cumulative_lost, highest_sequence, jitter, reception };
        assert_eq!(answer, numbers, "library, reference; report of {record:?}");
        self.seen.refusal(refusal);
        if refusal == 0 {
            self.seen.add(if record.transit_set == 0 { "report of no valid packet" } else { "report" }, 1);
            self.seen.add("report: fraction above 0", (fraction_lost > 0) as u64);
            self.seen.add("report: fraction 255", (fraction_lost == MAX_FRACTION) as u64);
            self.seen.add("report: most lost", (cumulative_lost == MAX_LOST) as u64);
            self.seen.add("report: least lost", (cumulative_lost == MIN_LOST) as u64);
            self.seen.add("report: loss below 0", (cumulative_lost < 0) as u64);
        }
        after
    }

    fn packet(&mut self, packet: Arrival) {
        self.record = self.packet_for(self.record, packet);
    }

    fn report(&mut self) {
        self.record = self.report_of(self.record);
    }
}

/// Which rule of A.1 a packet met.
fn what_came(before: &reference::Reception, after: &reference::Reception, sequence: u16, valid: bool) -> &'static str {
    let again = after.base == sequence as u32 && after.received == 1 && after.highest == after.base;
    if before.started == 0 {
        "first packet"
    } else if before.probation > 0 {
        match (valid, sequence) {
            (true, 0) => "probation ended by 0",
            (true, _) => "probation ended",
            (false, _) if after.probation < before.probation => "probation goes on",
            (false, _) => "probation again",
        }
    } else if !valid {
        "sequence jumped"
    } else if before.bad == sequence as u32 && again {
        "restart"
    } else if after.cycles != before.cycles {
        "in order, wrapped"
    } else if after.highest != before.highest {
        "in order"
    } else {
        "late or repeated"
    }
}

/// What a valid packet did to the jitter.
fn what_moved(before: &reference::Reception, after: &reference::Reception) -> &'static str {
    if before.transit_set == 0 {
        return "transit set";
    }
    match after.transit.wrapping_sub(before.transit) as i32 {
        i32::MIN => "transit moved, by -2^31",
        0 => "transit the same",
        _ => "transit moved",
    }
}

/// What all tests have to meet.
const CAME: [&str; 11] = [
    "first packet",
    "probation goes on",
    "probation again",
    "probation ended",
    "probation ended by 0",
    "in order",
    "in order, wrapped",
    "late or repeated",
    "sequence jumped",
    "restart",
    "transit moved, by -2^31",
];

#[test]
fn histories() {
    let mut r = Random::new(71);
    let mut p = Pair::default();
    for _ in 0..4000 {
        p.fresh();
        let trouble = r.pick(&[0, 1, 5, 20, 60]);
        let mut source = Source::new(&mut r, trouble);
        let reports = r.pick(&[0, 2, 30]);
        for _ in 0..r.pick(&[3, 10, 100, 1000]) {
            let packet = source.packet(&mut r, &p.record);
            p.packet(packet);
            while r.percent(reports) {
                p.report();
            }
            // the same calls on a copy with some numbers changed
            if r.percent(10) {
                let mut copy = p.record;
                for _ in 0..r.within(1, 3) {
                    cases::change_reception(&mut r, &mut copy);
                }
                let packet = source.clone().packet(&mut r, &copy);
                p.packet_for(copy, packet);
                p.report_of(copy);
            }
        }
        p.report();
    }
    p.seen.report("reception, histories");
    p.seen.at_least(200, &CAME);
    p.seen.at_least(1000, &["accepted", "refusal 15", "report", "report of no valid packet", "transit set", "transit the same"]);
    p.seen.at_least(1000, &["report: fraction above 0", "report: loss below 0"]);
}

/// Few, but over many cycles: the sums of long streams.
#[test]
fn long_histories() {
    let mut r = Random::new(72);
    let mut p = Pair::default();
    for trouble in [0, 1, 3] {
        p.fresh();
        let mut source = Source::new(&mut r, trouble);
        for i in 0..500_000 {
            let packet = source.packet(&mut r, &p.record);
            p.packet(packet);
            if i % 250 == 0 {
                p.report();
            }
        }
    }
    p.seen.report("reception, long histories");
    p.seen.at_least(20, &["in order, wrapped", "restart"]);
}

/// Every sequence number, after records with highest and bad sequences around the edges, on probation and off it.
#[test]
fn every_sequence() {
    let mut r = Random::new(73);
    let mut p = Pair::default();
    for highest in [0, 1, 99, 100, 2999, 3000, 32_768, 62_536, 65_435, 65_436, 65_535, 65_536, 70_000, u32::MAX] {
        for probation in 0..=2 {
            let (bad, transit) = (r.pick(&[40_000, 65_537, 65_536 + 40_000, 0]), r.word());
            let record = reference::Reception { probation, started: 1, base: 5, highest, bad, transit, ..cases::any_reception(&mut r) };
            let record = reference::Reception { jitter: record.jitter.min(MAX_JITTER_SUM), ..record };
            for sequence in 0..=u16::MAX {
                p.packet_for(record, Arrival { sequence, timestamp: 0, arrival: transit.wrapping_add(1 << 31) });
            }
        }
    }
    p.seen.report("reception, every sequence");
    p.seen.at_least(
        1,
        &["probation goes on", "probation again", "probation ended", "in order", "late or repeated", "sequence jumped", "restart"],
    );
}

/// Records with any numbers, and records whose reports come to the edges.
#[test]
fn any_records() {
    let mut r = Random::new(74);
    let mut p = Pair::default();
    for _ in 0..400_000 {
        let record = if r.percent(60) { cases::any_reception(&mut r) } else { cases::reception_before_report(&mut r) };
        let mut source = Source::new(&mut r, 100);
        for _ in 0..2 {
            let packet = source.packet(&mut r, &record);
            p.packet_for(record, packet);
        }
        let after = p.report_of(record);
        // and again: the same loss, and none since
        p.report_of(after);
    }
    p.seen.report("reception, any records");
    p.seen.at_least(200, &CAME);
    p.seen.at_least(1000, &["accepted", "refusal 15", "report", "report of no valid packet", "transit set"]);
    p.seen.at_least(1000, &["report: fraction above 0", "report: fraction 255", "report: most lost", "report: least lost"]);
}

/// 15 exactly for a probation over 2 or a sum over 2^35 - 8, whatever else; the record comes back as given.
#[test]
fn refused_exactly() {
    let mut r = Random::new(75);
    let mut p = Pair::default();
    let sums = [0, 1, MAX_JITTER_SUM - 1, MAX_JITTER_SUM, MAX_JITTER_SUM + 1, MAX_JITTER_SUM + 8, 1 << 36, 1 << 63, u64::MAX];
    for round in 0..3000 {
        for probation in [0, 1, 2, 3, 4, 256, 65_536, 1 << 31, u32::MAX] {
            for jitter in sums {
                let any = if round == 0 { reference::Reception::default() } else { cases::any_reception(&mut r) };
                let record = reference::Reception { jitter, probation, ..any };
                let refusal = if probation > 2 || jitter > MAX_JITTER_SUM { 15 } else { 0 };
                let packet = Source::new(&mut r, 100).packet(&mut r, &record);
                let after = p.packet_for(record, packet);
                let received = raw::reception_packet(raw_reception(&record), packet.sequence, packet.timestamp, packet.arrival);
                let reported = raw::reception_report(raw_reception(&record));
                p.report_of(record);
                assert_eq!([received.refusal, reported.refusal], [refusal; 2], "{record:?}");
                assert!(refusal == 0 || (after == record && reported.reception == raw_reception(&record)));
                assert!(after.jitter <= MAX_JITTER_SUM || refusal == 15);
            }
        }
    }
    p.seen.report("reception, refused");
    p.seen.at_least(50_000, &["accepted", "refusal 15"]);
}

/// A.8 alone: sums and transit differences around the edges, each with each.
#[test]
fn sums_of_jitter() {
    let mut p = Pair::default();
    let near = |at: u64| (at.saturating_sub(20)..=at + 20).collect::<Vec<_>>();
    let sums: Vec<u64> = [0, 1 << 31, 1 << 32, 1 << 34, MAX_JITTER_SUM].into_iter().flat_map(near).collect();
    let moves: Vec<u32> = [0, 1 << 31, u32::MAX as u64].into_iter().flat_map(near).map(|n| n as u32).collect();
    for jitter in &sums {
        for moved in &moves {
            for transit in [0, 5, 1 << 31, u32::MAX] {
                let valid = reference::Reception { started: 1, transit_set: 1, highest: 9, base: 9, received: 1, ..Default::default() };
                let record = reference::Reception { jitter: *jitter, transit, ..valid };
                let after =
                    p.packet_for(record, Arrival { sequence: 10, timestamp: 7, arrival: transit.wrapping_add(*moved).wrapping_add(7) });
                p.report_of(after);
            }
        }
    }
    p.seen.report("reception, sums of jitter");
    p.seen.at_least(100, &["accepted", "refusal 15", "transit moved, by -2^31"]);
}

/// A stream across 65535 with a loss, a repeat and a restart, by hand; through the friendly functions.
#[test]
fn a_stream_by_hand() {
    let mut reception = Reception::new();
    assert_eq!(reception, Reception::default());
    assert_eq!(reception.report(), Ok(Report::default()));
    assert_eq!(reception, Reception::new());
    // in probation 0 follows 65535
    assert_eq!([65_535, 0, 1].map(|sequence| reception.packet(sequence, 500, 700)), [Ok(false), Ok(true), Ok(true)]);
    assert_eq!(reception.report(), Ok(Report { highest_sequence: 1, ..Report::default() }));
    // 2 to 4 lost, 5 twice, the second time 160 ticks later: 4 expected since, 2 received
    assert_eq!([(5, 700), (5, 860)].map(|(sequence, arrival)| reception.packet(sequence, 500, arrival)), [Ok(true); 2]);
    assert_eq!(reception.report(), Ok(Report { fraction_lost: 128, cumulative_lost: 2, highest_sequence: 5, jitter: 10 }));
    // a jump changes nothing of that; the packet after it is a restart, 2^31 ticks late: 160 + 2^31 - 168 / 16
    assert_eq!(reception.packet(30_000, 500, 9), Ok(false));
    assert_eq!(reception.report(), Ok(Report { fraction_lost: 0, cumulative_lost: 2, highest_sequence: 5, jitter: 10 }));
    assert_eq!(reception.packet(30_001, 500, 860 + (1 << 31)), Ok(true));
    assert_eq!(reception.as_raw().jitter, 2_147_483_798);
    assert_eq!(reception.report(), Ok(Report { fraction_lost: 0, cumulative_lost: 0, highest_sequence: 30_001, jitter: 134_217_737 }));
    // on to the next cycle
    for sequence in 30_002..=u32::from(u16::MAX) + 3 {
        assert_eq!(reception.packet(sequence as u16, 500, 860), Ok(true));
    }
    let report = reception.report().unwrap();
    assert_eq!((report.fraction_lost, report.cumulative_lost, report.highest_sequence), (0, 0, SEQUENCES + 2));
    // and a state out of range
    let mut spoiled = Reception::from_raw(raw::Reception { probation: 3, ..*reception.as_raw() });
    let before = spoiled;
    assert_eq!((spoiled.packet(3, 0, 0), spoiled.report()), (Err(Refusal::Malformed), Err(Refusal::Malformed)));
    assert_eq!(spoiled, before);
}
