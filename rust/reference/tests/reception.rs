//! Reception reports: examples worked by hand from RFC 3550's appendix A.1, A.3 and A.8 and document 02's P7.

use reference::*;

/// Packets with these sequences, all with the same transit: which of them are valid.
fn feed(record: &mut Reception, sequences: &[u16]) -> Vec<bool> {
    let one = |sequence: &u16| packet(record, *sequence, 0);
    sequences.iter().map(one).collect()
}

/// A packet with this transit, valid or not.
fn packet(record: &mut Reception, sequence: u16, transit: u32) -> bool {
    let (after, valid) = reception_packet(record, sequence, 1000, transit.wrapping_add(1000));
    *record = after;
    valid.unwrap()
}

fn report(record: &mut Reception) -> Report {
    let (after, report) = reception_report(record);
    *record = after;
    report.unwrap()
}

/// A source past its probation, with this highest sequence: the one packet that is counted, its transit 0.
fn source(highest: u16) -> Reception {
    let mut record = Reception::default();
    assert_eq!(feed(&mut record, &[highest.wrapping_sub(1), highest]), [false, true]);
    record
}

#[test]
fn two_packets_of_probation() {
    let mut record = Reception::default();
    assert!(!packet(&mut record, 10, 7));
    let first = Reception { probation: 1, started: 1, base: 10, highest: 10, bad: 65_537, ..Default::default() };
    assert_eq!(record, first);
    // a report before the first valid packet: zeros, and nothing noted
    assert_eq!((report(&mut record), record), (Report::default(), first));
    assert!(packet(&mut record, 11, 9));
    let valid = Reception { started: 1, base: 11, highest: 11, bad: 65_537, received: 1, transit: 9, transit_set: 1, ..Default::default() };
    assert_eq!(record, valid);
}

#[test]
fn probation_begins_again() {
    // a gap, and a repeat, leave one packet in sequence to be wanted
    for second in [12, 10, 9, 5000] {
        let mut record = Reception::default();
        assert_eq!(feed(&mut record, &[10, second]), [false, false]);
        assert_eq!((record.probation, record.base, record.highest, record.received), (1, 10, second as u32, 0));
        assert_eq!(feed(&mut record, &[second + 1]), [true]);
        assert_eq!((record.probation, record.base, record.highest, record.received), (0, second as u32 + 1, second as u32 + 1, 1));
    }
}

#[test]
fn in_probation_0_follows_65535() {
    let mut record = Reception::default();
    assert_eq!(feed(&mut record, &[65_535, 0]), [false, true]);
    assert_eq!((record.base, record.highest, record.cycles, record.received), (0, 0, 0, 1));
    // and 0 as the first packet of all
    let mut record = Reception::default();
    assert_eq!(feed(&mut record, &[0]), [false]);
    assert_eq!((record.probation, record.base, record.highest), (1, 0, 0));
}

#[test]
fn the_wrap_counts_a_cycle() {
    let mut record = source(65_534);
    assert_eq!(feed(&mut record, &[65_535, 0, 1]), [true; 3]);
    assert_eq!((record.cycles, record.highest, record.received), (65_536, 1, 4));
    // 65534, 65535, 0 and 1 were expected
    assert_eq!(report(&mut record), Report { highest_sequence: 65_537, ..Default::default() });
    assert_eq!((record.expected_prior, record.received_prior), (4, 4));
    // 65535 again is late: no cycle is counted back, and none when the stream goes on
    assert_eq!(feed(&mut record, &[65_535, 2]), [true; 2]);
    assert_eq!((record.cycles, record.highest, record.received), (65_536, 2, 6));
}

#[test]
fn losses_and_repeats() {
    let mut record = source(101);
    feed(&mut record, &[102, 105, 106]);
    // 6 expected, 4 received: 2 x 256 / 6
    assert_eq!(report(&mut record), Report { fraction_lost: 85, cumulative_lost: 2, highest_sequence: 106, jitter: 0 });
    assert_eq!((record.expected_prior, record.received_prior), (6, 4));
    feed(&mut record, &[107, 108]);
    assert_eq!(report(&mut record), Report { fraction_lost: 0, cumulative_lost: 2, highest_sequence: 108, jitter: 0 });
    // both of the lost come late, and one of them twice
    assert_eq!(feed(&mut record, &[103, 104, 104]), [true; 3]);
    assert_eq!(report(&mut record), Report { fraction_lost: 0, cumulative_lost: -1, highest_sequence: 108, jitter: 0 });
    // again without a packet
    assert_eq!(report(&mut record), Report { fraction_lost: 0, cumulative_lost: -1, highest_sequence: 108, jitter: 0 });
    // 1 of 2 lost since then
    feed(&mut record, &[110]);
    assert_eq!(report(&mut record), Report { fraction_lost: 128, cumulative_lost: 0, highest_sequence: 110, jitter: 0 });
}

#[test]
fn edges_of_dropout_and_misorder() {
    // sequence, valid, highest after it, bad after it; the highest is 1000
    let table = [
        (1000, true, 1000, 65_537),
        (1001, true, 1001, 65_537),
        (3999, true, 3999, 65_537),
        (4000, false, 1000, 4001),
        (40_000, false, 1000, 40_001),
        (65_535, false, 1000, 0),
        (899, false, 1000, 900),
        (900, false, 1000, 901),
        (901, true, 1000, 65_537),
        (999, true, 1000, 65_537),
    ];
    for (sequence, valid, highest, bad) in table {
        let before = source(1000);
        let mut record = before;
        assert_eq!(packet(&mut record, sequence, 0), valid, "{sequence}");
        assert_eq!(record, Reception { highest, bad, received: 1 + valid as u32, ..before }, "{sequence}");
    }
}

#[test]
fn a_restart() {
    let mut record = source(1000);
    packet(&mut record, 1001, 160);
    report(&mut record);
    assert_eq!((record.jitter, record.expected_prior, record.received_prior), (160, 2, 2));
    let before = record;
    // one out of the rules changes the bad sequence only
    assert!(!packet(&mut record, 65_535, 5));
    assert_eq!(record, Reception { bad: 0, ..before });
    // 0 follows it: the state starts anew; transit and sum stay, and the packet enters A.8: 160 + 16 - 168 / 16
    assert!(packet(&mut record, 0, 176));
    let anew = Reception { base: 0, highest: 0, bad: 65_537, received: 1, expected_prior: 0, received_prior: 0, ..before };
    assert_eq!(record, Reception { transit: 176, jitter: 166, ..anew });
    // not the same twice: the one after it is wanted
    let mut record = source(1000);
    assert_eq!(feed(&mut record, &[5000, 5000, 5001]), [false, false, true]);
    assert_eq!((record.base, record.received), (5001, 1));
    // packets of the old stream between them are valid, and leave the bad sequence
    let mut record = source(1000);
    assert_eq!(feed(&mut record, &[5000, 1001, 5001]), [false, true, true]);
    assert_eq!((record.base, record.highest, record.received), (5001, 5001, 1));
}

#[test]
fn the_sum_of_the_jitter() {
    let mut record = source(1);
    assert_eq!((record.jitter, record.transit, record.transit_set), (0, 0, 1));
    // transit, sum after it
    let table = [
        (160, 160),
        // 160 + 0 - 168 / 16
        (160, 150),
        // 150 + 40 - 158 / 16
        (120, 181),
        // 2^31 ahead is 2^31 back: 181 + 2147483648 - 189 / 16
        (120 + (1 << 31), 2_147_483_818),
        // 2147483818 + 0 - 2147483826 / 16
        (120 + (1 << 31), 2_013_266_079),
        // 2^31 - 1 back: 2013266079 + 2147483647 - 2013266087 / 16
        (121, 4_034_920_596),
    ];
    for (i, (transit, sum)) in table.into_iter().enumerate() {
        assert!(packet(&mut record, 2 + i as u16, transit));
        assert_eq!((record.jitter, record.transit), (sum, transit), "packet {i}");
    }
    assert_eq!(report(&mut record).jitter, 252_182_537);
    // late and repeated packets enter too: 4034920596 + 1 - 4034920604 / 16
    assert!(packet(&mut record, 7, 122));
    assert_eq!((record.jitter, record.highest, record.received), (3_782_738_060, 7, 8));
}

#[test]
fn clocks_wrap() {
    let mut record = source(1);
    let (after, _) = reception_packet(&record, 2, u32::MAX - 5, 5);
    assert_eq!((after.transit, after.jitter), (11, 11));
    let (after, _) = reception_packet(&record, 2, 5, u32::MAX - 5);
    assert_eq!((after.transit, after.jitter), (u32::MAX - 10, 11));
    record.transit = u32::MAX;
    let (after, _) = reception_packet(&record, 2, 0, 0);
    assert_eq!((after.transit, after.jitter), (0, 1));
}

#[test]
fn the_greatest_sum_stays() {
    let mut record = Reception { jitter: MAX_JITTER_SUM, ..source(1) };
    packet(&mut record, 2, 1 << 31);
    assert_eq!((record.jitter, report(&mut record).jitter), (34_359_738_360, 2_147_483_647));
    packet(&mut record, 3, 1);
    assert_eq!(record.jitter, 34_359_738_359);
}

#[test]
fn a_source_sums_up_to_what_is_held() {
    // cycles 200 and highest 65535 from base 0: 13172736 expected
    let record = Reception { cycles: 200 * 65_536, highest: 65_535, base: 0, ..source(1) };
    let table = [
        (1, 8_388_607),
        (13_172_736 - 8_388_608, 8_388_607),
        (13_172_736 - 8_388_607, 8_388_607),
        (13_172_736 - 8_388_606, 8_388_606),
        (13_172_736, 0),
        (13_172_736 + 8_388_607, -8_388_607),
        (13_172_736 + 8_388_608, -8_388_608),
        (13_172_736 + 8_388_609, -8_388_608),
        // 2^31 more is 2^31 less, and one more is less than that by one
        (13_172_736 + (1 << 31), -8_388_608),
        (13_172_736 + (1 << 31) + 1, 8_388_607),
        (u32::MAX, 8_388_607),
    ];
    for (received, lost) in table {
        let mut record = Reception { received, ..record };
        assert_eq!(report(&mut record).cumulative_lost, lost, "{received}");
        assert_eq!((record.expected_prior, record.received_prior), (13_172_736, received));
    }
    // 5 expected, and one less than 2^32 received: that is -1, so 6 are lost
    let mut record = Reception { base: 1, highest: 5, received: u32::MAX, ..source(1) };
    assert_eq!(report(&mut record).cumulative_lost, 6);
}

#[test]
fn counters_wrap() {
    let mut record = Reception { cycles: 4_294_901_760, base: 5, highest: 65_535, received: u32::MAX, ..source(1) };
    assert_eq!(report(&mut record).highest_sequence, u32::MAX);
    assert_eq!(record.expected_prior, 4_294_967_291);
    assert_eq!(feed(&mut record, &[0]), [true]);
    assert_eq!((record.cycles, record.highest, record.received), (0, 0, 0));
    // one expected since then, one received
    assert_eq!(report(&mut record), Report { fraction_lost: 0, cumulative_lost: -4, highest_sequence: 0, jitter: 0 });
    assert_eq!((record.expected_prior, record.received_prior), (4_294_967_292, 0));
}

#[test]
fn the_fraction() {
    // expected, received since the last report; the fraction
    let table: [(i64, i64, u32); 14] = [
        (0, 0, 0),
        (10, 10, 0),
        (10, 11, 0),
        (10, 9, 25),
        (256, 255, 1),
        (257, 256, 0),
        (2999, 1, 255),
        // as many as expected, and more
        (10, 0, 255),
        (10, -5, 255),
        (1, 0, 255),
        (-10, -20, 0),
        (0, -5, 0),
        ((1 << 31) - 1, 0, 255),
        ((1 << 31) - 1, 1 << 30, 127),
    ];
    for (expected, received, fraction) in table {
        let record = Reception { base: 11, highest: 20, received: 7, ..source(1) };
        let expected_prior = 10u32.wrapping_sub(expected as u32);
        let received_prior = 7u32.wrapping_sub(received as u32);
        let mut record = Reception { expected_prior, received_prior, ..record };
        assert_eq!(report(&mut record).fraction_lost, fraction, "{expected} {received}");
        assert_eq!((record.expected_prior, record.received_prior), (10, 7));
    }
}

#[test]
fn what_is_refused() {
    let record = source(1);
    let table = [
        (Reception { probation: 2, ..record }, false),
        (Reception { probation: 3, ..record }, true),
        (Reception { probation: u32::MAX, ..record }, true),
        (Reception { jitter: 34_359_738_360, ..record }, false),
        (Reception { jitter: 34_359_738_361, ..record }, true),
        (Reception { jitter: u64::MAX, ..record }, true),
        (Reception { probation: 3, ..Default::default() }, true),
        (Reception { jitter: 1 << 35, ..Default::default() }, true),
        (Reception { started: 9, bad: 9, cycles: 9, transit: 9, ..Default::default() }, false),
    ];
    for (record, refused) in table {
        let (after, answer) = reception_packet(&record, 2, 3, 4);
        assert_eq!(answer.err(), refused.then_some(15), "{record:?}");
        assert!(!refused || after == record);
        let (after, answer) = reception_report(&record);
        assert_eq!(answer.err(), refused.then_some(15), "{record:?}");
        assert!(!refused || after == record);
    }
}

/// A highest sequence of more than 16 bits: 70000 is 4464 as a sequence, and itself in a report.
#[test]
fn sequences_beyond_16_bits() {
    let record = Reception { highest: 70_000, base: 69_999, ..source(1) };
    assert_eq!(reception_report(&record).1.unwrap().highest_sequence, 70_000);
    assert_eq!(reception_report(&record).1.unwrap().cumulative_lost, 1);
    let (after, valid) = reception_packet(&record, 4465, 0, 0);
    assert_eq!((after.highest, after.cycles, valid), (4465, 0, Ok(true)));
    let (after, valid) = reception_packet(&record, 4463, 0, 0);
    assert_eq!((after.highest, after.received, valid), (70_000, 2, Ok(true)));
    let (after, valid) = reception_packet(&Reception { probation: 1, ..record }, 4465, 0, 0);
    assert_eq!((after.probation, after.base, valid), (0, 4465, Ok(true)));
    let (after, valid) = reception_packet(&Reception { highest: 131_071, ..record }, 0, 0, 0);
    assert_eq!((after.highest, after.cycles, valid), (0, 65_536, Ok(true)));
    // no sequence is a bad one beyond 16 bits
    let (after, valid) = reception_packet(&Reception { bad: 65_536 + 20_000, ..record }, 20_000, 0, 0);
    assert_eq!((after.bad, valid), (20_001, Ok(false)));
}

/// Flags other than 0 and 1 are flags that are set; those in a source's first packet's record that A.1 does not name stay.
#[test]
fn other_flags() {
    let record = Reception { started: 7, transit_set: 8, transit: 100, ..source(1) };
    assert_eq!(reception_report(&record).1.unwrap().highest_sequence, 1);
    let (after, _) = reception_packet(&record, 2, 0, 116);
    assert_eq!((after.jitter, after.highest, after.received, after.started, after.transit_set), (16, 2, 2, 7, 8));
    let record = Reception { jitter: 5, started: 0, transit: 6, transit_set: 8, cycles: 9, expected_prior: 9, ..source(1) };
    let (after, valid) = reception_packet(&record, 2, 0, 116);
    let first = Reception { probation: 1, started: 1, base: 2, highest: 2, bad: 65_537, ..Default::default() };
    assert_eq!((after, valid), (Reception { jitter: 5, transit: 6, transit_set: 8, ..first }, Ok(false)));
}
