//! The C functions over the reference. mutants.sh builds it over a reference with a fault planted in it, links the tests to
//! that, and sees them fail.

use reference::{Buffer, Drawn, Fault, LogCursor, LogFrame, LogStep, Reception, Report, Settings, Verdicts, SLOTS};
use std::slice::{from_raw_parts, from_raw_parts_mut};

#[repr(C)]
#[derive(Clone, Copy)]
pub struct CSettings(u8, u8, u8, u8);

#[repr(C)]
pub struct CReading([u32; 8]);

#[repr(C)]
pub struct CWritten(u32, u32);

#[repr(C)]
#[derive(Clone, Copy)]
pub struct CBuffer {
    columns: [[u32; SLOTS]; 4],
    occupied: [u64; 3],
    last: [u32; 3],
    settings: CSettings,
}

#[repr(C)]
pub struct CFresh(u32, CBuffer);

#[repr(C)]
pub struct COffered([u32; 8], CBuffer);

#[repr(C)]
pub struct CDrawn([u32; 7], CBuffer);

#[repr(C)]
#[derive(Clone, Copy)]
pub struct CReception(u64, [u32; 11]);

#[repr(C)]
pub struct CReceived(u32, u32, CReception);

#[repr(C)]
pub struct CReported(u32, u32, i32, u32, u32, CReception);

#[repr(C)]
#[derive(Clone, Copy)]
pub struct CCursor(CSettings, u64, u64);

#[repr(C)]
pub struct COpened(u32, CCursor);

#[repr(C)]
pub struct CStepped([u32; 5], u64, u64, CCursor);

#[repr(C)]
pub struct CLogWritten(u32, u64);

fn settings(s: CSettings) -> Settings {
    Settings { format: s.0, channels: s.1, payload_type: s.2, redundancy_type: s.3 }
}

fn c_settings(s: Settings) -> CSettings {
    CSettings(s.format, s.channels, s.payload_type, s.redundancy_type)
}

fn buffer(b: CBuffer) -> Buffer {
    let [times, tags, lengths, slots] = b.columns;
    let [last_time, last_channel, drawn] = b.last;
    Buffer { times, tags, lengths, slots, occupied: b.occupied, last_time, last_channel, drawn, settings: settings(b.settings) }
}

fn c_buffer(b: Buffer) -> CBuffer {
    CBuffer {
        columns: [b.times, b.tags, b.lengths, b.slots],
        occupied: b.occupied,
        last: [b.last_time, b.last_channel, b.drawn],
        settings: c_settings(b.settings),
    }
}

fn reception(r: CReception) -> Reception {
    let [probation, started, base, highest, bad, cycles, received, expected_prior, received_prior, transit, transit_set] = r.1;
    let jitter = r.0;
    Reception { jitter, probation, started, base, highest, bad, cycles, received, expected_prior, received_prior, transit, transit_set }
}

fn c_reception(r: Reception) -> CReception {
    let Reception {
        jitter,
        probation,
        started,
        base,
        highest,
        bad,
        cycles,
        received,
        expected_prior,
        received_prior,
        transit,
        transit_set,
    } = r;
    CReception(jitter, [probation, started, base, highest, bad, cycles, received, expected_prior, received_prior, transit, transit_set])
}

fn c_cursor(c: LogCursor) -> CCursor {
    CCursor(c_settings(c.settings), c.place, c.count)
}

fn written(answer: Result<u32, u32>) -> CWritten {
    match answer {
        Ok(length) => CWritten(0, length),
        Err(refusal) => CWritten(refusal, 0),
    }
}

#[no_mangle]
pub unsafe extern "C" fn hsp_read(s: CSettings, packet: *const u8, n: usize, rows: *mut u32, m: usize) -> CReading {
    match reference::read(settings(s), from_raw_parts(packet, n), from_raw_parts_mut(rows, m)) {
        Ok(r) => CReading([0, 0, r.rows, r.marker, r.sequence, r.timestamp, r.source, r.mode_request]),
        Err(Fault { refusal, offset }) => CReading([refusal, offset, 0, 0, 0, 0, 0, 0]),
    }
}

#[no_mangle]
pub unsafe extern "C" fn hsp_write_payload(
    s: CSettings,
    mode_request: u8,
    rows: *const u32,
    n: usize,
    bytes: *const u8,
    m: usize,
    out: *mut u8,
    o: usize,
) -> CWritten {
    let (rows, bytes) = (from_raw_parts(rows, n), from_raw_parts(bytes, m));
    written(reference::write_payload(settings(s), mode_request, rows, bytes, from_raw_parts_mut(out, o)))
}

#[no_mangle]
#[allow(clippy::too_many_arguments)]
pub unsafe extern "C" fn hsp_write_packet(
    s: CSettings,
    mode_request: u8,
    marker: u8,
    sequence: u16,
    source: u32,
    counts: *const u32,
    c: usize,
    rows: *const u32,
    n: usize,
    bytes: *const u8,
    m: usize,
    out: *mut u8,
    o: usize,
) -> CWritten {
    let counts = from_raw_parts(counts, c);
    let rows = from_raw_parts(rows, n);
    let bytes = from_raw_parts(bytes, m);
    let out = from_raw_parts_mut(out, o);
    written(reference::write_packet(settings(s), mode_request, marker != 0, sequence, source, counts, rows, bytes, out))
}

#[no_mangle]
pub extern "C" fn hsp_new(s: CSettings) -> CFresh {
    let (b, answer) = reference::fresh(settings(s));
    CFresh(answer.err().unwrap_or(0), c_buffer(b))
}

#[no_mangle]
pub unsafe extern "C" fn hsp_offer(
    b: CBuffer,
    packet: *const u8,
    n: usize,
    rows: *mut u32,
    m: usize,
    store: *mut u8,
    k: usize,
) -> COffered {
    let (after, answer) =
        reference::offer(&buffer(b), from_raw_parts(packet, n), from_raw_parts_mut(rows, m), from_raw_parts_mut(store, k));
    let (Fault { refusal, offset }, v) = match answer {
        Ok(v) => (Fault::from(0), v),
        Err(fault) => (fault, Verdicts::default()),
    };
    COffered([refusal, offset, v.late, v.far, v.repeated, v.better, v.no_room, v.inserted], c_buffer(after))
}

#[no_mangle]
pub unsafe extern "C" fn hsp_draw(b: CBuffer, store: *const u8, k: usize, area: *mut u8, n: usize) -> CDrawn {
    let (after, answer) = reference::draw(&buffer(b), from_raw_parts(store, k), from_raw_parts_mut(area, n));
    let numbers = match answer {
        Ok(Drawn::Frame { time, channel, class, length, primary }) => [0, 0, time, channel, class, length, primary as u32],
        Ok(Drawn::Empty) => [0, 1, 0, 0, 0, 0, 0],
        Err(refusal) => [refusal, 0, 0, 0, 0, 0, 0],
    };
    CDrawn(numbers, c_buffer(after))
}

#[no_mangle]
pub extern "C" fn hsp_reception_new() -> CReception {
    c_reception(Reception::default())
}

#[no_mangle]
pub extern "C" fn hsp_reception_packet(r: CReception, sequence: u16, timestamp: u32, arrival: u32) -> CReceived {
    let (after, answer) = reference::reception_packet(&reception(r), sequence, timestamp, arrival);
    CReceived(answer.err().unwrap_or(0), answer.unwrap_or(false) as u32, c_reception(after))
}

#[no_mangle]
pub extern "C" fn hsp_reception_report(r: CReception) -> CReported {
    let (after, answer) = reference::reception_report(&reception(r));
    let Report { fraction_lost, cumulative_lost, highest_sequence, jitter } = answer.unwrap_or_default();
    CReported(answer.err().unwrap_or(0), fraction_lost, cumulative_lost, highest_sequence, jitter, c_reception(after))
}

#[no_mangle]
pub unsafe extern "C" fn hsp_log_open(log: *const u8, n: usize) -> COpened {
    let (cursor, answer) = reference::log_open(from_raw_parts(log, n));
    COpened(answer.err().unwrap_or(0), c_cursor(cursor))
}

#[no_mangle]
pub unsafe extern "C" fn hsp_log_step(c: CCursor, log: *const u8, n: usize) -> CStepped {
    let given = LogCursor { settings: settings(c.0), place: c.1, count: c.2 };
    let (after, answer) = reference::log_step(&given, from_raw_parts(log, n));
    let after = c_cursor(after);
    match answer {
        Ok(LogStep::Frame(LogFrame { time, channel, class, start, length })) => {
            CStepped([0, 0, time, channel, class], start, length, after)
        }
        Ok(LogStep::End) => CStepped([0, 1, 0, 0, 0], 0, 0, after),
        Err(refusal) => CStepped([refusal, 0, 0, 0, 0], 0, 0, after),
    }
}

#[no_mangle]
pub unsafe extern "C" fn hsp_log_write(
    s: CSettings,
    rows: *const u32,
    n: usize,
    bytes: *const u8,
    m: usize,
    out: *mut u8,
    o: usize,
) -> CLogWritten {
    match reference::log_write(settings(s), from_raw_parts(rows, n), from_raw_parts(bytes, m), from_raw_parts_mut(out, o)) {
        Ok(length) => CLogWritten(0, length),
        Err(refusal) => CLogWritten(refusal, 0),
    }
}
