//! The calls with the answers as C gets them: numbers, the refusal among them. Safe, on slices.
//!
//! The structs are those of include/heolstorpit.h, field by field; the functions hand each slice over as a pointer and a
//! length, and the library is proved to stay inside them, whatever the values. `result` makes an answer one that is not raw.
#![allow(unsafe_code, missing_docs)]

use crate::SLOTS;

/// `hsp_settings`
#[repr(C)]
#[derive(Clone, Copy, Debug, Default, PartialEq, Eq, Hash)]
pub struct Settings {
    pub format: u8,
    pub channels: u8,
    pub payload_type: u8,
    pub redundancy_type: u8,
}

/// `hsp_reading`
#[repr(C)]
#[derive(Clone, Copy, Debug, Default, PartialEq, Eq)]
pub struct Reading {
    pub refusal: u32,
    pub offset: u32,
    pub rows: u32,
    pub marker: u32,
    pub sequence: u32,
    pub timestamp: u32,
    pub source: u32,
    pub mode_request: u32,
}

/// `hsp_written`
#[repr(C)]
#[derive(Clone, Copy, Debug, Default, PartialEq, Eq)]
pub struct Written {
    pub refusal: u32,
    pub length: u32,
}

/// `hsp_buffer`: the reorder buffer's state, 3,112 bytes with no padding.
#[repr(C)]
#[derive(Clone, Copy, Debug, PartialEq, Eq)]
pub struct Buffer {
    pub times: [u32; SLOTS],
    pub tags: [u32; SLOTS],
    pub lengths: [u32; SLOTS],
    pub slots: [u32; SLOTS],
    pub occupied: [u64; SLOTS / 64],
    pub last_time: u32,
    pub last_channel: u32,
    pub drawn: u32,
    pub settings: Settings,
}

const _: () = assert!(size_of::<Buffer>() == 3112 && align_of::<Buffer>() == 8);

/// `hsp_fresh`
#[repr(C)]
#[derive(Clone, Copy, Debug, PartialEq, Eq)]
pub struct Fresh {
    pub refusal: u32,
    pub buffer: Buffer,
}

/// `hsp_offered`
#[repr(C)]
#[derive(Clone, Copy, Debug, PartialEq, Eq)]
pub struct Offered {
    pub refusal: u32,
    pub offset: u32,
    pub late: u32,
    pub far: u32,
    pub repeated: u32,
    pub better: u32,
    pub no_room: u32,
    pub inserted: u32,
    pub buffer: Buffer,
}

/// `hsp_drawn`
#[repr(C)]
#[derive(Clone, Copy, Debug, PartialEq, Eq)]
pub struct Drawn {
    pub refusal: u32,
    pub empty: u32,
    pub time: u32,
    pub channel: u32,
    pub frame_class: u32,
    pub length: u32,
    pub primary: u32,
    pub buffer: Buffer,
}

/// `hsp_reception`: what is kept of a source.
#[repr(C)]
#[derive(Clone, Copy, Debug, Default, PartialEq, Eq, Hash)]
pub struct Reception {
    pub jitter: u64,
    pub probation: u32,
    pub started: u32,
    pub base: u32,
    pub highest: u32,
    pub bad: u32,
    pub cycles: u32,
    pub received: u32,
    pub expected_prior: u32,
    pub received_prior: u32,
    pub transit: u32,
    pub transit_set: u32,
}

const _: () = assert!(size_of::<Reception>() == 56 && align_of::<Reception>() == 8);

/// `hsp_received`
#[repr(C)]
#[derive(Clone, Copy, Debug, Default, PartialEq, Eq)]
pub struct Received {
    pub refusal: u32,
    pub valid: u32,
    pub reception: Reception,
}

/// `hsp_reported`
#[repr(C)]
#[derive(Clone, Copy, Debug, Default, PartialEq, Eq)]
pub struct Reported {
    pub refusal: u32,
    pub fraction_lost: u32,
    pub cumulative_lost: i32,
    pub highest_sequence: u32,
    pub jitter: u32,
    pub reception: Reception,
}

/// `hsp_log_cursor`: where the reading of a log stands.
#[repr(C)]
#[derive(Clone, Copy, Debug, Default, PartialEq, Eq, Hash)]
pub struct LogCursor {
    pub settings: Settings,
    pub place: u64,
    pub count: u64,
}

const _: () = assert!(size_of::<LogCursor>() == 24 && align_of::<LogCursor>() == 8);

/// `hsp_log_opened`
#[repr(C)]
#[derive(Clone, Copy, Debug, Default, PartialEq, Eq)]
pub struct LogOpened {
    pub refusal: u32,
    pub cursor: LogCursor,
}

/// `hsp_log_stepped`
#[repr(C)]
#[derive(Clone, Copy, Debug, Default, PartialEq, Eq)]
pub struct LogStepped {
    pub refusal: u32,
    pub end: u32,
    pub time: u32,
    pub channel: u32,
    pub frame_class: u32,
    pub start: u64,
    pub length: u64,
    pub cursor: LogCursor,
}

const _: () = assert!(size_of::<LogStepped>() == 64);

/// `hsp_log_written`
#[repr(C)]
#[derive(Clone, Copy, Debug, Default, PartialEq, Eq)]
pub struct LogWritten {
    pub refusal: u32,
    pub length: u64,
}

mod c {
    use super::*;

    #[allow(dead_code)]
    unsafe extern "C" {
        pub fn hsp_read(settings: Settings, packet: *const u8, packet_length: usize, rows: *mut u32, rows_length: usize) -> Reading;
        pub fn hsp_write_payload(
            settings: Settings,
            mode_request: u8,
            rows: *const u32,
            rows_length: usize,
            bytes: *const u8,
            bytes_length: usize,
            out: *mut u8,
            out_length: usize,
        ) -> Written;
        pub fn hsp_write_packet(
            settings: Settings,
            mode_request: u8,
            marker: u8,
            sequence: u16,
            source: u32,
            counts: *const u32,
            counts_length: usize,
            rows: *const u32,
            rows_length: usize,
            bytes: *const u8,
            bytes_length: usize,
            out: *mut u8,
            out_length: usize,
        ) -> Written;
        pub fn hsp_new(settings: Settings) -> Fresh;
        pub fn hsp_offer(
            buffer: Buffer,
            packet: *const u8,
            packet_length: usize,
            rows: *mut u32,
            rows_length: usize,
            store: *mut u8,
            store_length: usize,
        ) -> Offered;
        pub fn hsp_draw(buffer: Buffer, store: *const u8, store_length: usize, area: *mut u8, area_length: usize) -> Drawn;
        pub fn hsp_reception_new() -> Reception;
        pub fn hsp_reception_packet(reception: Reception, sequence: u16, timestamp: u32, arrival: u32) -> Received;
        pub fn hsp_reception_report(reception: Reception) -> Reported;
        pub fn hsp_log_open(log: *const u8, log_length: usize) -> LogOpened;
        pub fn hsp_log_step(cursor: LogCursor, log: *const u8, log_length: usize) -> LogStepped;
        pub fn hsp_log_write(
            settings: Settings,
            rows: *const u32,
            rows_length: usize,
            bytes: *const u8,
            bytes_length: usize,
            out: *mut u8,
            out_length: usize,
        ) -> LogWritten;
    }
}

// Safety of all the calls below: a slice's pointer and length are those of memory that lives through the call, and a `&mut`
// slice overlaps no other; the functions are proved, with no condition on their arguments, to read and write only inside.

#[cfg(feature = "read")]
pub fn read(settings: Settings, packet: &[u8], rows: &mut [u32]) -> Reading {
    unsafe { c::hsp_read(settings, packet.as_ptr(), packet.len(), rows.as_mut_ptr(), rows.len()) }
}

#[cfg(feature = "write")]
pub fn write_payload(settings: Settings, mode_request: u8, rows: &[u32], bytes: &[u8], out: &mut [u8]) -> Written {
    unsafe {
        c::hsp_write_payload(settings, mode_request, rows.as_ptr(), rows.len(), bytes.as_ptr(), bytes.len(), out.as_mut_ptr(), out.len())
    }
}

#[cfg(feature = "write")]
#[allow(clippy::too_many_arguments)]
pub fn write_packet(
    settings: Settings,
    mode_request: u8,
    marker: u8,
    sequence: u16,
    source: u32,
    counts: &[u32],
    rows: &[u32],
    bytes: &[u8],
    out: &mut [u8],
) -> Written {
    unsafe {
        c::hsp_write_packet(
            settings,
            mode_request,
            marker,
            sequence,
            source,
            counts.as_ptr(),
            counts.len(),
            rows.as_ptr(),
            rows.len(),
            bytes.as_ptr(),
            bytes.len(),
            out.as_mut_ptr(),
            out.len(),
        )
    }
}

#[cfg(feature = "buffer")]
pub fn new(settings: Settings) -> Fresh {
    unsafe { c::hsp_new(settings) }
}

#[cfg(feature = "buffer")]
pub fn offer(buffer: Buffer, packet: &[u8], rows: &mut [u32], store: &mut [u8]) -> Offered {
    unsafe { c::hsp_offer(buffer, packet.as_ptr(), packet.len(), rows.as_mut_ptr(), rows.len(), store.as_mut_ptr(), store.len()) }
}

#[cfg(feature = "buffer")]
pub fn draw(buffer: Buffer, store: &[u8], area: &mut [u8]) -> Drawn {
    unsafe { c::hsp_draw(buffer, store.as_ptr(), store.len(), area.as_mut_ptr(), area.len()) }
}

#[cfg(feature = "reception")]
pub fn reception_new() -> Reception {
    unsafe { c::hsp_reception_new() }
}

#[cfg(feature = "reception")]
pub fn reception_packet(reception: Reception, sequence: u16, timestamp: u32, arrival: u32) -> Received {
    unsafe { c::hsp_reception_packet(reception, sequence, timestamp, arrival) }
}

#[cfg(feature = "reception")]
pub fn reception_report(reception: Reception) -> Reported {
    unsafe { c::hsp_reception_report(reception) }
}

#[cfg(feature = "log")]
pub fn log_open(log: &[u8]) -> LogOpened {
    unsafe { c::hsp_log_open(log.as_ptr(), log.len()) }
}

#[cfg(feature = "log")]
pub fn log_step(cursor: LogCursor, log: &[u8]) -> LogStepped {
    unsafe { c::hsp_log_step(cursor, log.as_ptr(), log.len()) }
}

#[cfg(feature = "log")]
pub fn log_write(settings: Settings, rows: &[u32], bytes: &[u8], out: &mut [u8]) -> LogWritten {
    unsafe { c::hsp_log_write(settings, rows.as_ptr(), rows.len(), bytes.as_ptr(), bytes.len(), out.as_mut_ptr(), out.len()) }
}
