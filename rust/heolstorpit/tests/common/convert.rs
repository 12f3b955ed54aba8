//! The reference's settings, buffers, draws, receptions, cursors and steps as the library's. Also used by `exact`.
#![allow(dead_code)]

use heolstorpit::raw;

pub fn settings(s: reference::Settings) -> raw::Settings {
    raw::Settings { format: s.format, channels: s.channels, payload_type: s.payload_type, redundancy_type: s.redundancy_type }
}

pub fn to_raw(b: &reference::Buffer) -> raw::Buffer {
    raw::Buffer {
        times: b.times,
        tags: b.tags,
        lengths: b.lengths,
        slots: b.slots,
        occupied: b.occupied,
        last_time: b.last_time,
        last_channel: b.last_channel,
        drawn: b.drawn,
        settings: settings(b.settings),
    }
}

/// What a draw answers, and the buffer that it leaves.
pub fn raw_drawn(answer: Result<reference::Drawn, u32>, after: &reference::Buffer) -> raw::Drawn {
    let none = raw::Drawn { refusal: 0, empty: 0, time: 0, channel: 0, frame_class: 0, length: 0, primary: 0, buffer: to_raw(after) };
    match answer {
        Ok(reference::Drawn::Frame { time, channel, class, length, primary }) => {
            raw::Drawn { time, channel, frame_class: class, length, primary: primary as u32, ..none }
        }
        Ok(reference::Drawn::Empty) => raw::Drawn { empty: 1, ..none },
        Err(refusal) => raw::Drawn { refusal, ..none },
    }
}

pub fn raw_reception(r: &reference::Reception) -> raw::Reception {
    raw::Reception {
        jitter: r.jitter,
        probation: r.probation,
        started: r.started,
        base: r.base,
        highest: r.highest,
        bad: r.bad,
        cycles: r.cycles,
        received: r.received,
        expected_prior: r.expected_prior,
        received_prior: r.received_prior,
        transit: r.transit,
        transit_set: r.transit_set,
    }
}

pub fn raw_cursor(c: &reference::LogCursor) -> raw::LogCursor {
    raw::LogCursor { settings: settings(c.settings), place: c.place, count: c.count }
}

/// What opening a log answers, and the cursor that it gives.
pub fn raw_opened(cursor: &reference::LogCursor, answer: Result<(), u32>) -> raw::LogOpened {
    raw::LogOpened { refusal: answer.err().unwrap_or(0), cursor: raw_cursor(cursor) }
}

/// What a step answers, and the cursor that it leaves.
pub fn raw_stepped(after: &reference::LogCursor, answer: Result<reference::LogStep, u32>) -> raw::LogStepped {
    let none = raw::LogStepped { cursor: raw_cursor(after), ..raw::LogStepped::default() };
    match answer {
        Ok(reference::LogStep::Frame(reference::LogFrame { time, channel, class, start, length })) => {
            raw::LogStepped { time, channel, frame_class: class, start, length, ..none }
        }
        Ok(reference::LogStep::End) => raw::LogStepped { end: 1, ..none },
        Err(refusal) => raw::LogStepped { refusal, ..none },
    }
}

pub fn raw_log_written(answer: Result<u64, u32>) -> raw::LogWritten {
    raw::LogWritten { refusal: answer.err().unwrap_or(0), length: answer.unwrap_or(0) }
}
