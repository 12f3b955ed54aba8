//! The C functions' answers as results: all of them, whatever their numbers.

use crate::{raw, Buffer, Class, Fault, LogReader, Refusal};

/// What a packet that was read says of itself.
#[derive(Clone, Copy, Debug, PartialEq, Eq, Hash)]
pub struct Reading {
    /// rows written at the front of the row area
    pub rows: u32,
    /// the marker bit
    pub marker: bool,
    /// RTP sequence number
    pub sequence: u16,
    /// RTP timestamp
    pub timestamp: u32,
    /// SSRC
    pub source: u32,
    /// mode request (CMR), 0 to 15, of the last block with rows; [`NO_MODE_REQUEST`] where there is none, and in formats that have none
    ///
    /// [`NO_MODE_REQUEST`]: crate::NO_MODE_REQUEST
    pub mode_request: u8,
}

/// How many rows of an offered packet got each verdict.
#[derive(Clone, Copy, Debug, Default, PartialEq, Eq, Hash)]
pub struct Verdicts {
    /// not after the last frame drawn
    pub late: u32,
    /// 2^31 ticks or more from frames held, before any was drawn
    pub far: u32,
    /// held already, and this copy is no better
    pub repeated: u32,
    /// held already, and this better copy replaced the one held
    pub better: u32,
    /// found the buffer full
    pub no_room: u32,
    /// new
    pub inserted: u32,
}

/// A frame that was drawn; its bytes are at the front of the draw area.
#[derive(Clone, Copy, Debug, PartialEq, Eq, Hash)]
pub struct Frame {
    /// timestamp of the frame
    pub time: u32,
    /// channels count from 0
    pub channel: u8,
    /// what the frame is, one with no name here included
    pub class: Class,
    /// bytes of the frame
    pub length: usize,
    /// heard first-hand: some copy of it came in a plain payload or as the primary block of a redundancy payload
    pub primary: bool,
}

/// A source's reception report: the numbers of RFC 3550's report block.
#[derive(Clone, Copy, Debug, Default, PartialEq, Eq, Hash)]
pub struct Report {
    /// how much was lost since the last report, in 256ths of what was expected
    pub fraction_lost: u8,
    /// packets lost since the source began, held to 24 bits; below 0 where more came than were expected
    pub cumulative_lost: i32,
    /// extended highest sequence number: the cycles counted above the 16 bits of the highest
    pub highest_sequence: u32,
    /// interarrival jitter, in ticks
    pub jitter: u32,
}

/// A frame of a log, shown where it stands.
#[derive(Clone, Copy, Debug, PartialEq, Eq, Hash)]
pub struct LogFrame<'a> {
    /// timestamp of the frame
    pub time: u32,
    /// channels count from 0
    pub channel: u8,
    /// what the frame is, one with no name here included
    pub class: Class,
    /// the frame: a part of the log
    pub bytes: &'a [u8],
}

/// `value` where the number is 0, else the refusal.
#[inline]
fn accepted<T>(number: u32, value: T) -> Result<T, Refusal> {
    match Refusal::from_number(number) {
        None => Ok(value),
        Some(refusal) => Err(refusal),
    }
}

impl raw::Reading {
    /// The packet's header and its number of rows, or why it was refused and where.
    #[inline]
    pub fn result(&self) -> Result<Reading, Fault> {
        let raw::Reading { refusal, offset, rows, marker, sequence, timestamp, source, mode_request } = *self;
        // a sequence number has 16 bits, a mode request 4
        let (sequence, mode_request) = (sequence as u16, mode_request as u8);
        accepted(refusal, Reading { rows, marker: marker != 0, sequence, timestamp, source, mode_request })
            .map_err(|refusal| Fault::new(refusal, offset))
    }
}

impl raw::Written {
    /// The number of bytes written, or the refusal.
    #[inline]
    pub fn result(&self) -> Result<usize, Refusal> {
        accepted(self.refusal, self.length as usize)
    }
}

impl raw::Fresh {
    /// The buffer, or the refusal.
    #[inline]
    pub fn result(&self) -> Result<Buffer, Refusal> {
        accepted(self.refusal, Buffer::from_raw(self.buffer))
    }
}

impl raw::Offered {
    /// The counts of verdicts, or why the packet was refused and where.
    #[inline]
    pub fn result(&self) -> Result<Verdicts, Fault> {
        let raw::Offered { refusal, offset, late, far, repeated, better, no_room, inserted, .. } = *self;
        accepted(refusal, Verdicts { late, far, repeated, better, no_room, inserted }).map_err(|refusal| Fault::new(refusal, offset))
    }
}

impl raw::Drawn {
    /// The frame drawn, whatever its class; nothing where none was held; or the refusal.
    #[inline]
    pub fn result(&self) -> Result<Option<Frame>, Refusal> {
        let raw::Drawn { refusal, empty, time, channel, frame_class, length, primary, .. } = *self;
        // a channel has 8 bits of a row's second word
        let (channel, class) = (channel as u8, Class::from(frame_class));
        let frame = Frame { time, channel, class, length: length as usize, primary: primary != 0 };
        accepted(refusal, (empty == 0).then_some(frame))
    }
}

impl raw::Received {
    /// Whether the packet is valid, or the refusal.
    #[inline]
    pub fn result(&self) -> Result<bool, Refusal> {
        accepted(self.refusal, self.valid != 0)
    }
}

impl raw::Reported {
    /// The report, or the refusal.
    #[inline]
    pub fn result(&self) -> Result<Report, Refusal> {
        let raw::Reported { refusal, fraction_lost, cumulative_lost, highest_sequence, jitter, .. } = *self;
        // a fraction has 8 bits
        accepted(refusal, Report { fraction_lost: fraction_lost as u8, cumulative_lost, highest_sequence, jitter })
    }
}

impl raw::LogOpened {
    /// The reader of the log that was opened, or the refusal.
    #[inline]
    pub fn result<'a>(&self, log: &'a [u8]) -> Result<LogReader<'a>, Refusal> {
        accepted(self.refusal, LogReader::from_raw(log, self.cursor))
    }
}

impl raw::LogStepped {
    /// The frame of the log that the step was made in, whatever its class; nothing at the end; or the refusal. Of places that are not in
    /// the log, which a step does not answer, there are no bytes.
    #[inline]
    pub fn result<'a>(&self, log: &'a [u8]) -> Result<Option<LogFrame<'a>>, Refusal> {
        let raw::LogStepped { refusal, end, time, channel, frame_class, start, length, .. } = *self;
        let part = |start: u64, length: u64| log.get(usize::try_from(start).ok()?..)?.get(..usize::try_from(length).ok()?);
        // a channel has 8 bits of a field
        let (channel, class) = (channel as u8, Class::from(frame_class));
        accepted(refusal, (end == 0).then(|| LogFrame { time, channel, class, bytes: part(start, length).unwrap_or_default() }))
    }
}

impl raw::LogWritten {
    /// The number of bytes written, or the refusal.
    #[inline]
    pub fn result(&self) -> Result<usize, Refusal> {
        // no more than the area has
        accepted(self.refusal, self.length as usize)
    }
}
