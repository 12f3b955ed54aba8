use crate::raw;
#[cfg(feature = "reception")]
use crate::{Refusal, Report};

/// What a receiver keeps of a source for its reception reports (RFC 3550, appendix A.1, A.3 and A.8).
#[derive(Clone, Copy, Debug, PartialEq, Eq, Hash)]
pub struct Reception(raw::Reception);

impl Reception {
    /// A source that no packet has come from.
    #[cfg(feature = "reception")]
    pub fn new() -> Reception {
        Reception(raw::reception_new())
    }

    /// Notes a packet: its sequence number and timestamp, and the arrival clock in ticks of the timestamp. Answers whether it is valid: not
    /// one of a source on probation, and not one whose sequence number jumped.
    #[cfg(feature = "reception")]
    #[inline]
    pub fn packet(&mut self, sequence: u16, timestamp: u32, arrival: u32) -> Result<bool, Refusal> {
        let answer = raw::reception_packet(self.0, sequence, timestamp, arrival);
        self.0 = answer.reception;
        answer.result()
    }

    /// The report, whose fraction is that since the report before it. Before the first valid packet it is all zeros.
    #[cfg(feature = "reception")]
    #[inline]
    pub fn report(&mut self) -> Result<Report, Refusal> {
        let answer = raw::reception_report(self.0);
        self.0 = answer.reception;
        answer.result()
    }

    /// The state as C has it.
    pub fn as_raw(&self) -> &raw::Reception {
        &self.0
    }

    /// A source from a state as C has it. One with a probation or jitter sum out of range is refused when it is used.
    pub fn from_raw(state: raw::Reception) -> Reception {
        Reception(state)
    }
}

#[cfg(feature = "reception")]
impl Default for Reception {
    fn default() -> Reception {
        Reception::new()
    }
}
