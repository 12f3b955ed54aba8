use crate::numbered::numbered;
use crate::{MAX_PACKET, MAX_ROWS, MIN_PACKET};
use std::error::Error;
use std::fmt::{Display, Formatter};
use std::num::NonZeroU32;

numbered! {
    /// Why a call was refused. A refusal changes nothing: no area, no buffer, and no record.
    Refusal(u32), "refusal":
    1 PacketLength "the packet is shorter than {MIN_PACKET} or longer than {MAX_PACKET} bytes"
    2 Version "the RTP version is not 2"
    3 HeaderTruncated "the contributing sources or the header extension run past the end of the packet"
    4 PaddingCount "the padding count is 0, or greater than the number of bytes after the headers"
    5 UnknownPayloadType "the packet's payload type is neither the payload type nor the redundancy type of the settings"
    6 ContentsTruncated "a table entry or a redundancy block header runs past the end, or the payload is empty"
    7 ReservedCode "a table entry has a reserved frame length or frame type"
    8 NoFrameBlocks "a table entry has 0 frame-blocks"
    9 TooManyRows "the packet has more than {MAX_ROWS} frames"
    10 LengthMismatch "after the tables there are too few bytes, or bytes are left over"
    11 SettingsOutOfRange "the settings or the mode request are out of range"
    12 AreaTooShort "an area is too short for what is written to it"
    13 Unwritable "no payload or packet of the format reads to these rows"
    14 RowOutsideBytes "a row's start and length run past the end of the bytes"
    15 Malformed "the reorder buffer, the record of a reception or the cursor of a log is not in a state that its calls leave"
    17 CutField "a field of the log is cut"
    18 MisplacedTag "a tag of the log is in the wrong place or missing"
    19 NotAllowed "the log, or a row to be written to it, has content that its settings do not allow"
    20 WrongCount "the log says another count than that of its frames"
}

impl Refusal {
    /// The refusal that an answer's number says; nothing for 0, which is none.
    #[inline]
    pub fn from_number(number: u32) -> Option<Refusal> {
        NonZeroU32::new(number).map(Refusal::from)
    }
}

impl From<NonZeroU32> for Refusal {
    #[inline]
    fn from(number: NonZeroU32) -> Refusal {
        Refusal::of_number(number.get())
    }
}

impl Error for Refusal {}

/// Why a packet was refused, and where.
#[derive(Clone, Copy, Debug, PartialEq, Eq, Hash)]
pub struct Fault {
    /// why
    pub refusal: Refusal,
    /// where in the whole packet: the first byte of the table entry or block header at fault, or where a missing one would start; with
    /// [`Refusal::LengthMismatch`] the first byte after the tables or block headers. It may be the packet's length. Nothing where the
    /// refusal is of no such place
    pub offset: Option<usize>,
}

impl Fault {
    /// The fault that an answer's offset says, where 0 is none.
    #[inline]
    pub(crate) fn new(refusal: Refusal, offset: u32) -> Fault {
        Fault { refusal, offset: (offset != 0).then_some(offset as usize) }
    }
}

impl From<Fault> for Refusal {
    #[inline]
    fn from(fault: Fault) -> Refusal {
        fault.refusal
    }
}

impl Display for Fault {
    fn fmt(&self, f: &mut Formatter<'_>) -> std::fmt::Result {
        match self.offset {
            None => write!(f, "{}", self.refusal),
            Some(offset) => write!(f, "{} (at byte {offset} of the packet)", self.refusal),
        }
    }
}

impl Error for Fault {}
