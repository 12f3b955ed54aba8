use crate::{Class, Refusal, PRIMARY, ROW_WORDS};

/// A row's second word is this times the class, and the channel; and the bit [`PRIMARY`].
const CLASS_UNIT: u32 = 256;

/// A frame row: four words of a row area, taken apart.
#[derive(Clone, Copy, Debug, PartialEq, Eq, Hash)]
pub struct Row {
    /// timestamp of the frame
    pub time: u32,
    /// what the frame is
    pub class: Class,
    /// channels count from 0
    pub channel: u8,
    /// reading: the row is of a plain payload or of the primary block of a redundancy payload, not of a redundant block; writing
    /// ignores it
    pub primary: bool,
    /// place of the frame's first byte: in the packet read, or in the bytes that a row to be written points into
    pub start: u32,
    /// bytes of the frame
    pub length: u32,
}

impl Row {
    /// The words of the row. The second has 24 bits for the class, without the one that is [`PRIMARY`]: a number that does not fit there
    /// is no class of any format, and is refused as the writers of packets refuse those, with [`Refusal::Unwritable`].
    pub fn words(self) -> Result<[u32; ROW_WORDS], Refusal> {
        let class = self.class.number().checked_mul(CLASS_UNIT).filter(|class| class & PRIMARY == 0).ok_or(Refusal::Unwritable)?;
        let primary = if self.primary { PRIMARY } else { 0 };
        Ok([self.time, primary | class | u32::from(self.channel), self.start, self.length])
    }

    /// The rows at the front of a row area that reading wrote `count` rows to: all of them, whatever their class.
    pub fn list(area: &[u32], count: u32) -> impl Iterator<Item = Row> + '_ {
        area.chunks_exact(ROW_WORDS).take(count as usize).map(|words| Row::from([words[0], words[1], words[2], words[3]]))
    }
}

impl From<[u32; ROW_WORDS]> for Row {
    fn from([time, tag, start, length]: [u32; ROW_WORDS]) -> Row {
        let class = Class::from((tag & !PRIMARY) / CLASS_UNIT);
        Row { time, class, channel: (tag % CLASS_UNIT) as u8, primary: tag & PRIMARY != 0, start, length }
    }
}
