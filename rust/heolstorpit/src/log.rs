use crate::{raw, Settings};
#[cfg(feature = "log")]
use crate::{LogFrame, Refusal};

/// Reads a log, frame by frame, where it stands: nothing is copied.
///
/// ```no_run
/// # #[cfg(feature = "log")]
/// # fn lengths(log: &[u8]) -> Result<Vec<usize>, heolstorpit::Refusal> {
/// let reader = heolstorpit::LogReader::open(log)?;
/// reader.into_iter().map(|frame| Ok(frame?.bytes.len())).collect()
/// # }
/// ```
#[derive(Clone, Copy, Debug, PartialEq, Eq, Hash)]
pub struct LogReader<'a> {
    log: &'a [u8],
    cursor: raw::LogCursor,
}

impl<'a> LogReader<'a> {
    /// Opens a log: reads its first field, which has the settings.
    #[cfg(feature = "log")]
    pub fn open(log: &'a [u8]) -> Result<LogReader<'a>, Refusal> {
        raw::log_open(log).result(log)
    }

    /// The next frame; nothing at the end, which says that the log is whole. At the end and on a refusal the reader stays where it is.
    #[cfg(feature = "log")]
    #[inline]
    pub fn step(&mut self) -> Result<Option<LogFrame<'a>>, Refusal> {
        let answer = raw::log_step(self.cursor, self.log);
        self.cursor = answer.cursor;
        answer.result(self.log)
    }

    /// The settings of the log.
    pub fn settings(&self) -> Settings {
        self.cursor.settings.into()
    }

    /// The log that is read.
    pub fn log(&self) -> &'a [u8] {
        self.log
    }

    /// Where in the log the next field starts.
    pub fn place(&self) -> u64 {
        self.cursor.place
    }

    /// The number of frames shown so far.
    pub fn count(&self) -> u64 {
        self.cursor.count
    }

    /// The cursor as C has it.
    pub fn as_raw(&self) -> &raw::LogCursor {
        &self.cursor
    }

    /// A reader of the log from a cursor as C has it. One that no reading of a log leaves is refused when it is used; another is believed.
    pub fn from_raw(log: &'a [u8], cursor: raw::LogCursor) -> LogReader<'a> {
        LogReader { log, cursor }
    }
}

#[cfg(feature = "log")]
impl<'a> IntoIterator for LogReader<'a> {
    type Item = Result<LogFrame<'a>, Refusal>;
    type IntoIter = LogFrames<'a>;

    fn into_iter(self) -> LogFrames<'a> {
        LogFrames { reader: self, over: false }
    }
}

/// The frames of a log from where its reader stands. A refusal is the last item; without one the log is whole.
#[cfg(feature = "log")]
#[derive(Clone, Debug)]
pub struct LogFrames<'a> {
    reader: LogReader<'a>,
    /// the end or a refusal was met
    over: bool,
}

#[cfg(feature = "log")]
impl<'a> Iterator for LogFrames<'a> {
    type Item = Result<LogFrame<'a>, Refusal>;

    #[inline]
    fn next(&mut self) -> Option<Result<LogFrame<'a>, Refusal>> {
        if self.over {
            return None;
        }
        let item = self.reader.step().transpose();
        self.over = !matches!(item, Some(Ok(_)));
        item
    }
}

#[cfg(feature = "log")]
impl std::iter::FusedIterator for LogFrames<'_> {}

/// Writes a log of the rows' frames, which lie in `bytes`, in the order of the rows, at the front of `out`; answers its length:
/// [`LOG_FIRST`], [`LOG_LAST`], and for each row [`LOG_FRAME`] and its own. No row makes a log of no frame.
///
/// [`LOG_FIRST`]: crate::LOG_FIRST
/// [`LOG_FRAME`]: crate::LOG_FRAME
/// [`LOG_LAST`]: crate::LOG_LAST
#[cfg(feature = "log")]
pub fn write_log(settings: Settings, rows: &[u32], bytes: &[u8], out: &mut [u8]) -> Result<usize, Refusal> {
    raw::log_write(settings.into(), rows, bytes, out).result()
}
