//! A history from a metrics export.

use std::error::Error;
use std::fmt;

use crate::fault;
use crate::ffi;
use crate::layout;
use crate::{CompletedTrial, ExportFault};

/// Why a metrics export was refused. The numbers go on from those of [`FileRefusal`](crate::FileRefusal).
///
/// ```
/// use emkhurtov::{CompletedTrial, ExportError, ExportFault};
/// let error = CompletedTrial::read_export(b"12,0.25\n13;0.5\n").unwrap_err();
/// assert_eq!((error.number(), error.line()), (14, Some(2)));
/// assert_eq!(error, ExportError::MalformedLine { line: 2, fault: ExportFault::NoComma });
/// assert_eq!(error.to_string(), "line 2: no comma");
/// ```
#[non_exhaustive]
#[derive(Clone, Copy, Debug, PartialEq, Eq, Hash)]
pub enum ExportError {
    /// 14: a line is malformed.
    MalformedLine {
        /// The number of the first such line, from 1.
        line: usize,
        /// What is wrong in it.
        fault: ExportFault,
    },
    /// 15: every line has been read well, and the lent history has fewer places than there are entries.
    /// [`CompletedTrial::read_export`] never meets it.
    ShortHistory {
        /// How many entries the export has.
        entries: usize,
        /// How many places the lent history has.
        places: usize,
    },
}

impl ExportError {
    /// The refusal's number, 14 or 15.
    pub fn number(self) -> u64 {
        match self {
            ExportError::MalformedLine { .. } => ffi::MALFORMED_LINE,
            ExportError::ShortHistory { .. } => ffi::SHORT_HISTORY,
        }
    }

    /// The number of the malformed line, from 1, where there is one.
    pub fn line(self) -> Option<usize> {
        match self {
            ExportError::MalformedLine { line, .. } => Some(line),
            ExportError::ShortHistory { .. } => None,
        }
    }
}

impl fmt::Display for ExportError {
    fn fmt(&self, f: &mut fmt::Formatter<'_>) -> fmt::Result {
        match self {
            ExportError::MalformedLine { line, fault } => write!(f, "line {line}: {fault}"),
            ExportError::ShortHistory { entries, places } => {
                write!(f, "the lent history is too short: places {places}, entries {entries}")
            }
        }
    }
}

impl Error for ExportError {}

/// A well-formed export has exactly as many entries as line feeds.
fn line_feeds(text: &[u8]) -> usize {
    text.iter().filter(|byte| **byte == b'\n').count()
}

impl CompletedTrial {
    /// The entries of a metrics export, in the text's order, each of which is complete. An empty text has none.
    ///
    /// A line is a trial number, a comma, a value and a line feed; the last line has its line feed too. Nothing else is
    /// in it: no space, no plus sign, no exponent, no carriage return, no `inf`, no `nan`; and no line is empty.
    ///
    /// - A trial number is 1 to 20 digits and at most `u64::MAX`. It may have zeros in front.
    /// - A value is perhaps a minus, then 1 to 15 digits in all, with at most one point, which stands between two of
    ///   them. It becomes the double nearest to the decimal, ties to even. A minus with zero gives minus zero. No value
    ///   is NaN or infinite.
    ///
    /// Two lines with one number are two entries; [`Sampler::sample`](crate::Sampler::sample) says which counts. A trial
    /// that was pruned or failed is told beside the export, behind what was read: there its entry is the last of its
    /// number. Lines that are read later go before it.
    ///
    /// That exactly such lines are read, as these numbers and values, is proved. The words that an error has for a
    /// malformed line ([`ExportFault`]) are this crate's own.
    ///
    /// # Panics
    /// Where the linked library lays its structs out otherwise than this crate.
    ///
    /// ```
    /// use emkhurtov::CompletedTrial;
    /// let mut history = CompletedTrial::read_export(b"12,0.25\n13,-7\n")?;
    /// assert_eq!(history, [CompletedTrial::new(12, 0.25), CompletedTrial::new(13, -7.0)]);
    /// // Trial 14 was killed.
    /// history.push(CompletedTrial::failed(14, f64::NAN));
    /// let cut_off = CompletedTrial::read_export(b"12,0.25\n13,-").unwrap_err();
    /// assert_eq!(cut_off.to_string(), "line 2: no line feed at the end");
    /// # Ok::<(), emkhurtov::ExportError>(())
    /// ```
    pub fn read_export(text: &[u8]) -> Result<Vec<CompletedTrial>, ExportError> {
        // A line has 4 bytes at least: with more line feeds than that one is malformed, and no place will be used.
        let places = line_feeds(text).min(text.len() / 4);
        let mut history = vec![CompletedTrial::new(0, 0.0); places];
        let count = CompletedTrial::read_export_into(text, &mut history)?;
        history.truncate(count);
        Ok(history)
    }

    /// Reads a metrics export ([`CompletedTrial::read_export`] says what that is) into a lent history, and allocates
    /// nothing: how many entries there are, which stand in the history's first places; no place past them is touched.
    /// Or [`ExportError::MalformedLine`], then [`ExportError::ShortHistory`] where the history has fewer places than
    /// there are entries; nothing is written then.
    ///
    /// # Panics
    /// Where the linked library lays its structs out otherwise than this crate.
    ///
    /// ```
    /// use emkhurtov::{CompletedTrial, ExportError};
    /// let mut history = [CompletedTrial::new(0, 0.0); 3];
    /// assert_eq!(CompletedTrial::read_export_into(b"12,0.25\n13,-7\n", &mut history), Ok(2));
    /// assert_eq!(history[1], CompletedTrial::new(13, -7.0));
    /// let refused = CompletedTrial::read_export_into(b"14,1\n15,2\n", &mut history[..1]);
    /// assert_eq!(refused, Err(ExportError::ShortHistory { entries: 2, places: 1 }));
    /// assert_eq!(history[0], CompletedTrial::new(12, 0.25));
    /// ```
    pub fn read_export_into(text: &[u8], history: &mut [CompletedTrial]) -> Result<usize, ExportError> {
        layout::check();
        // SAFETY: both pointers come from references, of which the exclusive one shares no byte with the other; a
        // slice's pointer is not null, an empty one's either. The only state that is written is 0, `Complete`.
        let answer = unsafe { ffi::de_read_history(text.as_ptr(), text.len(), history.as_mut_ptr(), history.len()) };
        match (answer.kind, answer.refusal) {
            (ffi::READ, _) => Ok(answer.count as usize),
            (ffi::REFUSED, ffi::MALFORMED_LINE) => {
                let line = answer.line as usize;
                let fault = fault::in_line(text, line);
                Err(ExportError::MalformedLine { line, fault })
            }
            (ffi::REFUSED, ffi::SHORT_HISTORY) => Err(ExportError::ShortHistory {
                entries: line_feeds(text),
                places: history.len(),
            }),
            (kind, refusal) => {
                unreachable!("an export is read or refused by 14 or 15, and this is kind {kind}, refusal {refusal}")
            }
        }
    }
}
