//! A sampler as a saved file (docs/SAVED.md), so that a campaign goes on after a restart.

use std::error::Error;
use std::fmt;

use crate::Sampler;
use crate::ffi;
use crate::layout;

/// The length of the largest saved file, in bytes: 160 slots, 16 dimensions, 224 open trials.
pub const MAX_FILE: usize = 73_120;

/// Why a file was refused. The numbers go on from those of [`Refusal`](crate::Refusal), and 11 is unused.
///
/// ```
/// use emkhurtov::{FileRefusal, Sampler};
/// let refusal = Sampler::restore(&[]).unwrap_err();
/// assert_eq!((refusal, refusal.number()), (FileRefusal::BadFile, 12));
/// ```
#[non_exhaustive]
#[derive(Clone, Copy, Debug, PartialEq, Eq, Hash)]
pub enum FileRefusal {
    /// 12: the file is empty, no multiple of 32 bytes, or its chain is broken; in saving, the lent memory is too short.
    BadFile,
    /// 13: no sound state has the file's records (one with an entry over 4e300 in size is not sound); in saving, the state
    /// is not sound, its bounds rule is [`BoundsRule::Midpoint`](crate::BoundsRule::Midpoint) or one of its dimensions is
    /// a ladder ([`Distribution::int_log`](crate::Distribution::int_log)), for which a file has no place yet.
    BadContent,
}

impl FileRefusal {
    /// The refusal's number, 12 or 13.
    pub fn number(self) -> u64 {
        match self {
            FileRefusal::BadFile => ffi::BAD_FILE,
            FileRefusal::BadContent => ffi::BAD_CONTENT,
        }
    }

    fn numbered(number: u64) -> FileRefusal {
        match number {
            ffi::BAD_FILE => FileRefusal::BadFile,
            ffi::BAD_CONTENT => FileRefusal::BadContent,
            _ => unreachable!("the library refuses files by 12 and 13, and this is {number}"),
        }
    }
}

impl fmt::Display for FileRefusal {
    fn fmt(&self, f: &mut fmt::Formatter<'_>) -> fmt::Result {
        let why = match self {
            FileRefusal::BadFile => {
                "the file is empty, cut off or its chain is broken, or the lent memory is too short for it"
            }
            FileRefusal::BadContent => {
                "what the file holds, or the state that is to be saved, is none that a sampler can have, or the \
                 state's bounds rule is midpoint or one of its dimensions is a ladder"
            }
        };
        write!(f, "refusal {}: {why}", self.number())
    }
}

impl Error for FileRefusal {}

impl Sampler {
    /// The whole sampler as a saved file, at most [`MAX_FILE`] bytes; or [`FileRefusal::BadContent`] where its bounds
    /// rule is [`BoundsRule::Midpoint`](crate::BoundsRule::Midpoint) or one of its dimensions is a ladder
    /// ([`Distribution::int_log`](crate::Distribution::int_log)), for which a file has no place yet. Equal samplers have
    /// equal files. The history is no part of it.
    ///
    /// Nothing else is refused: a sampler's state is made by [`SamplerBuilder::build`](crate::SamplerBuilder::build) or
    /// [`Sampler::restore`] and changed by [`Sampler::sample`] alone, and each of these leaves a state that a sampler
    /// can have.
    ///
    /// ```
    /// use emkhurtov::{BoundsRule, Distribution, FileRefusal, Sampler};
    /// let depth = Distribution::int(1, 64);
    /// let mut sampler = Sampler::builder().seed(7).build()?;
    /// sampler.sample(&depth, 0, &[])?;
    /// let file = sampler.save()?;
    /// let mut restored = Sampler::restore(&file)?;
    /// assert_eq!(restored.sample(&depth, 1, &[]), sampler.sample(&depth, 1, &[]));
    /// let midpoint = Sampler::builder().bounds_rule(BoundsRule::Midpoint).build()?;
    /// assert_eq!(midpoint.save(), Err(FileRefusal::BadContent));
    /// let mut ladder = Sampler::builder().build()?;
    /// ladder.sample(&Distribution::int_log(1, 64), 0, &[])?;
    /// assert_eq!(ladder.save(), Err(FileRefusal::BadContent));
    /// # Ok::<(), Box<dyn std::error::Error>>(())
    /// ```
    pub fn save(&self) -> Result<Vec<u8>, FileRefusal> {
        let mut file = vec![0; MAX_FILE];
        let length = self.save_to(&mut file)?;
        file.truncate(length);
        Ok(file)
    }

    /// Saves into lent memory: the file's length, past which nothing is touched. Or it is refused as in
    /// [`Sampler::save`], then by [`FileRefusal::BadFile`] where the memory is shorter than the file; nothing is written
    /// then.
    ///
    /// ```
    /// use emkhurtov::{FileRefusal, MAX_FILE, Sampler};
    /// let sampler = Sampler::builder().build()?;
    /// let mut file = [0; MAX_FILE];
    /// let length = sampler.save_to(&mut file)?;
    /// assert_eq!(file[..length], sampler.save()?);
    /// assert_eq!(sampler.save_to(&mut file[..length - 1]), Err(FileRefusal::BadFile));
    /// # Ok::<(), Box<dyn std::error::Error>>(())
    /// ```
    pub fn save_to(&self, file: &mut [u8]) -> Result<usize, FileRefusal> {
        // SAFETY: both pointers come from references, of which the exclusive one shares no byte with the other.
        let answer = unsafe { ffi::de_save(&*self.state, file.as_mut_ptr(), file.len()) };
        match answer.kind {
            ffi::SAVED => Ok(answer.length as usize),
            ffi::REFUSED => Err(FileRefusal::numbered(answer.refusal)),
            kind => unreachable!("a state is saved or refused, and this is kind {kind}"),
        }
    }

    /// The sampler that was saved: it goes on as that one would have. Its bounds rule is
    /// [`BoundsRule::Clamp`](crate::BoundsRule::Clamp) and it has no ladder, as that one had none.
    ///
    /// The history stays the caller's. It must still hold the results of the open generation's trials that were told
    /// before the save; a generation waits for a trial that is not told.
    ///
    /// # Panics
    /// Where the linked library lays its structs out otherwise than this crate.
    ///
    /// ```
    /// use emkhurtov::{FileRefusal, Sampler};
    /// let mut file = Sampler::builder().build()?.save()?;
    /// assert!(Sampler::restore(&file).is_ok());
    /// assert_eq!(Sampler::restore(&file[..file.len() - 1]).err(), Some(FileRefusal::BadFile));
    /// file[2] = 7; // no record is of kind 7
    /// assert_eq!(Sampler::restore(&file).err(), Some(FileRefusal::BadContent));
    /// # Ok::<(), Box<dyn std::error::Error>>(())
    /// ```
    pub fn restore(file: &[u8]) -> Result<Sampler, FileRefusal> {
        layout::check();
        let mut state = layout::blank_state();
        // SAFETY: the box's memory is initialised and of the layout that was checked above; a slice's pointer is not
        // null, an empty one's either.
        let answer = unsafe { ffi::de_restore(&mut *state, file.as_ptr(), file.len()) };
        match answer.kind {
            ffi::RESTORED => Ok(Sampler { state }),
            ffi::REFUSED => Err(FileRefusal::numbered(answer.refusal)),
            kind => unreachable!("a file is restored or refused, and this is kind {kind}"),
        }
    }
}

#[cfg(test)]
mod tests {
    use std::ffi::CStr;

    use super::*;

    #[test]
    fn the_texts_are_those_of_c() {
        for refusal in [FileRefusal::BadFile, FileRefusal::BadContent] {
            assert_eq!(FileRefusal::numbered(refusal.number()), refusal);
            // SAFETY: the text ends in a zero and stays.
            let text = unsafe { CStr::from_ptr(ffi::de_refusal_text(refusal.number())) };
            let ours = format!("refusal {}: {}", refusal.number(), text.to_str().unwrap());
            assert_eq!(refusal.to_string(), ours);
        }
    }
}
