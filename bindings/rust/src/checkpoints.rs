//! Why bytes cannot be read as a checkpoint.
use crate::ffi;
use crate::refusals::{unknown, Refusal};
use std::error::Error;
use std::fmt;

/// What is wrong with bytes that cannot be read as a checkpoint.
#[derive(Clone, Copy, PartialEq, Eq, Hash, Debug)]
#[non_exhaustive]
pub enum CheckpointFault {
    /// They do not begin with `LCP4`.
    Magic,
    /// The version of the form is unknown.
    Version,
    /// No kernel has this number of frames.
    Frames,
    /// No kernel has this page size.
    PageSize,
    /// The number of entries exceeds 2^63.
    Entries,
    /// They end too early.
    Cut,
    /// The checksum is wrong.
    Checksum,
    /// Bytes follow the checksum.
    Extra,
    /// No kernel could be built from the words.
    State,
}

impl CheckpointFault {
    fn of(number: u32) -> CheckpointFault {
        match number {
            ffi::L4_CHECKPOINT_MAGIC => CheckpointFault::Magic,
            ffi::L4_CHECKPOINT_VERSION => CheckpointFault::Version,
            ffi::L4_CHECKPOINT_FRAMES => CheckpointFault::Frames,
            ffi::L4_CHECKPOINT_PAGE_SIZE => CheckpointFault::PageSize,
            ffi::L4_CHECKPOINT_ENTRIES => CheckpointFault::Entries,
            ffi::L4_CHECKPOINT_CUT => CheckpointFault::Cut,
            ffi::L4_CHECKPOINT_CHECKSUM => CheckpointFault::Checksum,
            ffi::L4_CHECKPOINT_EXTRA => CheckpointFault::Extra,
            ffi::L4_CHECKPOINT_STATE => CheckpointFault::State,
            other => unknown("fault of a checkpoint", other),
        }
    }

    /// Returns a line of text that explains the fault.
    pub fn text(self) -> &'static str {
        match self {
            CheckpointFault::Magic => "a checkpoint begins with LCP4",
            CheckpointFault::Version => "the version of the form must be 1",
            CheckpointFault::Frames => "the number of frames must be from 1 to 4,096",
            CheckpointFault::PageSize => "the page size must be 4,096 or 1,024 bytes",
            CheckpointFault::Entries => "the number of entries exceeds 2^63",
            CheckpointFault::Cut => "the checkpoint is cut off",
            CheckpointFault::Checksum => "the checksum is not that of the checkpoint",
            CheckpointFault::Extra => "bytes follow the checkpoint",
            CheckpointFault::State => "no kernel could be built from the words",
        }
    }
}

/// Bytes from which no kernel was read.
#[derive(Clone, Copy, Debug, PartialEq, Eq, Hash)]
pub struct BadCheckpoint {
    /// Why: [`Refusal::NotACheckpoint`] or [`Refusal::NoMemory`].
    pub refusal: Refusal,
    /// What is wrong with the bytes, if they cannot be read as a checkpoint.
    pub fault: Option<CheckpointFault>,
    /// The position, in bytes from 0, at which it is wrong, and otherwise 0.
    pub position: u64,
}

impl BadCheckpoint {
    /// Returns the error that the library reports.
    pub(crate) fn of(told: &ffi::l4_checkpoint) -> BadCheckpoint {
        let refusal = Refusal::of(told.refusal, 0);
        BadCheckpoint {
            refusal,
            fault: (refusal == Refusal::NotACheckpoint).then(|| CheckpointFault::of(told.fault)),
            position: told.position,
        }
    }
}

impl fmt::Display for BadCheckpoint {
    fn fmt(&self, out: &mut fmt::Formatter<'_>) -> fmt::Result {
        match self.fault {
            Some(fault) => write!(out, "byte {}: {}", self.position, fault.text()),
            None => self.refusal.fmt(out),
        }
    }
}

impl Error for BadCheckpoint {}
