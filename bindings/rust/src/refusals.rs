//! The reasons for which a call is refused.
use crate::ffi;
use std::error::Error;
use std::fmt;

/// Declares the refusals, each with its constant, its code and its text.
macro_rules! refusals {
    ($($name:ident $(($detail:ident))? = $constant:ident $code:literal $text:literal;)*) => {
        /// A reason for which a call was refused. A refused step changes nothing. The codes are those that the programs print.
        ///
        /// ```
        /// use l4::{Kernel, Refusal};
        /// let refused = Kernel::boot(0).unwrap_err();
        /// assert_eq!(refused, Refusal::FrameCount);
        /// assert_eq!(refused.to_string(), "K6: the number of frames must be from 1 to 4,096");
        /// assert_eq!(format!("{refused:?}"), "FrameCount (K6: the number of frames must be from 1 to 4,096)");
        /// ```
        #[derive(Clone, Copy, PartialEq, Eq, Hash)]
        #[non_exhaustive]
        pub enum Refusal {
            $(#[doc = concat!($code, ": ", $text, ".")] $name $(($detail))?,)*
        }

        impl Refusal {
            /// Returns the refusal for a number of the library, with the number that it carries.
            pub(crate) fn of(number: u32, detail: u32) -> Refusal {
                match number {
                    $(ffi::$constant => Refusal::$name $((detail as $detail))?,)*
                    _ => unknown("refusal", number),
                }
            }

            /// Returns the printed code, such as `K1`.
            pub fn code(self) -> &'static str {
                match self {
                    $(Refusal::$name { .. } => $code,)*
                }
            }

            /// Returns a line of text that explains the refusal.
            pub fn text(self) -> &'static str {
                match self {
                    $(Refusal::$name { .. } => $text,)*
                }
            }

            /// Returns the name of the variant.
            fn name(self) -> &'static str {
                match self {
                    $(Refusal::$name { .. } => stringify!($name),)*
                }
            }

            /// Returns the number that some refusals carry: an item, a word, an entry or a place of a list, from 0; a page; a
            /// seat; or a thread.
            pub fn detail(self) -> Option<u32> {
                match self {
                    $(refusals!(@pattern $name detail $($detail)?) => refusals!(@value detail $($detail)?),)*
                }
            }
        }

        #[cfg(test)]
        const NUMBERS: &[u32] = &[$(ffi::$constant),*];

        #[cfg(doctest)]
        mod growth {
            grows!(Refusal: $($name)*);
        }
    };
    (@pattern $name:ident $bound:ident $detail:ident) => { Refusal::$name($bound) };
    (@pattern $name:ident $bound:ident) => { Refusal::$name };
    (@value $bound:ident $detail:ident) => { Some($bound) };
    (@value $bound:ident) => { None };
}

refusals! {
    EmptyHandle = L4_B1 "B1" "the handle is empty: it was never created, or it was freed";
    NotAStep = L4_B5 "B5" "the line is not a step or query of a step list";
    NotACheckpoint = L4_B6 "B6" "the bytes cannot be read as a checkpoint";
    TooManyEntries = L4_B7 "B7" "a number of entries exceeds 2^63";
    NotEnabled = L4_K1 "K1" "the step is not enabled: this transfer or expiry cannot happen now, or the thread does not wait";
    NoSuchThread = L4_K2 "K2" "there is no thread with this number";
    StillWaiting = L4_K3 "K3" "the thread's previous call has not ended yet";
    TimeoutValue = L4_K4 "K4" "a timeout is neither never (0) nor zero (0x400)";
    FrameCount = L4_K6 "K6" "the number of frames must be from 1 to 4,096";
    WordCount = L4_M1 "M1" "the tag counts more than 63 words, untyped and typed together";
    OddItemWords = L4_M2 "M2" "the tag counts an odd number of typed words, but every item has two";
    BadItem(u32) = L4_M3 "M3" "the item has an unknown kind, or its fpage is invalid";
    UnsupportedItem(u32) = L4_M4 "M4" "the item is a string or CtrlXfer item, which the kernel does not support";
    Flags = L4_M5 "M5" "a flag is set in the tag, but the kernel supports no flags";
    BadWindow = L4_M6 "M6" "the receive window is not a valid fpage";
    TooFewWords = L4_M7 "M7" "the tag is missing, or fewer words follow it than it counts";
    NotRoot = L4_H1 "H1" "the caller is not in root's address space";
    BadThreadId = L4_H2 "H2" "the id is not a valid thread id";
    ThreadExists = L4_H3 "H3" "a thread with this number already exists";
    NoSuchId = L4_H4 "H4" "there is no thread with this id";
    TooManyThreads = L4_H5 "H5" "there are already 64 threads, or all space numbers are used up";
    Undeletable = L4_H6 "H6" "sigma0, root and the caller itself cannot be deleted";
    BadUnmapWord(u32) = L4_U1 "U1" "a word passed to Unmap is not a valid fpage";
    TooFewUnmapWords = L4_U2 "U2" "Unmap got fewer words than its control word requires";
    EmptyRegion = L4_N1 "N1" "the region has no pages";
    RegionBeyondSpace = L4_N2 "N2" "the source or target pages go beyond the end of a space: 1,048,576 pages, or 4,194,304 of 1,024 bytes";
    RegionWithoutRights = L4_N3 "N3" "the region has no rights: request at least one of r, w and x";
    TooLong = L4_N4 "N4" "the region needs more than 1,984 map items, the most that 64 messages can hold";
    SeveralMessages = L4_N5 "N5" "the plan has more than one message";
    NoSuchMessage = L4_N6 "N6" "the plan has no message with this number";
    ForeignItem(u32) = L4_C1 "C1" "the item does not fit the region: it is a grant, has other rights, moves a page outside it, or moves a page to the wrong target";
    PageNotMoved(u32) = L4_C2 "C2" "no item of the plan moves the page";
    ForeignPage(u32) = L4_C3 "C3" "the page at this position in the list is not in the region";
    PageNotApart(u32) = L4_C4 "C4" "one map item could move the page at this position and an earlier one, so the pages do not prove that no plan is shorter";
    PageCount = L4_C5 "C5" "the plan has more than 1,984 items, or not one page per item; or a too-long claim does not list 1,985 pages";
    RefusedRegion = L4_C6 "C6" "the region itself is refused with N1, N2 or N3";
    RegionsOverlap = L4_P1 "P1" "the region overlaps another region in the table";
    NotServed = L4_P2 "P2" "no region in the table covers this page with the requested access";
    FullTable = L4_P3 "P3" "the table is full: it has 64 regions";
    BadRegion = L4_P4 "P4" "the region has no pages or no rights, or one of its pages or source pages is beyond the end of the space";
    HistoryFull = L4_L1 "L1" "the history is full: no call can start once it has more than 999,871 steps";
    ReplyWaiting = L4_L3 "L3" "the reply to an earlier call of this seat has not been taken yet";
    SeatTaken = L4_L4 "L4" "the seat of this number was already given out";
    MemoryFoundSince(u32) = L4_L6 "L6" "a transfer that ran out of memory in the history succeeded when the history was replayed";
    OtherProvenance = L4_L7 "L7" "the given links do not match the way the page got there";
    HandedOut = L4_L8 "L8" "the entries or receipts that this needs were handed out";
    SeatMissing(u32) = L4_X1 "X1" "the seat of this number was given out, but was not returned";
    SeatForeign(u32) = L4_X2 "X2" "the seat of this number was never given out, or was returned twice";
    SeatWrong(u32) = L4_X3 "X3" "the seat of this number does not match the lock's records";
    UnknownCommand = L4_S1 "S1" "the command is unknown";
    BadLine = L4_S2 "S2" "the line has too few tokens, too many, or an invalid one";
    LongLine = L4_S3 "S3" "the line is longer than 4,096 bytes";
    CutLine = L4_S4 "S4" "the line does not end with a newline";
    NamesFull = L4_S5 "S5" "the script already has 64 names";
    PartRepeated = L4_O1 "O1" "a litmus test has one unordered line, and after it at most one finally line";
    LineOfNoThread = L4_O2 "O2" "a query or a rule is allowed only after the finally line, and a name only before the unordered line";
    NotAQuery = L4_O3 "O3" "after the finally line, only show, parent, reply, never and always are allowed";
    StepsInPlan = L4_O4 "O4" "steps is not allowed, because its answer depends on the whole order";
    NeverCreated(u32) = L4_O5 "O5" "no line creates the thread whose call this is";
    NoUnordered = L4_O6 "O6" "the litmus test has no unordered line";
    NoSuchAnswer = L4_O7 "O7" "no outcome can have the line that the rule names";
    Expectation = L4_O8 "O8" "an expectation is not allowed in a litmus test: state a rule instead";
    NoMemory = L4_NO_MEMORY "NoMemory" "there was not enough memory";
}

/// Writes the code, the number that the refusal carries, and the text.
impl fmt::Display for Refusal {
    fn fmt(&self, out: &mut fmt::Formatter<'_>) -> fmt::Result {
        match self.detail() {
            Some(detail) => write!(out, "{} {detail}: {}", self.code(), self.text()),
            None => write!(out, "{}: {}", self.code(), self.text()),
        }
    }
}

impl fmt::Debug for Refusal {
    fn fmt(&self, out: &mut fmt::Formatter<'_>) -> fmt::Result {
        write!(out, "{} ({self})", self.name())
    }
}

impl Error for Refusal {}

/// Panics for a number that no library of this crate's version returns.
pub(crate) fn unknown(what: &str, number: u32) -> ! {
    panic!("libl4 gives a {what} that this crate doesn't know: {number:#x}")
}

#[cfg(test)]
mod tests {
    use super::*;

    #[test]
    fn codes_and_texts_are_the_librarys() {
        for &number in NUMBERS {
            let refusal = Refusal::of(number, 9);
            assert_eq!(refusal.code(), ffi::refusal_code(number));
            assert_eq!(refusal.text(), ffi::refusal_text(number));
        }
    }

    #[test]
    fn details_are_shown() {
        assert_eq!(Refusal::of(ffi::L4_C2, 16), Refusal::PageNotMoved(16));
        assert_eq!(
            Refusal::PageNotMoved(16).to_string(),
            "C2 16: no item of the plan moves the page"
        );
        assert_eq!(Refusal::NotEnabled.detail(), None);
        assert_eq!(ffi::refusal_code(0x1234), "");
    }

    #[test]
    #[should_panic(expected = "0x1234")]
    fn an_unknown_number_is_no_refusal() {
        Refusal::of(0x1234, 0);
    }
}
