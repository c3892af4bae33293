//! The tables of pagers, and sigma0's table.
use crate::ffi;
use crate::{Message, PageSize, Refusal, Region, Rights};
use std::fmt;

/// Returns the message that the library reports, or the refusal.
fn answered(told: &ffi::l4_message) -> Result<Message, Refusal> {
    match told.refusal {
        ffi::L4_OK => {
            let words = &told.words[..told.word_count as usize];
            Ok(Message::of_words(words).expect("an answer's words are a message's"))
        }
        number => Err(Refusal::of(number, told.detail)),
    }
}

/// A pager's table. For the pages of the threads that the pager serves, it says which of its own pages the pager maps there.
///
/// It has at most 64 regions, whose target pages do not overlap; source pages may be shared. It owns its memory, and frees it when it is
/// dropped.
///
/// ```
/// use l4::{Message, Pager, Refusal, Region, Rights};
/// let mut pager = Pager::new()?;
/// pager.add(&Region { source: 100, target: 4, count: 4, rights: Rights::READ })?;
/// assert_eq!(pager.find(5, Rights::READ), Ok(101));
/// assert_eq!(pager.find(5, Rights::WRITE), Err(Refusal::NotServed));
/// // a fault that reads at 0x5678
/// let fault = Message::new(0xffe4, &[0x5678, 0x400100], &[])?;
/// assert_eq!(pager.answer(&fault)?.words(), [0x80, 0x5008, 0x650c4]);
/// # Ok::<(), Box<dyn std::error::Error>>(())
/// ```
pub struct Pager {
    handle: ffi::Handle<ffi::l4_pager>,
}

impl Pager {
    /// Makes a table without regions, for pages of 4 KiB.
    ///
    /// # Errors
    ///
    /// NoMemory.
    pub fn new() -> Result<Pager, Refusal> {
        Pager::new_sized(PageSize::Kib4)
    }

    /// Makes a table for pages of this size: that of the kernel whose faults it answers. The errors are the same.
    ///
    /// ```
    /// use l4::{Message, PageSize, Pager, Region, Rights};
    /// let mut pager = Pager::new_sized(PageSize::Kib1)?;
    /// pager.add(&Region { source: 100, target: 20, count: 4, rights: Rights::READ | Rights::EXECUTE })?;
    /// let fault = Message::new(0xffe4, &[0x5678, 0x400100], &[])?;
    /// assert_eq!(pager.answer(&fault)?.words(), [0x80, 0x5408, 0x194a5]);
    /// # Ok::<(), Box<dyn std::error::Error>>(())
    /// ```
    pub fn new_sized(size: PageSize) -> Result<Pager, Refusal> {
        match ffi::Handle::pager(size.bytes()) {
            Ok(handle) => Ok(Pager { handle }),
            Err(number) => Err(Refusal::of(number, 0)),
        }
    }

    /// Adds a region at the end. After an error nothing has changed.
    ///
    /// # Errors
    ///
    /// In this order: P4, P1, P3.
    pub fn add(&mut self, region: &Region) -> Result<(), Refusal> {
        match self.handle.add(&region.given()) {
            ffi::L4_OK => Ok(()),
            number => Err(Refusal::of(number, 0)),
        }
    }

    /// Returns the source page of a target page whose region has all the rights that the access needs. An access that needs no right finds
    /// the page in any region.
    ///
    /// # Errors
    ///
    /// P2 if no region has the page with this access.
    pub fn find(&self, page: u32, access: Rights) -> Result<u32, Refusal> {
        let told = self.handle.find(page, access.bits());
        match told.refusal {
            ffi::L4_OK => Ok(told.page),
            number => Err(Refusal::of(number, 0)),
        }
    }

    /// Returns the pager's answer to a message.
    ///
    /// The answer to a page fault is one map item: the source page, with its region's rights, for the page of the fault. It is a nil map
    /// item if [`find`](Pager::find) refuses the page; so is the answer to any other message.
    ///
    /// # Errors
    ///
    /// M7, M1, M5, M2, M4 or M3 for words that are not a message.
    pub fn answer(&self, message: &Message) -> Result<Message, Refusal> {
        answered(&self.handle.answer(message.words()))
    }
}

impl fmt::Debug for Pager {
    fn fmt(&self, out: &mut fmt::Formatter<'_>) -> fmt::Result {
        out.write_str("Pager { .. }")
    }
}

/// sigma0's table: which space owns which frame.
///
/// Once a space has been given a frame, the frame belongs to that space for good. The table owns its memory, and frees it when it is
/// dropped.
///
/// ```
/// use l4::{Message, Sigma0};
/// let mut sigma0 = Sigma0::new(256)?;
/// // a fault at 0x5678 of a thread in space 2, and then of one in space 3
/// let fault = Message::new(0xffe4, &[0x5678, 0x400100], &[])?;
/// assert_eq!(sigma0.answer(2, &fault)?.words(), [0x80, 0x5008, 0x50c7]);
/// assert_eq!(sigma0.answer(3, &fault)?.words(), [0x80, 0x8, 0]);
/// # Ok::<(), Box<dyn std::error::Error>>(())
/// ```
pub struct Sigma0 {
    handle: ffi::Handle<ffi::l4_sigma0>,
}

impl Sigma0 {
    /// Makes a table of 1 to 4,096 frames of 4 KiB, none of which has an owner.
    ///
    /// # Errors
    ///
    /// In this order: K6, NoMemory.
    pub fn new(frames: u32) -> Result<Sigma0, Refusal> {
        Sigma0::new_sized(frames, PageSize::Kib4)
    }

    /// Makes a table for pages and frames of this size, as the kernel has. The errors are the same.
    ///
    /// ```
    /// use l4::{Message, PageSize, Sigma0};
    /// let mut sigma0 = Sigma0::new_sized(256, PageSize::Kib1)?;
    /// let fault = Message::new(0xffe4, &[0x5678, 0x400100], &[])?;
    /// assert_eq!(sigma0.answer(2, &fault)?.words(), [0x80, 0x5408, 0x54a7]);
    /// # Ok::<(), Box<dyn std::error::Error>>(())
    /// ```
    pub fn new_sized(frames: u32, size: PageSize) -> Result<Sigma0, Refusal> {
        match ffi::Handle::sigma0(frames, size.bytes()) {
            Ok(handle) => Ok(Sigma0 { handle }),
            Err(number) => Err(Refusal::of(number, 0)),
        }
    }

    /// Returns sigma0's answer to a message from a thread in this space.
    ///
    /// A request with attributes of 0 requests the frames of its fpage's pages, and a page fault requests the frame of its page. The frame
    /// of a page has the page's number. If all of these frames exist, and each has no owner or is owned by this space, then the space owns
    /// them from then on. The answer is then one map item of all of them, with all rights, to the pages of the same numbers. The answer to
    /// anything else is a nil map item, and nothing changes.
    ///
    /// # Errors
    ///
    /// M7, M1, M5, M2, M4 or M3 for words that are not a message.
    pub fn answer(&mut self, space: u64, message: &Message) -> Result<Message, Refusal> {
        answered(&self.handle.answer(space, message.words()))
    }
}

impl fmt::Debug for Sigma0 {
    fn fmt(&self, out: &mut fmt::Formatter<'_>) -> fmt::Result {
        out.write_str("Sigma0 { .. }")
    }
}
