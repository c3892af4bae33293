//! Plans of map items for regions, and checks of plans.
use crate::ffi;
use crate::{Item, Message, PageSize, Refusal, Rights};
use std::error::Error;
use std::fmt;

/// A region: `count` pages that start at page `source`. They move to the pages that start at page `target`, with these rights.
#[derive(Clone, Copy, PartialEq, Eq, Hash, Debug)]
pub struct Region {
    /// The first page that is sent.
    pub source: u32,
    /// The page to which the first page goes.
    pub target: u32,
    /// The number of pages.
    pub count: u32,
    /// The rights that the pages get.
    pub rights: Rights,
}

/// The shortest list of map items that moves exactly a region, in the fewest messages. [`Region::plan`] makes it.
///
/// Each item has one page, and no single map item could move two of these pages: this proves that no list is shorter. A plan stores
/// no items. Each message is computed when you request it.
///
/// ```
/// use l4::{Region, Rights, MAX_ITEMS};
/// // each page needs an item of its own
/// let region = Region { source: 0, target: 1, count: 40, rights: Rights::ALL };
/// let plan = region.plan()?;
/// let lengths: Vec<_> = plan.messages().map(|message| message.words().len()).collect();
/// assert_eq!((plan.item_count(), lengths), (40, vec![1 + 2 * MAX_ITEMS, 1 + 2 * 9]));
/// # Ok::<(), l4::NoPlan>(())
/// ```
#[derive(Clone, Copy, PartialEq, Eq, Debug)]
pub struct Plan {
    region: Region,
    page_size: PageSize,
    items: u32,
    messages: u32,
}

impl Plan {
    /// Returns the number of items, 1 to 1,984.
    pub fn item_count(&self) -> usize {
        self.items as usize
    }

    /// Returns the number of messages, 1 to 64. Fewer messages cannot send the items. Every message but the last has 31 items.
    pub fn message_count(&self) -> usize {
        self.messages as usize
    }

    /// Returns the message with this number, from 0. It has label 0 and no untyped words.
    ///
    /// # Errors
    ///
    /// N6 if the plan has no message with this number.
    pub fn message(&self, number: u32) -> Result<Message, Refusal> {
        let told = ffi::plan_message(&self.region.given(), number, self.page_size.bytes());
        match told.refusal {
            ffi::L4_OK => {
                let words = &told.words[..told.word_count as usize];
                Ok(Message::of_words(words).expect("a plan's words are a message's"))
            }
            number => Err(Refusal::of(number, 0)),
        }
    }

    /// Returns the message that sends all items.
    ///
    /// # Errors
    ///
    /// N5 if the plan has several messages.
    pub fn only(&self) -> Result<Message, Refusal> {
        if self.messages > 1 {
            return Err(Refusal::SeveralMessages);
        }
        self.message(0)
    }

    /// Returns an iterator over the messages, in order.
    pub fn messages(&self) -> impl ExactSizeIterator<Item = Message> + '_ {
        (0..self.messages).map(|number| {
            self.message(number)
                .expect("the plan has a message with this number")
        })
    }

    /// Returns an iterator over the words of the items, two for each, in order.
    pub fn item_words(&self) -> impl Iterator<Item = u32> + '_ {
        self.messages()
            .flat_map(|message| message.words()[1..].to_vec())
    }

    /// Returns an iterator over the items, in order.
    pub fn items(&self) -> impl Iterator<Item = Item> + '_ {
        self.messages().flat_map(|message| {
            let pairs = message.words()[1..].chunks_exact(2);
            pairs
                .filter_map(|pair| Item::read(pair[0], pair[1]).ok())
                .collect::<Vec<_>>()
        })
    }

    /// Returns one page for each item. No single map item could move two of these pages.
    pub fn pages(&self) -> Vec<u32> {
        ffi::plan_pages(&self.region.given(), self.page_size.bytes())
    }
}

/// The error for a region that has no plan.
#[derive(Clone, PartialEq, Eq)]
#[non_exhaustive]
pub enum NoPlan {
    /// The region is refused with N1, N2 or N3.
    Refused(Refusal),
    /// Every list of map items that moves exactly the region has more than 1,984 items, as these 1,985 pages prove (N4).
    TooLong(Vec<u32>),
}

impl NoPlan {
    /// Returns the refusal, N1 to N4.
    pub fn refusal(&self) -> Refusal {
        match self {
            NoPlan::Refused(refusal) => *refusal,
            NoPlan::TooLong(_) => Refusal::TooLong,
        }
    }

    /// Returns the printed code.
    pub fn code(&self) -> &'static str {
        self.refusal().code()
    }

    /// Returns a line of text that explains the refusal.
    pub fn text(&self) -> &'static str {
        self.refusal().text()
    }
}

impl fmt::Display for NoPlan {
    fn fmt(&self, out: &mut fmt::Formatter<'_>) -> fmt::Result {
        self.refusal().fmt(out)
    }
}

impl fmt::Debug for NoPlan {
    fn fmt(&self, out: &mut fmt::Formatter<'_>) -> fmt::Result {
        match self {
            NoPlan::Refused(refusal) => write!(out, "{refusal:?}"),
            NoPlan::TooLong(pages) => {
                write!(out, "{:?}, as {} pages show", self.refusal(), pages.len())
            }
        }
    }
}

impl Error for NoPlan {}

/// Returns the result of a check that the library reports.
fn judged(told: &ffi::l4_verdict) -> Result<(), Refusal> {
    match told.refusal {
        ffi::L4_OK => Ok(()),
        number => Err(Refusal::of(number, told.detail)),
    }
}

impl Region {
    /// Returns the struct that the library reads.
    pub(crate) fn given(&self) -> ffi::l4_region {
        ffi::l4_region {
            source: self.source,
            target: self.target,
            count: self.count,
            rights: self.rights.bits(),
        }
    }

    /// Returns the shortest list of map items that moves exactly the region, for pages of 4 KiB.
    ///
    /// # Errors
    ///
    /// In this order: N1, N2, N3, N4.
    ///
    /// # Examples
    ///
    /// ```
    /// use l4::{Region, Rights};
    /// let region = Region { source: 4, target: 12, count: 12, rights: Rights::ALL };
    /// let plan = region.plan()?;
    /// assert_eq!(plan.only()?.words(), [0x100, 0xc009, 0x40e7, 0x10008, 0x80f7]);
    /// assert_eq!(plan.pages(), [4, 8]);
    /// # Ok::<(), Box<dyn std::error::Error>>(())
    /// ```
    pub fn plan(&self) -> Result<Plan, NoPlan> {
        self.plan_sized(PageSize::Kib4)
    }

    /// Plans as [`plan`](Region::plan) does, for pages of this size.
    ///
    /// ```
    /// use l4::{PageSize, Region, Rights};
    /// let region = Region { source: 16, target: 32, count: 1, rights: Rights::ALL };
    /// assert_eq!(region.plan_sized(PageSize::Kib1)?.only()?.words(), [0x80, 0x8008, 0x40a7]);
    /// # Ok::<(), Box<dyn std::error::Error>>(())
    /// ```
    pub fn plan_sized(&self, size: PageSize) -> Result<Plan, NoPlan> {
        let told = ffi::plan_region(&self.given(), size.bytes());
        match told.refusal {
            ffi::L4_OK => Ok(Plan {
                region: *self,
                page_size: size,
                items: told.items,
                messages: told.messages,
            }),
            ffi::L4_N4 => Err(NoPlan::TooLong(ffi::plan_pages(
                &self.given(),
                size.bytes(),
            ))),
            number => Err(NoPlan::Refused(Refusal::of(number, 0))),
        }
    }

    /// Checks a plan from any source, for pages of 4 KiB: that its items move exactly the region, and that its pages, one for each item,
    /// prove that no list of map items that does so is shorter. `words` has the words of the items, two for each.
    ///
    /// # Errors
    ///
    /// In this order: M1 (more than 3,968 words), M2 (an odd number of words), M4 or M3; C6, C1, C2, C5, C3, C4.
    ///
    /// # Examples
    ///
    /// ```
    /// use l4::{Refusal, Region, Rights};
    /// let region = Region { source: 4, target: 12, count: 12, rights: Rights::ALL };
    /// let words = [0xc009, 0x40e7, 0x10008, 0x80f7];
    /// assert_eq!(region.check(&words, &[4, 8]), Ok(()));
    /// assert_eq!(region.check(&words, &[4, 5]), Err(Refusal::PageNotApart(1)));
    /// ```
    pub fn check(&self, words: &[u32], pages: &[u32]) -> Result<(), Refusal> {
        self.check_sized(words, pages, PageSize::Kib4)
    }

    /// Checks as [`check`](Region::check) does, for pages of this size.
    pub fn check_sized(&self, words: &[u32], pages: &[u32], size: PageSize) -> Result<(), Refusal> {
        judged(&ffi::check_plan(&self.given(), words, pages, size.bytes()))
    }

    /// Checks that 1,985 pages prove the following: every list of map items that moves exactly the region has more than 1,984 items. Pages
    /// have 4 KiB.
    ///
    /// # Errors
    ///
    /// In this order: C6, C5, C3, C4.
    pub fn check_too_long(&self, pages: &[u32]) -> Result<(), Refusal> {
        self.check_too_long_sized(pages, PageSize::Kib4)
    }

    /// Checks as [`check_too_long`](Region::check_too_long) does, for pages of this size.
    pub fn check_too_long_sized(&self, pages: &[u32], size: PageSize) -> Result<(), Refusal> {
        judged(&ffi::check_too_long(&self.given(), pages, size.bytes()))
    }
}
