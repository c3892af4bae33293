//! The words of the kernel's interface: thread ids, rights, fpages, items and messages.
use crate::refusals::unknown;
use crate::{ffi, Refusal, MAX_WORDS};
use std::error::Error;
use std::fmt;
use std::ops::{BitAnd, BitOr, Range, Sub};

/// Writes words, each as `0x` and eight digits.
pub(crate) struct Hexadecimal<'words>(pub(crate) &'words [u32]);

impl fmt::Display for Hexadecimal<'_> {
    fn fmt(&self, out: &mut fmt::Formatter<'_>) -> fmt::Result {
        for (place, word) in self.0.iter().enumerate() {
            let between = if place == 0 { "" } else { " " };
            write!(out, "{between}{word:#010x}")?;
        }
        Ok(())
    }
}

/// A thread id: the thread number in bits 31 to 14, and the version in bits 13 to 0 (L4 X.2 manual, ThreadId).
///
/// A thread's version is 1 to 16,383, and its low six bits are not all zero.
#[derive(Clone, Copy, PartialEq, Eq, PartialOrd, Ord, Hash)]
pub struct ThreadId(u32);

impl ThreadId {
    /// nilthread, the id of no thread: a call has no phase with it.
    pub const NIL: ThreadId = ThreadId(crate::ffi::L4_NILTHREAD);

    /// anythread: as a partner to receive from, it means any thread.
    pub const ANY: ThreadId = ThreadId(crate::ffi::L4_ANYTHREAD);

    /// The id of sigma0, thread 1 in space 0.
    pub const SIGMA0: ThreadId = ThreadId(1 << 14 | 1);

    /// The id of root, thread 2 in space 1.
    pub const ROOT: ThreadId = ThreadId(2 << 14 | 1);

    /// Returns the id of the thread `number`, from 1 to 262,143, with a version from 1 to 16,383 whose low six bits are not all zero.
    ///
    /// # Errors
    ///
    /// H2 for other numbers, and for the one pair whose word is [`ThreadId::ANY`].
    ///
    /// # Examples
    ///
    /// ```
    /// use l4::{Refusal, ThreadId};
    /// assert_eq!(ThreadId::new(3, 1)?.word(), 0xc001);
    /// assert_eq!(ThreadId::new(0, 1), Err(Refusal::BadThreadId));
    /// # Ok::<(), Refusal>(())
    /// ```
    pub fn new(number: u32, version: u32) -> Result<ThreadId, Refusal> {
        let there = (1..1 << 18).contains(&number) && version < 1 << 14 && version & 0x3f != 0;
        let id = ThreadId(number << 14 | version & 0x3fff);
        if there && id != ThreadId::ANY {
            Ok(id)
        } else {
            Err(Refusal::BadThreadId)
        }
    }

    /// Returns the id of a word, which may be an id that no thread can have.
    pub const fn of_word(word: u32) -> ThreadId {
        ThreadId(word)
    }

    /// Returns the word.
    pub const fn word(self) -> u32 {
        self.0
    }

    /// Returns the thread number, below 262,144.
    pub const fn number(self) -> u32 {
        self.0 >> 14
    }

    /// Returns the version, below 16,384.
    pub const fn version(self) -> u32 {
        self.0 & 0x3fff
    }

    /// Returns whether a thread can have this id. No thread can if the number is 0, if the low six bits of the version are all zero, or if
    /// the id is [`ThreadId::ANY`].
    ///
    /// ```
    /// use l4::ThreadId;
    /// assert!(ThreadId::ROOT.is_valid() && !ThreadId::of_word(0xc040).is_valid());
    /// ```
    pub const fn is_valid(self) -> bool {
        self.number() != 0 && self.version() & 0x3f != 0 && self.0 != ThreadId::ANY.0
    }
}

/// Writes `thread 3`, with the version if it is not 1, or `nil` or `any`.
impl fmt::Display for ThreadId {
    fn fmt(&self, out: &mut fmt::Formatter<'_>) -> fmt::Result {
        match (*self, self.number(), self.version()) {
            (ThreadId::NIL, ..) => out.write_str("nil"),
            (ThreadId::ANY, ..) => out.write_str("any"),
            (_, number, 1) => write!(out, "thread {number}"),
            (_, number, version) => write!(out, "thread {number} version {version}"),
        }
    }
}

impl fmt::Debug for ThreadId {
    fn fmt(&self, out: &mut fmt::Formatter<'_>) -> fmt::Result {
        write!(out, "ThreadId({:#010x}: {self})", self.0)
    }
}

/// A set of the rights to read, to write and to execute a page (L4 X.2 manual, Fpages).
///
/// ```
/// use l4::Rights;
/// let code = Rights::READ | Rights::EXECUTE;
/// assert_eq!(code.to_string(), "r-x");
/// assert!(Rights::ALL.contains(code) && !code.contains(Rights::WRITE));
/// ```
#[derive(Clone, Copy, PartialEq, Eq, Hash, Default)]
pub struct Rights(u8);

impl Rights {
    /// No right.
    pub const NONE: Rights = Rights(0);

    /// The right to read.
    pub const READ: Rights = Rights(crate::ffi::L4_READ as u8);

    /// The right to write.
    pub const WRITE: Rights = Rights(crate::ffi::L4_WRITE as u8);

    /// The right to execute.
    pub const EXECUTE: Rights = Rights(crate::ffi::L4_EXECUTE as u8);

    /// All three rights.
    pub const ALL: Rights = Rights(7);

    /// Returns the rights in the low three bits of a word: read is 4, write 2, execute 1. The other bits are ignored.
    pub const fn of_bits(word: u32) -> Rights {
        Rights((word & 7) as u8)
    }

    /// Returns the bits, below 8: read is 4, write 2, execute 1.
    pub const fn bits(self) -> u32 {
        self.0 as u32
    }

    /// Returns whether this set has every right of the other.
    pub const fn contains(self, other: Rights) -> bool {
        self.0 & other.0 == other.0
    }

    /// Returns whether the set is empty.
    pub const fn is_empty(self) -> bool {
        self.0 == 0
    }
}

/// Returns the rights of either set.
impl BitOr for Rights {
    type Output = Rights;

    fn bitor(self, other: Rights) -> Rights {
        Rights(self.0 | other.0)
    }
}

/// Returns the rights of both sets.
impl BitAnd for Rights {
    type Output = Rights;

    fn bitand(self, other: Rights) -> Rights {
        Rights(self.0 & other.0)
    }
}

/// Returns the rights that the other set lacks.
impl Sub for Rights {
    type Output = Rights;

    fn sub(self, other: Rights) -> Rights {
        Rights(self.0 & !other.0)
    }
}

/// Writes `rwx`, with a `-` for each right that is missing.
impl fmt::Display for Rights {
    fn fmt(&self, out: &mut fmt::Formatter<'_>) -> fmt::Result {
        for (right, letter) in [
            (Rights::READ, "r"),
            (Rights::WRITE, "w"),
            (Rights::EXECUTE, "x"),
        ] {
            out.write_str(if self.contains(right) { letter } else { "-" })?;
        }
        Ok(())
    }
}

impl fmt::Debug for Rights {
    fn fmt(&self, out: &mut fmt::Formatter<'_>) -> fmt::Result {
        write!(out, "Rights({self})")
    }
}

/// The error for an fpage that does not exist.
///
/// A word names no fpage if its size field is 2 to 9 or 33 to 63, or is 1 with a base other than 0. An fpage that you request must have an
/// allowed size, must start at a multiple of its size, and must lie inside a space.
#[derive(Clone, Copy, PartialEq, Eq, Debug)]
pub struct BadFpage;

impl fmt::Display for BadFpage {
    fn fmt(&self, out: &mut fmt::Formatter<'_>) -> fmt::Result {
        out.write_str("there is no such fpage")
    }
}

impl Error for BadFpage {}

/// The size field of the nil fpage.
const NIL_SIZE: u8 = 0;

/// The binary logarithm of the bytes of a space.
const SPACE_SIZE: u8 = 32;

/// A flexpage: no bytes, all bytes of a space, or 2^log bytes that start at a multiple of 2^log, with rights (L4 X.2 manual, Fpages).
///
/// As a receive window, an fpage says where a receiver accepts pages; its rights are ignored there.
///
/// ```
/// use l4::{Fpage, Rights};
/// let shown = format!("{:?}", Fpage::page(16, Rights::ALL)?);
/// assert_eq!(shown, "Fpage(0x000100c7: 4 KiB at 0x10000 rwx)");
/// # Ok::<(), l4::BadFpage>(())
/// ```
#[derive(Clone, Copy, PartialEq, Eq, Hash)]
pub struct Fpage {
    base: u32,
    log: u8,
    rights: Rights,
}

impl Fpage {
    /// The nil fpage, which has no bytes.
    pub const NIL: Fpage = Fpage {
        base: 0,
        log: NIL_SIZE,
        rights: Rights::NONE,
    };

    /// Returns the complete fpage, which has all bytes of a space.
    pub const fn complete(rights: Rights) -> Fpage {
        Fpage {
            base: 0,
            log: SPACE_SIZE,
            rights,
        }
    }

    /// Returns the fpage of 2^log bytes that start at byte `base`.
    ///
    /// # Errors
    ///
    /// [`BadFpage`] if `log` is not 10 to 31, or `base` is not a multiple of 2^log.
    pub fn bytes(base: u32, log: u8, rights: Rights) -> Result<Fpage, BadFpage> {
        let aligned = (10..SPACE_SIZE).contains(&log) && base & ((1 << log) - 1) == 0;
        if aligned {
            Ok(Fpage { base, log, rights })
        } else {
            Err(BadFpage)
        }
    }

    /// Returns the fpage of 2^log pages of 4 KiB that start at page `first`. With a `log` of 20 it has all pages of a space.
    /// [`PageSize::fpage`] does the same for both page sizes.
    ///
    /// # Errors
    ///
    /// [`BadFpage`] if `log` is above 20, or `first` is not a multiple of 2^log or not below 1,048,576.
    pub fn pages(first: u32, log: u8, rights: Rights) -> Result<Fpage, BadFpage> {
        PageSize::Kib4.fpage(first, log, rights)
    }

    /// Returns the fpage of one page of 4 KiB.
    ///
    /// # Errors
    ///
    /// [`BadFpage`] if `page` is not below 1,048,576.
    pub fn page(page: u32, rights: Rights) -> Result<Fpage, BadFpage> {
        Fpage::pages(page, 0, rights)
    }

    /// Returns the fpage that a word names.
    ///
    /// A base that is not a multiple of the size is rounded down, and bit 3 is ignored. A size field of 0 means nil, and one of 32 means
    /// complete, with any base.
    ///
    /// # Errors
    ///
    /// [`BadFpage`] if the word names no fpage.
    ///
    /// # Examples
    ///
    /// ```
    /// use l4::{BadFpage, Fpage, Rights};
    /// assert_eq!(Fpage::read(0x100c7), Fpage::page(16, Rights::ALL));
    /// assert_eq!(Fpage::read(0x1020), Err(BadFpage));
    /// ```
    pub fn read(word: u32) -> Result<Fpage, BadFpage> {
        let base = word & !0x3ff;
        let rights = Rights::of_bits(word);
        match (word >> 4 & 0x3f) as u8 {
            NIL_SIZE => Ok(Fpage::NIL),
            1 if base == 0 => Ok(Fpage::complete(rights)),
            log @ 10..=31 => Ok(Fpage {
                base: base >> log << log,
                log,
                rights,
            }),
            SPACE_SIZE => Ok(Fpage::complete(rights)),
            _ => Err(BadFpage),
        }
    }

    /// Returns the word, which is read as this fpage and no other. The complete fpage is written with a size field of 1.
    pub const fn word(self) -> u32 {
        let size = if self.log == SPACE_SIZE {
            1
        } else {
            self.log as u32
        };
        self.base | size << 4 | self.rights.bits()
    }

    /// Returns the acceptor word whose receive window is this fpage, as [`Ipc`](crate::Ipc) has it. It has no rights.
    ///
    /// ```
    /// use l4::{Fpage, Rights};
    /// assert_eq!(Fpage::complete(Rights::ALL).acceptor(), 0x10);
    /// ```
    pub const fn acceptor(self) -> u32 {
        self.word() >> 4 << 4
    }

    /// Returns the address of the first byte: 0 for the nil fpage.
    pub const fn base(self) -> u32 {
        self.base
    }

    /// Returns the binary logarithm of the number of bytes: 10 to 31, 32 for the complete fpage, and 0 for the nil fpage.
    pub const fn log(self) -> u8 {
        self.log
    }

    /// Returns whether it is the nil fpage.
    pub const fn is_nil(self) -> bool {
        self.log == NIL_SIZE
    }

    /// Returns the rights.
    pub const fn rights(self) -> Rights {
        self.rights
    }

    /// Returns the pages of 4 KiB that lie wholly inside the fpage: none for the nil fpage and for one of 1 or 2 KiB. [`PageSize::range`]
    /// does the same for both page sizes.
    pub const fn page_range(self) -> Range<u32> {
        PageSize::Kib4.range(self)
    }
}

/// Writes `4 KiB at 0x10000 rwx`, `complete rwx` or `nil`.
impl fmt::Display for Fpage {
    fn fmt(&self, out: &mut fmt::Formatter<'_>) -> fmt::Result {
        match self.log {
            NIL_SIZE => out.write_str("nil"),
            SPACE_SIZE => write!(out, "complete {}", self.rights),
            log => {
                let (count, unit) = (
                    1 << (log % 10),
                    ["bytes", "KiB", "MiB", "GiB"][usize::from(log / 10)],
                );
                write!(out, "{count} {unit} at {:#x} {}", self.base, self.rights)
            }
        }
    }
}

impl fmt::Debug for Fpage {
    fn fmt(&self, out: &mut fmt::Formatter<'_>) -> fmt::Result {
        write!(out, "Fpage({:#010x}: {self})", self.word())
    }
}

/// The size of a kernel's pages and frames, which is chosen when the kernel boots.
///
/// ```
/// use l4::{PageSize, Rights};
/// let page = PageSize::Kib1.fpage(16, 0, Rights::ALL)?;
/// assert_eq!((page.word(), PageSize::Kib1.range(page)), (0x40a7, 16..17));
/// // it is too small to be a page of 4 KiB
/// assert!(page.page_range().is_empty());
/// # Ok::<(), l4::BadFpage>(())
/// ```
#[derive(Clone, Copy, PartialEq, Eq, Hash, Debug, Default)]
#[non_exhaustive]
pub enum PageSize {
    /// 4,096 bytes.
    #[default]
    Kib4,
    /// 1,024 bytes.
    Kib1,
}

impl PageSize {
    /// Returns the binary logarithm of the page size in bytes.
    const fn log(self) -> u8 {
        match self {
            PageSize::Kib4 => ffi::L4_PAGE_LOG as u8,
            PageSize::Kib1 => ffi::L4_SMALL_PAGE_LOG as u8,
        }
    }

    /// Returns the page size of this many bytes, as the library reports it.
    pub(crate) fn of_bytes(bytes: u32) -> PageSize {
        match bytes {
            ffi::L4_PAGE_BYTES => PageSize::Kib4,
            ffi::L4_SMALL_PAGE_BYTES => PageSize::Kib1,
            other => unknown("size of pages", other),
        }
    }

    /// Returns the page size in bytes.
    pub const fn bytes(self) -> u32 {
        1 << self.log()
    }

    /// Returns the number of pages of a space. They are numbered from 0.
    pub const fn space_pages(self) -> u32 {
        1 << (SPACE_SIZE - self.log())
    }

    /// Returns the fpage of 2^log pages that start at page `first`. If this is the number of pages of a space, it has all of them.
    ///
    /// # Errors
    ///
    /// [`BadFpage`] if 2^log is more than the pages of a space, or `first` is not a multiple of 2^log or not a page of a space.
    pub fn fpage(self, first: u32, log: u8, rights: Rights) -> Result<Fpage, BadFpage> {
        let all = SPACE_SIZE - self.log();
        if log == all && first == 0 {
            return Ok(Fpage::complete(rights));
        }
        if log >= all || first >= self.space_pages() {
            return Err(BadFpage);
        }
        Fpage::bytes(first * self.bytes(), log + self.log(), rights)
    }

    /// Returns the pages that lie wholly inside the fpage: none for the nil fpage and for one that is smaller than a page.
    pub const fn range(self, fpage: Fpage) -> Range<u32> {
        let first = fpage.base / self.bytes();
        if fpage.log < self.log() {
            return first..first;
        }
        first..first + (1 << (fpage.log - self.log()))
    }
}

/// A map or grant item of a message: the pages of an fpage, which the receiver shares (map) or takes over (grant). The send base says where
/// they land in a larger receive window (L4 X.2 manual, IPC: map item, grant item).
#[derive(Clone, Copy, PartialEq, Eq, Hash)]
pub struct Item {
    is_grant: bool,
    base: u32,
    fpage: Fpage,
}

impl Item {
    /// Returns an item that maps the fpage's pages: sender and receiver share them. The low ten bits of the send base, in bytes, are
    /// ignored.
    pub const fn map(fpage: Fpage, base: u32) -> Item {
        Item {
            is_grant: false,
            base: base & !0x3ff,
            fpage,
        }
    }

    /// Returns an item that grants the fpage's pages: the sender loses them. The low ten bits of the send base, in bytes, are ignored.
    pub const fn grant(fpage: Fpage, base: u32) -> Item {
        Item {
            is_grant: true,
            base: base & !0x3ff,
            fpage,
        }
    }

    /// Returns the item of two words.
    ///
    /// # Errors
    ///
    /// Those of the first item of a message: M4 for a string or CtrlXfer item, and M3 for words that are not an item.
    ///
    /// # Examples
    ///
    /// ```
    /// use l4::{Item, Refusal};
    /// assert_eq!(Item::read(0x20008, 0x100c7)?.to_string(), "map 4 KiB at 0x10000 rwx, send base 0x20000");
    /// assert_eq!(Item::read(0, 0x100c7), Err(Refusal::UnsupportedItem(0)));
    /// # Ok::<(), Refusal>(())
    /// ```
    pub fn read(first: u32, second: u32) -> Result<Item, Refusal> {
        let kind = first >> 1 & 7;
        if kind < 4 || kind == 6 {
            return Err(Refusal::UnsupportedItem(0));
        }
        match (kind, Fpage::read(second)) {
            (4, Ok(fpage)) => Ok(Item::map(fpage, first)),
            (5, Ok(fpage)) => Ok(Item::grant(fpage, first)),
            _ => Err(Refusal::BadItem(0)),
        }
    }

    /// Returns the two words. `more`, their lowest bit, says that another item follows.
    pub const fn words(self, more: bool) -> [u32; 2] {
        let kind = if self.is_grant { 10 } else { 8 };
        [self.base | kind | more as u32, self.fpage.word()]
    }

    /// Returns the fpage, with the rights that the pages get.
    pub const fn fpage(self) -> Fpage {
        self.fpage
    }

    /// Returns the send base in bytes, a multiple of 1,024.
    pub const fn base(self) -> u32 {
        self.base
    }

    /// Returns whether the item grants the pages.
    pub const fn is_grant(self) -> bool {
        self.is_grant
    }
}

/// Writes `map 4 KiB at 0x10000 rwx, send base 0x20000`, or `grant ..`.
impl fmt::Display for Item {
    fn fmt(&self, out: &mut fmt::Formatter<'_>) -> fmt::Result {
        let kind = if self.is_grant { "grant" } else { "map" };
        write!(out, "{kind} {}, send base {:#x}", self.fpage, self.base)
    }
}

impl fmt::Debug for Item {
    fn fmt(&self, out: &mut fmt::Formatter<'_>) -> fmt::Result {
        write!(out, "Item({}: {self})", Hexadecimal(&self.words(false)))
    }
}

/// The tag of a message: a label, the number of untyped words, and the number of words of items, two for each (L4 X.2 manual, MsgTag).
///
/// ```
/// use l4::Tag;
/// let tag = Tag::new(7, 1, 2);
/// assert_eq!((tag.word(), tag.label(), tag.untyped(), tag.typed()), (0x70081, 7, 1, 2));
/// ```
#[derive(Clone, Copy, PartialEq, Eq, Hash)]
pub struct Tag(u32);

impl Tag {
    /// Returns the tag with these parts. Of the numbers of words, only the low six bits are used.
    pub const fn new(label: u16, untyped: usize, typed: usize) -> Tag {
        let counts = (typed as u32 & 0x3f) << 6 | untyped as u32 & 0x3f;
        Tag((label as u32) << 16 | counts)
    }

    /// Returns the tag of a word, which may be a tag that the kernel refuses.
    pub const fn of_word(word: u32) -> Tag {
        Tag(word)
    }

    /// Returns the word.
    pub const fn word(self) -> u32 {
        self.0
    }

    /// Returns the label.
    pub const fn label(self) -> u16 {
        (self.0 >> 16) as u16
    }

    /// Returns the number of untyped words, below 64.
    pub const fn untyped(self) -> usize {
        (self.0 & 0x3f) as usize
    }

    /// Returns the number of words of items, below 64.
    pub const fn typed(self) -> usize {
        (self.0 >> 6 & 0x3f) as usize
    }

    /// Returns the flags, below 16. The kernel refuses a message with flags.
    const fn flags(self) -> u32 {
        self.0 >> 12 & 0xf
    }

    /// Returns whether this is the tag of an Ipc that failed, which has the highest flag.
    pub const fn is_error(self) -> bool {
        self.flags() & 8 != 0
    }
}

impl fmt::Debug for Tag {
    fn fmt(&self, out: &mut fmt::Formatter<'_>) -> fmt::Result {
        write!(out, "Tag({:#010x})", self.0)
    }
}

/// The error for a message of more than 64 words, including the tag.
#[derive(Clone, Copy, PartialEq, Eq, Debug)]
pub struct TooManyWords;

impl fmt::Display for TooManyWords {
    fn fmt(&self, out: &mut fmt::Formatter<'_>) -> fmt::Result {
        write!(out, "more than {MAX_WORDS} words")
    }
}

impl Error for TooManyWords {}

/// The words of a message, the tag first: at most 64 (L4 X.2 manual, IPC: message registers).
///
/// ```
/// let message = l4::Message::of_words(&[0x70081, 5, 0x20008, 0x100c7])?;
/// assert_eq!(message.to_string(), "label 0x0007; 1 untyped; map 4 KiB at 0x10000 rwx, send base 0x20000");
/// # Ok::<(), l4::TooManyWords>(())
/// ```
#[derive(Clone, Copy)]
pub struct Message {
    words: [u32; MAX_WORDS],
    count: usize,
}

impl Message {
    /// A message without words, and so without a tag.
    pub(crate) const EMPTY: Message = Message {
        words: [0; MAX_WORDS],
        count: 0,
    };

    /// Makes a message with a label, untyped words, and items. At most 63 words follow the tag, two of them for each item.
    ///
    /// # Errors
    ///
    /// [`TooManyWords`] for more words.
    ///
    /// # Examples
    ///
    /// ```
    /// use l4::{Fpage, Item, Message, Rights, TooManyWords};
    /// let page = Fpage::page(16, Rights::ALL).unwrap();
    /// let message = Message::new(7, &[5], &[Item::map(page, 0x20000)])?;
    /// assert_eq!(message.words(), [0x70081, 5, 0x20008, 0x100c7]);
    /// assert_eq!(Message::new(7, &[0; 64], &[]), Err(TooManyWords));
    /// # Ok::<(), TooManyWords>(())
    /// ```
    pub fn new(label: u16, untyped: &[u32], items: &[Item]) -> Result<Message, TooManyWords> {
        let after = untyped.len().saturating_add(items.len().saturating_mul(2));
        if after >= MAX_WORDS {
            return Err(TooManyWords);
        }
        let tag = Tag::new(label, untyped.len(), 2 * items.len());
        let typed = items
            .iter()
            .enumerate()
            .flat_map(|(place, item)| item.words(place + 1 < items.len()));
        let mut message = Message::of_words(&[tag.word()])?;
        for word in untyped.iter().copied().chain(typed) {
            message.words[message.count] = word;
            message.count += 1;
        }
        Ok(message)
    }

    /// Makes a message of these words, the tag first. The kernel may refuse it. A message without words has no tag.
    ///
    /// # Errors
    ///
    /// [`TooManyWords`] for more than 64 words.
    pub fn of_words(words: &[u32]) -> Result<Message, TooManyWords> {
        let mut message = Message::EMPTY;
        message
            .words
            .get_mut(..words.len())
            .ok_or(TooManyWords)?
            .copy_from_slice(words);
        message.count = words.len();
        Ok(message)
    }

    /// Returns the words, the tag first.
    pub fn words(&self) -> &[u32] {
        &self.words[..self.count]
    }

    /// Returns the tag, or `None` if the message has no words.
    pub fn tag(&self) -> Option<Tag> {
        self.words().first().copied().map(Tag::of_word)
    }

    /// Returns the label, or 0 if the message has no words.
    ///
    /// ```
    /// use l4::{Fpage, Item, Message, Rights};
    /// let item = Item::map(Fpage::page(16, Rights::ALL)?, 0x20000);
    /// let message = Message::new(7, &[5], &[item])?;
    /// assert_eq!((message.label(), message.untyped()), (7, &[5][..]));
    /// assert_eq!(message.items().collect::<Vec<Item>>(), [item]);
    /// # Ok::<(), Box<dyn std::error::Error>>(())
    /// ```
    pub fn label(&self) -> u16 {
        self.tag().map_or(0, Tag::label)
    }

    /// Returns the untyped words, which come before the items.
    pub fn untyped(&self) -> &[u32] {
        self.parts().0
    }

    /// Returns an iterator over the items.
    pub fn items(&self) -> impl Iterator<Item = Item> + '_ {
        items_in(self.parts().1)
    }

    /// Returns the untyped words, and the words after them.
    fn parts(&self) -> (&[u32], &[u32]) {
        match self.words().split_first() {
            Some((&tag, words)) => parts_of(tag, words),
            None => (&[], &[]),
        }
    }
}

/// Returns the untyped words of a message with this tag, and the words after them.
pub(crate) fn parts_of(tag: u32, words: &[u32]) -> (&[u32], &[u32]) {
    words.split_at(Tag::of_word(tag).untyped().min(words.len()))
}

/// Returns an iterator over the items in the words after the untyped ones.
pub(crate) fn items_in(words: &[u32]) -> impl Iterator<Item = Item> + '_ {
    words
        .chunks_exact(2)
        .filter_map(|pair| Item::read(pair[0], pair[1]).ok())
}

impl PartialEq for Message {
    fn eq(&self, other: &Message) -> bool {
        self.words() == other.words()
    }
}

impl Eq for Message {}

/// Writes a message as text: its label, the number of untyped words, and its items.
pub(crate) fn write_message(out: &mut fmt::Formatter<'_>, tag: u32, words: &[u32]) -> fmt::Result {
    let tag = Tag::of_word(tag);
    let (untyped, typed, flags) = (tag.untyped(), tag.typed(), tag.flags());
    write!(out, "label {:#06x}", tag.label())?;
    if flags != 0 {
        write!(out, "; flags {flags:#x}")?;
    }
    if untyped != 0 {
        write!(out, "; {untyped} untyped")?;
    }
    let items = &words[untyped.min(words.len())..(untyped + typed).min(words.len())];
    for pair in items.chunks_exact(2) {
        match Item::read(pair[0], pair[1]) {
            Ok(item) => write!(out, "; {item}")?,
            Err(_) => write!(out, "; no item in {}", Hexadecimal(pair))?,
        }
    }
    if typed % 2 != 0 {
        write!(out, "; an odd number of words for the items: {typed}")?;
    }
    if words.len() != untyped + typed {
        write!(
            out,
            "; {} words where the tag counts {}",
            words.len(),
            untyped + typed
        )?;
    }
    Ok(())
}

/// Writes `label 0x0007; 1 untyped; map ..`.
impl fmt::Display for Message {
    fn fmt(&self, out: &mut fmt::Formatter<'_>) -> fmt::Result {
        match self.words().split_first() {
            Some((&tag, words)) => write_message(out, tag, words),
            None => out.write_str("no tag"),
        }
    }
}

impl fmt::Debug for Message {
    fn fmt(&self, out: &mut fmt::Formatter<'_>) -> fmt::Result {
        write!(out, "Message({}: {self})", Hexadecimal(self.words()))
    }
}

#[cfg(test)]
mod tests {
    use super::*;
    use crate::SPACE_PAGES;

    #[test]
    fn ids_have_a_number_and_a_version() {
        let id = ThreadId::new(3, 1).unwrap();
        assert_eq!((id.word(), id.number(), id.version()), (0xc001, 3, 1));
        assert_eq!(ThreadId::of_word(0xc001), id);
        assert_eq!((ThreadId::SIGMA0.number(), ThreadId::ROOT.number()), (1, 2));
        for (number, version) in [
            (0, 1),
            (1 << 18, 1),
            (1, 0),
            (1, 0x40),
            (1, 1 << 14),
            ((1 << 18) - 1, (1 << 14) - 1),
        ] {
            assert_eq!(ThreadId::new(number, version), Err(Refusal::BadThreadId));
        }
        assert_eq!(
            ThreadId::new((1 << 18) - 1, 1).map(ThreadId::number),
            Ok((1 << 18) - 1)
        );
    }

    #[test]
    fn some_ids_are_valid() {
        let words = [
            0,
            1,
            0x4000,
            0x4001,
            0x4040,
            0x4041,
            0xffff_fffe,
            0xffff_ffff,
        ];
        assert_eq!(
            words.map(|word| ThreadId::of_word(word).is_valid()),
            [false, false, false, true, false, true, true, false]
        );
    }

    #[test]
    fn tags_have_three_parts() {
        let tag = Tag::new(0xffe2, 2, 62);
        assert_eq!(
            (tag.word(), tag.label(), tag.untyped(), tag.typed()),
            (0xffe2_0f82, 0xffe2, 2, 62)
        );
        assert_eq!(Tag::of_word(0xffe2_0f82), tag);
        assert_eq!(format!("{tag:?}"), "Tag(0xffe20f82)");
        assert_eq!(Tag::new(0, 64, 65), Tag::of_word(0x40));
        assert_eq!(
            [0x8000, 0x7fff, 0xffff_0000].map(|word| Tag::of_word(word).is_error()),
            [true, false, false]
        );
        assert_eq!(
            Message::new(7, &[5], &[]).unwrap().tag(),
            Some(Tag::new(7, 1, 0))
        );
        assert_eq!(Message::EMPTY.tag(), None);
    }

    #[test]
    fn fpages_have_a_base_and_a_log() {
        let page = Fpage::page(16, Rights::ALL).unwrap();
        let complete = Fpage::complete(Rights::ALL);
        assert_eq!(
            [Fpage::NIL, page, complete].map(|fpage| (fpage.base(), fpage.log(), fpage.acceptor())),
            [(0, 0, 0), (0x10000, 12, 0x100c0), (0, 32, 0x10)]
        );
    }

    #[test]
    fn rights_are_sets() {
        assert_eq!(Rights::READ | Rights::WRITE | Rights::EXECUTE, Rights::ALL);
        assert_eq!(Rights::ALL & Rights::WRITE, Rights::WRITE);
        assert_eq!((Rights::ALL - Rights::WRITE).bits(), 5);
        assert_eq!(Rights::of_bits(0xf5).to_string(), "r-x");
        assert!(Rights::NONE.is_empty() && !Rights::READ.is_empty());
    }

    #[test]
    fn each_size_field_is_read_as_the_kernel_reads_it() {
        for log in 0..64u32 {
            let fpage = Fpage::read(0x8000_0000 | log << 4 | 5);
            match log {
                0 => assert_eq!(fpage, Ok(Fpage::NIL)),
                10..=31 => assert_eq!(fpage.map(Fpage::word), Ok(0x8000_0000 | log << 4 | 5)),
                32 => assert_eq!(fpage, Ok(Fpage::complete(Rights::of_bits(5)))),
                _ => assert_eq!(fpage, Err(BadFpage)),
            }
        }
        assert_eq!(Fpage::read(0x17), Ok(Fpage::complete(Rights::ALL)));
        assert_eq!(Fpage::read(0xfff_fccf).map(Fpage::word), Ok(0xfff_f0c7));
    }

    #[test]
    fn fpages_know_their_pages() {
        assert_eq!(Fpage::pages(8, 2, Rights::ALL).unwrap().page_range(), 8..12);
        assert_eq!(Fpage::complete(Rights::ALL).page_range(), 0..SPACE_PAGES);
        assert_eq!(
            Fpage::pages(0, 20, Rights::READ),
            Ok(Fpage::complete(Rights::READ))
        );
        assert!(
            Fpage::NIL.page_range().is_empty()
                && Fpage::bytes(0x1400, 10, Rights::ALL)
                    .unwrap()
                    .page_range()
                    .is_empty()
        );
        for (first, log) in [(2, 2), (0, 21), (SPACE_PAGES, 0), (1, 20), (u32::MAX, 0)] {
            assert_eq!(Fpage::pages(first, log, Rights::ALL), Err(BadFpage));
        }
        for (base, log) in [(0, 9), (0, 32), (0x400, 11), (0, 255)] {
            assert_eq!(Fpage::bytes(base, log, Rights::ALL), Err(BadFpage));
        }
        assert_eq!(
            Fpage::bytes(0x8000_0000, 31, Rights::NONE)
                .unwrap()
                .page_range()
                .end,
            SPACE_PAGES
        );
    }

    #[test]
    fn small_pages_are_quarters() {
        let (large, small) = (PageSize::Kib4, PageSize::Kib1);
        assert_eq!((large.bytes(), large.space_pages()), (4096, SPACE_PAGES));
        assert_eq!((small.bytes(), small.space_pages()), (1024, 4_194_304));
        assert_eq!(PageSize::default(), large);
        let fpage = Fpage::page(5, Rights::ALL).unwrap();
        assert_eq!((large.range(fpage), small.range(fpage)), (5..6, 20..24));
        assert_eq!(small.fpage(20, 2, Rights::ALL), Ok(fpage));
        assert_eq!(small.range(Fpage::complete(Rights::ALL)), 0..4_194_304);
        assert_eq!(
            small.fpage(0, 22, Rights::READ),
            Ok(Fpage::complete(Rights::READ))
        );
        assert!(small.range(Fpage::NIL).is_empty());
        assert_eq!(
            small.fpage(4_194_303, 0, Rights::ALL).map(Fpage::word),
            Ok(0xffff_fca7)
        );
        for (first, log) in [(2, 2), (0, 23), (4_194_304, 0), (1, 22), (u32::MAX, 0)] {
            assert_eq!(small.fpage(first, log, Rights::ALL), Err(BadFpage));
        }
    }

    #[test]
    fn items_are_read_as_they_are_written() {
        let fpage = Fpage::page(5, Rights::ALL).unwrap();
        for item in [
            Item::map(fpage, 0x9400),
            Item::grant(fpage, 0),
            Item::map(Fpage::NIL, 0),
        ] {
            for more in [false, true] {
                let [first, second] = item.words(more);
                assert_eq!(first & 1, u32::from(more));
                assert_eq!(Item::read(first, second), Ok(item));
            }
        }
        assert_eq!(Item::map(fpage, 0x7ff).base(), 0x400);
        for (first, second, refusal) in [
            (0, 0x50c7, Refusal::UnsupportedItem(0)),
            (6, 0x1020, Refusal::UnsupportedItem(0)),
            (12, 0x50c7, Refusal::UnsupportedItem(0)),
            (14, 0x50c7, Refusal::BadItem(0)),
            (8, 0x1020, Refusal::BadItem(0)),
        ] {
            assert_eq!(Item::read(first, second), Err(refusal));
        }
    }

    #[test]
    fn messages_have_at_most_64_words() {
        let item = Item::grant(Fpage::page(5, Rights::READ).unwrap(), 0x3000);
        let message = Message::new(1, &[9], &[item; 31]).unwrap();
        assert_eq!(message.words().len(), MAX_WORDS);
        assert_eq!(message.words()[..4], [0x10f81, 9, 0x300b, 0x50c4]);
        assert_eq!(message.words()[62..], [0x300a, 0x50c4]);
        assert_eq!(Message::new(1, &[9, 9], &[item; 31]), Err(TooManyWords));
        assert_eq!(Message::of_words(&[1; 64]).unwrap().words(), [1; 64]);
        assert_eq!(Message::of_words(&[1; 65]), Err(TooManyWords));
        assert!(Message::of_words(&[]).unwrap().words().is_empty());
    }

    #[test]
    fn words_are_shown_in_words() {
        for (id, text) in [
            (ThreadId::NIL, "nil"),
            (ThreadId::ANY, "any"),
            (ThreadId::ROOT, "thread 2"),
            (ThreadId(0xc002), "thread 3 version 2"),
        ] {
            assert_eq!(id.to_string(), text);
        }
        assert_eq!(
            format!("{:?}", ThreadId::ROOT),
            "ThreadId(0x00008001: thread 2)"
        );
        for (word, text) in [
            (0, "nil"),
            (0x17, "complete rwx"),
            (0x14a4, "1 KiB at 0x1400 r--"),
            (0x8000_01f0, "2 GiB at 0x80000000 ---"),
        ] {
            assert_eq!(Fpage::read(word).unwrap().to_string(), text);
        }
        for (words, text) in [
            (&[][..], "no tag"),
            (
                &[0x1002],
                "label 0x0000; flags 0x1; 2 untyped; 0 words where the tag counts 2",
            ),
            (
                &[0x80, 14, 0],
                "label 0x0000; no item in 0x0000000e 0x00000000",
            ),
            (
                &[0x40, 8],
                "label 0x0000; an odd number of words for the items: 1",
            ),
        ] {
            assert_eq!(Message::of_words(words).unwrap().to_string(), text);
        }
        let message = Message::of_words(&[0x80, 0x2000a, 0x100c7]).unwrap();
        let text = "Message(0x00000080 0x0002000a 0x000100c7: label 0x0000; grant 4 KiB at 0x10000 rwx, send base 0x20000)";
        assert_eq!(format!("{message:?}"), text);
    }
}
