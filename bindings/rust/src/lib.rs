//! An L4 X.2 kernel core in user space, whose every answer is proved.
//!
//! Your program makes calls for many threads and executes steps; the kernel returns replies, mappings and refusals, by the rules of the
//! L4 eXperimental Kernel Reference Manual, Version X.2 (32-bit, no string items). This crate calls the static library `libl4.a`.
//!
//! A [`Kernel`] boots with two threads. sigma0 is thread 1 in space 0, where frame i is mapped at page i with all rights. root is thread 2
//! in space 1, which is empty; root may create threads. A thread starts a [`Call`]. A call that must wait ends in a later [`Step`], and its
//! result is a [`Reply`].
//!
//! ```
//! use l4::{Call, Fpage, Item, Kernel, Message, Rights, ThreadId, Timeout, PAGE_BYTES};
//!
//! let mut kernel = Kernel::boot(256)?;
//! // root receives a message from any thread, and accepts pages everywhere
//! kernel.start(2, &Call::receive(ThreadId::ANY, Fpage::complete(Rights::NONE), Timeout::Never))?;
//! // sigma0 maps its page 16 to page 32
//! let page = Fpage::page(16, Rights::ALL)?;
//! let message = Message::new(0, &[], &[Item::map(page, 32 * PAGE_BYTES)])?;
//! let entered = kernel.enter(1, &Call::send(ThreadId::ROOT, &message, Timeout::Never))?;
//! assert_eq!(entered.steps[0].ended, [1, 2]);
//! let space = kernel.space_of(2).expect("root is there");
//! let mapping = kernel.mapping(space, 32).expect("the page is present");
//! assert_eq!((mapping.frame, mapping.rights), (16, Rights::ALL));
//! # Ok::<(), Box<dyn std::error::Error>>(())
//! ```
//!
//! # Numbers
//!
//! A caller is named by its thread number (`u32`), and a partner by its [`ThreadId`], as in the kernel's own words. A page has
//! [`PAGE_BYTES`] bytes. The pages of a space are numbered from 0 to [`SPACE_PAGES`] - 1; a parameter that is a page number accepts every
//! `u32`, and a page beyond the space is never present. A space has a number (`u64`) that is never used again.
//!
//! # Page sizes
//!
//! A function whose name ends in `_sized` does the same as the function without that ending, for pages of a given [`PageSize`] in place of
//! 4 KiB. With [`PageSize::Kib1`], the pages of a space are numbered from 0 to 4,194,303. A [`Kernel`], a [`Pager`] and a [`Sigma0`] keep
//! the size with which they were made. Make the tables and plans for a kernel with its [`page_size`](Kernel::page_size). Message words are
//! in bytes, so their form is the same in both sizes. [`PageSize::fpage`] and [`PageSize::range`] convert between pages and bytes.
//!
//! # Ownership and threads
//!
//! Safe code cannot break the conditions of the C header: no freed handle, no null pointer, no two calls on one kernel at the same time. A
//! [`Kernel`] frees its memory when it is dropped. It is [`Send`] but not [`Sync`]. Threads share a [`SharedKernel`], which is both. All
//! `unsafe` code is in one private module.
//!
//! ```compile_fail
//! fn shared<T: Sync>() {}
//! shared::<l4::Kernel>();
//! ```
//!
//! The library uses the program's `malloc`, `realloc` and `free`. Running out of memory is an ordinary error ([`Refusal::NoMemory`]): the
//! kernel stays valid.
//!
//! # Later versions
//!
//! [`Refusal`], [`Reply`], [`Outcome`], [`Step`], [`Recorded`], [`ThreadState`], [`Timeout`], [`PageSize`], [`Verdict`], [`NoPlan`],
//! [`SearchEnd`] and [`CheckpointFault`] may get more variants in a later version. They are marked `#[non_exhaustive]`, so a `match` on one of them needs an arm `_` in another crate.
#![warn(missing_docs)]
#![deny(unsafe_code)]
#![warn(clippy::undocumented_unsafe_blocks)]

// `cargo doc` sets `doc`, needs no archive, and links nothing.
#[cfg(all(l4_missing, not(doc)))]
compile_error!(env!("L4_MISSING"));

/// For an enum that may grow: in another crate, a match of all variants compiles with an arm for others, and does not without one.
#[cfg(doctest)]
macro_rules! grows {
    ($name:ident: $($variant:ident)*) => {
        #[doc = grows!(@example "```" $name "_ => {}" $($variant)*)]
        #[doc = grows!(@example "```compile_fail" $name "" $($variant)*)]
        struct $name;
    };
    (@example $fence:literal $name:ident $last:literal $($variant:ident)*) => {
        concat!(
            $fence, "\nfn known(it: l4::", stringify!($name), ") { match it { ",
            $("l4::", stringify!($name), "::", stringify!($variant), " { .. } => {} ",)*
            $last, " } }\n```"
        )
    };
}

mod calls;
mod checkpoints;
mod ffi;
mod kernel;
mod outcomes;
mod plans;
mod protocols;
mod queries;
mod refusals;
mod replies;
mod shared;
mod tables;
mod words;

pub use calls::{Call, FpageCount, Ipc, Timeout};
pub use checkpoints::{BadCheckpoint, CheckpointFault};
pub use kernel::{
    Answer, Change, Done, Entered, Kernel, Mapping, Mappings, Outcome, Place, Step, Verdict,
};
pub use outcomes::{orders, orders_sized, BadPlan, Orders, PlanOutcome, SearchEnd};
pub use plans::{NoPlan, Plan, Region};
pub use protocols::{FrameRequest, PageFault};
pub use queries::{Thread, ThreadState, Wait};
pub use refusals::Refusal;
pub use replies::{ErrorCode, Received, Reply};
pub use shared::{Entry, Link, Receipt, Recorded, Seat, Segment, SharedKernel, Unclosed};
pub use tables::{Pager, Sigma0};
pub use words::{BadFpage, Fpage, Item, Message, PageSize, Rights, Tag, ThreadId, TooManyWords};

/// Returns the version of the library `libl4.a`: its major, minor and patch numbers.
///
/// ```
/// assert_eq!(l4::library_version(), (0, 1, 0));
/// ```
pub fn library_version() -> (u32, u32, u32) {
    let version = ffi::version();
    (
        version / 1_000_000,
        version / 1_000 % 1_000,
        version % 1_000,
    )
}

/// The size in bytes of a page of 4 KiB.
pub const PAGE_BYTES: u32 = ffi::L4_PAGE_BYTES;

/// The number of pages of 4 KiB of a space, which are numbered from 0 to `SPACE_PAGES - 1`.
pub const SPACE_PAGES: u32 = ffi::L4_SPACE_PAGES;

/// The largest number of frames of a machine.
pub const MAX_FRAMES: u32 = ffi::L4_MAX_FRAMES;

/// The largest number of threads of a kernel.
pub const MAX_THREADS: usize = ffi::L4_MAX_THREADS as usize;

/// The largest number of regions of a pager's table.
pub const MAX_REGIONS: usize = ffi::L4_MAX_REGIONS as usize;

/// The largest number of words of a message, including the tag, and of fpages of an Unmap.
pub const MAX_WORDS: usize = ffi::L4_MAX_WORDS as usize;

/// The largest number of map and grant items of a message.
pub const MAX_ITEMS: usize = ffi::L4_MAX_ITEMS as usize;

/// The largest number of items of a plan.
pub const MAX_PLAN_ITEMS: usize = ffi::L4_MAX_PLAN_ITEMS as usize;

/// The largest number of messages of a plan.
pub const MAX_PLAN_MESSAGES: usize = ffi::L4_MAX_PLAN_MESSAGES as usize;

/// The number of pages that prove that a region needs more items than a plan can have.
pub const TOO_MANY: usize = ffi::L4_TOO_MANY as usize;

#[cfg(doctest)]
mod growth {
    grows!(Reply: Ipc Hit Answered Failed Unmapped Controlled Gone);
    grows!(Outcome: Started Delivered NoWindow Entangled WantsMemory Expired WaitEnded);
    grows!(Step: Transfer Expire);
    grows!(Recorded: Start Next Timeout Cancel);
    grows!(Verdict: Agrees Differs NotEnabled);
    grows!(NoPlan: Refused TooLong);
    grows!(ThreadState: New Running Sending Receiving);
    grows!(Timeout: Never Zero);
    grows!(PageSize: Kib4 Kib1);
    grows!(SearchEnd: AllOrders MostStates Memory History);
    grows!(CheckpointFault: Magic Version Frames PageSize Entries Cut Checksum Extra State);
}
