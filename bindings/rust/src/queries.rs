//! Queries about the state of a kernel, which a shared kernel answers too.
use crate::ffi::{self, Asked};
use crate::refusals::unknown;
use crate::{Mapping, PageSize, Place, Refusal, Reply, Rights, ThreadId};
use std::iter;

/// What a thread waits for.
#[derive(Clone, Copy, PartialEq, Eq, Hash, Debug)]
pub struct Wait {
    /// The partner, or [`ThreadId::ANY`] if the thread accepts a message from any thread.
    pub partner: ThreadId,
    /// Whether the wait has a timeout of zero.
    pub expires: bool,
    /// Whether the wait belongs to a page fault.
    pub fault: bool,
}

/// What a thread is doing.
#[derive(Clone, Copy, PartialEq, Eq, Hash, Debug)]
#[non_exhaustive]
pub enum ThreadState {
    /// It runs, and has made no call yet.
    New,
    /// It runs, and its last call has ended: [`Kernel::reply`](crate::Kernel::reply) returns the reply.
    Running,
    /// It waits until its partner receives its message.
    Sending(Wait),
    /// It waits for a message from its partner.
    Receiving(Wait),
}

/// A thread: its id, which has its version, its space, its pager, and what it is doing.
#[derive(Clone, Copy, PartialEq, Eq, Hash, Debug)]
pub struct Thread {
    /// The thread id.
    pub id: ThreadId,
    /// The number of its space.
    pub space: u64,
    /// The thread id of its pager, or [`ThreadId::NIL`].
    pub pager: ThreadId,
    /// What it is doing.
    pub state: ThreadState,
}

impl Thread {
    /// Returns the thread that the library reports, or `None` if it does not exist.
    fn of(told: &ffi::l4_state) -> Option<Thread> {
        let wait = Wait {
            partner: ThreadId::of_word(told.partner),
            expires: told.expires != 0,
            fault: told.fault != 0,
        };
        let state = match told.state {
            ffi::L4_STATE_ABSENT => return None,
            ffi::L4_STATE_NEW => ThreadState::New,
            ffi::L4_STATE_RUNNING => ThreadState::Running,
            ffi::L4_STATE_SENDING => ThreadState::Sending(wait),
            ffi::L4_STATE_RECEIVING => ThreadState::Receiving(wait),
            number => unknown("thread state", number),
        };
        Some(Thread {
            id: ThreadId::of_word(told.id),
            space: told.space,
            pager: ThreadId::of_word(told.pager),
            state,
        })
    }

    /// Returns whether the thread waits for a partner.
    pub fn waits(&self) -> bool {
        matches!(
            self.state,
            ThreadState::Sending(_) | ThreadState::Receiving(_)
        )
    }
}

pub(crate) fn thread(asked: &impl Asked, number: u32) -> Option<Thread> {
    Thread::of(&asked.state_of(number))
}

pub(crate) fn reply(asked: &impl Asked, thread: u32) -> Option<Reply> {
    Reply::of(&asked.reply_of(thread))
}

pub(crate) fn threads(asked: &impl Asked) -> Vec<u32> {
    let next = |from| {
        let told = asked.next_thread(from);
        (told.there != 0).then_some(told.thread)
    };
    iter::successors(next(0), |thread| next(thread + 1)).collect()
}

pub(crate) fn threads_in(asked: &impl Asked, space: u64) -> Vec<u32> {
    let mut threads = threads(asked);
    threads.retain(|&thread| space_of(asked, thread) == Some(space));
    threads
}

pub(crate) fn spaces(asked: &impl Asked) -> Vec<u64> {
    let next = |from| {
        let told = asked.next_space(from);
        (told.there != 0).then_some(told.space)
    };
    iter::successors(next(0), |space| next(space + 1)).collect()
}

pub(crate) fn space_of(asked: &impl Asked, thread: u32) -> Option<u64> {
    let told = asked.space_of(thread);
    (told.there != 0).then_some(told.space)
}

pub(crate) fn page_size(asked: &impl Asked) -> PageSize {
    PageSize::of_bytes(asked.page_size().page_bytes)
}

pub(crate) fn mapping(asked: &impl Asked, space: u64, page: u32) -> Option<Mapping> {
    let told = asked.mapping_of(space, page);
    let parent = Place {
        space: told.parent_space,
        page: told.parent_page,
    };
    (told.there != 0).then_some(Mapping {
        place: Place { space, page },
        frame: told.frame,
        rights: Rights::of_bits(told.rights),
        parent: (told.has_parent != 0).then_some(parent),
    })
}

pub(crate) fn next_page(asked: &impl Asked, space: u64, page: u32) -> Option<u32> {
    let told = asked.next_page(space, page);
    (told.there != 0).then_some(told.page)
}

pub(crate) fn mappings(asked: &impl Asked, space: u64) -> Vec<Mapping> {
    let mapped = |told: &ffi::l4_mapped| Mapping {
        place: Place {
            space,
            page: told.page,
        },
        frame: told.frame,
        rights: Rights::of_bits(told.rights),
        parent: (told.has_parent != 0).then_some(Place {
            space: told.parent_space,
            page: told.parent_page,
        }),
    };
    asked.mappings(space, 0).iter().map(mapped).collect()
}

pub(crate) fn descendants(
    asked: &impl Asked,
    space: u64,
    page: u32,
) -> Result<Vec<Place>, Refusal> {
    let (told, places) = asked.descendants(space, page);
    if told.refusal != ffi::L4_OK {
        return Err(Refusal::of(told.refusal, 0));
    }
    let found = places.iter().map(|place| Place {
        space: place.space,
        page: place.page,
    });
    Ok(found.collect())
}
