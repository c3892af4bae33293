//! Kernels, their steps, and queries about their state.
use crate::ffi;
use crate::refusals::unknown;
use crate::{queries, BadCheckpoint, Call, PageSize, Refusal, Reply, Rights, Thread, MAX_THREADS};
use std::collections::BTreeMap;
use std::marker::PhantomData;
use std::{fmt, iter, vec};

/// A step that does not start a call.
#[derive(Clone, Copy, PartialEq, Eq, Hash, Debug)]
#[non_exhaustive]
pub enum Step {
    /// Delivers the sender's message to the receiver.
    Transfer {
        /// The thread number of the sender.
        sender: u32,
        /// The thread number of the receiver.
        receiver: u32,
    },
    /// Ends the thread's wait with a timeout of zero.
    Expire {
        /// The thread number.
        thread: u32,
    },
}

impl Step {
    /// Returns the step that the library reports, or `None` if there is none.
    fn of(told: &ffi::l4_step) -> Option<Step> {
        Step::named(told.kind, told.thread, told.receiver)
    }

    /// Returns the step of this kind and of these threads, or `None` if there is none.
    pub(crate) fn named(kind: u32, thread: u32, receiver: u32) -> Option<Step> {
        match kind {
            ffi::L4_NONE => None,
            ffi::L4_TRANSFER => Some(Step::Transfer {
                sender: thread,
                receiver,
            }),
            ffi::L4_EXPIRE => Some(Step::Expire { thread }),
            kind => unknown("step", kind),
        }
    }

    /// Returns the step as the library has it, before it is executed.
    fn given(&self) -> ffi::l4_step {
        let (kind, thread, receiver) = match *self {
            Step::Transfer { sender, receiver } => (ffi::L4_TRANSFER, sender, receiver),
            Step::Expire { thread } => (ffi::L4_EXPIRE, thread, 0),
        };
        ffi::l4_step {
            kind,
            thread,
            receiver,
            ..ffi::NO_STEP
        }
    }

    /// Returns the line of a step list that has this step, without its newline.
    ///
    /// ```
    /// assert_eq!(l4::Step::Transfer { sender: 1, receiver: 3 }.line(), "transfer 1 3");
    /// ```
    pub fn line(&self) -> String {
        ffi::step_text(&self.given())
    }
}

/// What a step did.
#[derive(Clone, Copy, PartialEq, Eq, Hash, Debug)]
#[non_exhaustive]
pub enum Outcome {
    /// A call was started.
    Started,
    /// A transfer: the message was delivered, and its map and grant items were executed.
    Delivered,
    /// A transfer: the message has items and the receiver's window is nil; both calls failed.
    NoWindow,
    /// A transfer: the message's items conflict; both calls failed.
    Entangled,
    /// A transfer: an allocation failed; both calls failed, and no page moved.
    WantsMemory,
    /// A wait with a timeout of zero expired.
    Expired,
    /// [`Kernel::timeout`] or [`Kernel::cancel`] ended a wait.
    WaitEnded,
}

impl Outcome {
    pub(crate) fn of(number: u32) -> Outcome {
        match number {
            ffi::L4_STARTED => Outcome::Started,
            ffi::L4_DELIVERED => Outcome::Delivered,
            ffi::L4_NO_WINDOW => Outcome::NoWindow,
            ffi::L4_ENTANGLED => Outcome::Entangled,
            ffi::L4_WANTS_MEMORY => Outcome::WantsMemory,
            ffi::L4_EXPIRED => Outcome::Expired,
            ffi::L4_WAIT_ENDED => Outcome::WaitEnded,
            number => unknown("outcome", number),
        }
    }

    /// Returns the number of the outcome, as the library has it.
    fn number(self) -> u32 {
        match self {
            Outcome::Started => ffi::L4_STARTED,
            Outcome::Delivered => ffi::L4_DELIVERED,
            Outcome::NoWindow => ffi::L4_NO_WINDOW,
            Outcome::Entangled => ffi::L4_ENTANGLED,
            Outcome::WantsMemory => ffi::L4_WANTS_MEMORY,
            Outcome::Expired => ffi::L4_EXPIRED,
            Outcome::WaitEnded => ffi::L4_WAIT_ENDED,
        }
    }
}

/// The outcome of a step, and the threads whose calls ended in it.
#[derive(Clone, PartialEq, Eq, Debug)]
pub struct Answer {
    /// What the step did.
    pub outcome: Outcome,
    /// The numbers of the threads whose calls ended: after a transfer, the sender and then the receiver; after a Delete, the caller and
    /// then the others by rising number.
    pub ended: Vec<u32>,
}

impl Answer {
    fn of(told: &ffi::l4_answer) -> Result<Answer, Refusal> {
        match told.refusal {
            ffi::L4_OK => Ok(Answer {
                outcome: Outcome::of(told.outcome),
                ended: told.ended[..told.ended_count as usize].to_vec(),
            }),
            number => Err(Refusal::of(number, told.detail)),
        }
    }
}

/// An executed step, its outcome, and the threads whose calls ended in it: the sender before the receiver.
#[derive(Clone, PartialEq, Eq, Debug)]
pub struct Done {
    /// The step.
    pub step: Step,
    /// What the step did.
    pub outcome: Outcome,
    /// The numbers of the threads whose calls ended.
    pub ended: Vec<u32>,
}

impl Done {
    fn of(told: &ffi::l4_step) -> Option<Done> {
        Some(Done {
            step: Step::of(told)?,
            outcome: Outcome::of(told.outcome),
            ended: told.ended[..told.ended_count as usize].to_vec(),
        })
    }

    /// Returns the line that `l4 run` prints for this step, without its newline.
    ///
    /// ```
    /// use l4::{Call, Fpage, Kernel, Message, ThreadId, Timeout};
    /// let mut kernel = Kernel::boot(1)?;
    /// kernel.enter(2, &Call::receive(ThreadId::ANY, Fpage::NIL, Timeout::Never))?;
    /// let entered = kernel.enter(1, &Call::send(ThreadId::ROOT, &Message::new(0, &[], &[])?, Timeout::Never))?;
    /// assert_eq!(entered.steps[0].line(), "transfer 1 2 done");
    /// # Ok::<(), Box<dyn std::error::Error>>(())
    /// ```
    pub fn line(&self) -> String {
        let mut given = self.step.given();
        given.outcome = self.outcome.number();
        ffi::step_text(&given)
    }
}

/// A call that was started, and the steps that followed it.
#[derive(Clone, PartialEq, Eq, Debug)]
pub struct Entered {
    /// The outcome of the start.
    pub start: Answer,
    /// The steps, in order; at most 64.
    pub steps: Vec<Done>,
}

/// What [`Kernel::judge`] found about another kernel's answer.
#[derive(Clone, PartialEq, Eq, Debug)]
#[non_exhaustive]
pub enum Verdict {
    /// The answer has all lines of this kernel's, except those for which it has `?`.
    Agrees,
    /// A line differs.
    Differs {
        /// The number of the first line that differs, from 0. If the answer has too few lines, the number of its lines.
        place: u64,
        /// This kernel's line at that place, or `None` if its answer has no further line.
        expected: Option<String>,
    },
    /// This kernel refuses the step with K1, and the other kernel answered otherwise.
    NotEnabled {
        /// The step that is enabled, or `None` if no step is.
        enabled: Option<Step>,
    },
}

impl Verdict {
    fn of(told: &ffi::l4_judgement, expected: String) -> Result<Verdict, Refusal> {
        if told.refusal != ffi::L4_OK {
            return Err(Refusal::of(told.refusal, 0));
        }
        Ok(match told.verdict {
            ffi::L4_AGREES => Verdict::Agrees,
            ffi::L4_DIFFERS => Verdict::Differs {
                place: told.place,
                expected: (told.length != 0).then_some(expected),
            },
            ffi::L4_NOT_ENABLED => Verdict::NotEnabled {
                enabled: Step::of(&told.enabled),
            },
            number => unknown("verdict", number),
        })
    }
}

/// A page of a space.
#[derive(Clone, Copy, PartialEq, Eq, PartialOrd, Ord, Hash, Debug)]
pub struct Place {
    /// The number of the space.
    pub space: u64,
    /// The number of the page, below 1,048,576, or 4,194,304 where pages have 1,024 bytes.
    pub page: u32,
}

/// The frame and the rights of a present page, and its parent.
#[derive(Clone, Copy, PartialEq, Eq, Hash, Debug)]
pub struct Mapping {
    /// The page.
    pub place: Place,
    /// The number of the frame, below the machine's number of frames.
    pub frame: u32,
    /// The rights of the page.
    pub rights: Rights,
    /// The page from which this page was mapped; a granted page keeps the parent that it had before the grant. `None` for sigma0's boot
    /// pages, also after a grant of them.
    pub parent: Option<Place>,
}

/// A page whose mapping is another one in two kernels, from [`Kernel::changes_since`].
#[derive(Clone, Copy, PartialEq, Eq, Hash, Debug)]
pub struct Change {
    /// The page.
    pub place: Place,
    /// Its mapping in the kernel that was passed, or `None` if it is not present there.
    pub before: Option<Mapping>,
    /// Its mapping in the kernel that was asked, or `None` if it is not present there.
    pub after: Option<Mapping>,
}

/// A kernel with its threads, spaces and mappings.
///
/// It owns its memory, and frees it when it is dropped. It is [`Send`] but not [`Sync`]: one thread at a time uses it. Threads that share a
/// kernel use a [`SharedKernel`](crate::SharedKernel). The methods name threads by their numbers. A refused step changes nothing.
pub struct Kernel {
    handle: ffi::Handle<ffi::l4_kernel>,
    frames: u32,
}

impl Kernel {
    /// Boots a kernel with 1 to 4,096 frames, and with pages of 4 KiB.
    ///
    /// sigma0 is thread 1 in space 0, where frame i is mapped at page i with all rights. root is thread 2 in space 1, which is empty.
    ///
    /// # Errors
    ///
    /// In this order: K6, NoMemory.
    pub fn boot(frames: u32) -> Result<Kernel, Refusal> {
        Kernel::boot_sized(frames, PageSize::Kib4)
    }

    /// Boots a kernel as [`boot`](Kernel::boot) does, with pages and frames of this size. The errors are the same.
    ///
    /// ```
    /// use l4::{Call, Fpage, Item, Kernel, Message, PageSize, Rights, ThreadId, Timeout};
    /// let mut kernel = Kernel::boot_sized(256, PageSize::Kib1)?;
    /// kernel.start(2, &Call::receive(ThreadId::ANY, Fpage::complete(Rights::NONE), Timeout::Never))?;
    /// // 4 KiB are four of its pages
    /// let fpage = Fpage::bytes(0x10000, 12, Rights::ALL)?;
    /// let message = Message::new(0, &[], &[Item::map(fpage, 0x20000)])?;
    /// kernel.enter(1, &Call::send(ThreadId::ROOT, &message, Timeout::Never))?;
    /// let frames: Vec<_> = kernel.mappings(1).map(|mapping| (mapping.place.page, mapping.frame)).collect();
    /// assert_eq!(frames, [(128, 64), (129, 65), (130, 66), (131, 67)]);
    /// # Ok::<(), Box<dyn std::error::Error>>(())
    /// ```
    pub fn boot_sized(frames: u32, page_size: PageSize) -> Result<Kernel, Refusal> {
        match ffi::Handle::boot(frames, page_size.bytes()) {
            Ok(handle) => Ok(Kernel { handle, frames }),
            Err(number) => Err(Refusal::of(number, 0)),
        }
    }

    /// Returns a copy of the kernel, in memory of its own.
    ///
    /// The copy has each thread with what it is doing and its message registers, the queue of senders, every space, and every mapping.
    /// Changes to one kernel are not visible in the other, so you can try two continuations of one run.
    ///
    /// # Errors
    ///
    /// NoMemory.
    ///
    /// # Examples
    ///
    /// ```
    /// use l4::{Call, Fpage, Kernel, Message, ThreadId, Timeout};
    /// let mut kernel = Kernel::boot(1)?;
    /// let message = Message::new(0, &[5], &[])?;
    /// kernel.start(1, &Call::send(ThreadId::ROOT, &message, Timeout::Zero))?;
    /// let mut copy = kernel.copy()?;
    /// kernel.enter(2, &Call::receive(ThreadId::ANY, Fpage::NIL, Timeout::Never))?;
    /// copy.expire(1)?;
    /// assert!(kernel.reply(2).is_some() && copy.reply(2).is_none());
    /// # Ok::<(), Box<dyn std::error::Error>>(())
    /// ```
    pub fn copy(&self) -> Result<Kernel, Refusal> {
        match self.handle.copy() {
            Ok(handle) => Ok(Kernel::of(handle, self.frames)),
            Err(number) => Err(Refusal::of(number, 0)),
        }
    }

    /// Returns the kernel that owns this handle, and that was booted with this number of frames.
    pub(crate) fn of(handle: ffi::Handle<ffi::l4_kernel>, frames: u32) -> Kernel {
        Kernel { handle, frames }
    }

    /// Returns the state of the kernel as bytes. You keep them as a file, to continue a run later or to share a fault.
    ///
    /// `entries` is the number of steps in its history since boot, or 0 if you keep none.
    ///
    /// # Errors
    ///
    /// In this order: B7 if `entries` exceeds 2^63; NoMemory.
    ///
    /// # Examples
    ///
    /// ```
    /// use l4::{Call, Fpage, Kernel, Message, Step, ThreadId, Timeout};
    /// let mut kernel = Kernel::boot(1)?;
    /// kernel.start(1, &Call::send(ThreadId::ROOT, &Message::new(0, &[5], &[])?, Timeout::Never))?;
    /// let (mut again, entries) = Kernel::from_checkpoint(&kernel.checkpoint(1)?)?;
    /// let entered = again.enter(2, &Call::receive(ThreadId::ANY, Fpage::NIL, Timeout::Never))?;
    /// assert_eq!(entered.steps[0].step, Step::Transfer { sender: 1, receiver: 2 });
    /// assert_eq!(entries, 1);
    /// # Ok::<(), Box<dyn std::error::Error>>(())
    /// ```
    pub fn checkpoint(&self, entries: u64) -> Result<Vec<u8>, Refusal> {
        // a number that no usize has is above 2^63, and is refused
        let entries = usize::try_from(entries).unwrap_or(usize::MAX);
        match self.handle.checkpoint(self.frames, entries) {
            Ok(bytes) => Ok(bytes),
            Err(number) => Err(Refusal::of(number, 0)),
        }
    }

    /// Returns exactly the kernel that [`checkpoint`](Kernel::checkpoint) wrote, and the number of entries that was passed.
    ///
    /// # Errors
    ///
    /// [`Refusal::NotACheckpoint`] with the fault and its position, or [`Refusal::NoMemory`].
    pub fn from_checkpoint(bytes: &[u8]) -> Result<(Kernel, u64), BadCheckpoint> {
        match ffi::Handle::read(bytes) {
            Ok((handle, told)) => Ok((Kernel::of(handle, told.frames), told.entries)),
            Err(told) => Err(BadCheckpoint::of(&told)),
        }
    }

    /// Returns the number of frames with which the kernel was booted.
    pub fn frames(&self) -> u32 {
        self.frames
    }

    /// Returns the size of the pages and frames with which the kernel was booted.
    pub fn page_size(&self) -> PageSize {
        queries::page_size(&self.handle)
    }

    /// Starts a call of a thread. The call ends at once if it needs no partner or can have none; otherwise the thread waits.
    ///
    /// # Errors
    ///
    /// In this order: K2, K3, K4; then those of the message (M7, M1, M5, M2, M4 or M3) and of the window (M6), of an Unmap (U2, U1), or of
    /// a Create, SetPager or Delete (H1 to H6; NoMemory for a Create in a new space).
    pub fn start(&mut self, thread: u32, call: &Call) -> Result<Answer, Refusal> {
        let (given, words) = call.given();
        Answer::of(&self.handle.start(thread, given, words))
    }

    /// Starts a call as [`start`](Kernel::start) does, and then executes the next step until no step is enabled. The errors are those of
    /// `start`.
    ///
    /// ```
    /// use l4::{Call, Fpage, Kernel, Message, Step, ThreadId, Timeout};
    /// let mut kernel = Kernel::boot(1)?;
    /// kernel.enter(2, &Call::receive(ThreadId::ANY, Fpage::NIL, Timeout::Never))?;
    /// let message = Message::new(0, &[5], &[])?;
    /// let entered = kernel.enter(1, &Call::send(ThreadId::ROOT, &message, Timeout::Never))?;
    /// assert_eq!(entered.steps[0].step, Step::Transfer { sender: 1, receiver: 2 });
    /// # Ok::<(), Box<dyn std::error::Error>>(())
    /// ```
    pub fn enter(&mut self, thread: u32, call: &Call) -> Result<Entered, Refusal> {
        let (given, words) = call.given();
        let (entered, steps) = self.handle.enter(thread, given, words);
        let count = MAX_THREADS.min(entered.step_count as usize);
        Ok(Entered {
            start: Answer::of(&entered.start)?,
            steps: steps[..count].iter().filter_map(Done::of).collect(),
        })
    }

    /// Delivers the sender's message to the receiver.
    ///
    /// # Errors
    ///
    /// K1 if the sender does not wait to send to this receiver, or the receiver does not wait for a message from this sender.
    pub fn transfer(&mut self, sender: u32, receiver: u32) -> Result<Answer, Refusal> {
        Answer::of(&self.handle.transfer(sender, receiver))
    }

    /// Ends the thread's wait with a timeout of zero.
    ///
    /// # Errors
    ///
    /// K1 if the thread has no such wait.
    pub fn expire(&mut self, thread: u32) -> Result<Answer, Refusal> {
        Answer::of(&self.handle.expire(thread))
    }

    /// Ends the thread's wait, whatever its timeouts are: you call it when a timeout has passed by a clock of your own. The call ends with
    /// [`ErrorCode::SEND_TIMEOUT`](crate::ErrorCode::SEND_TIMEOUT) if the thread was sending, and with
    /// [`ErrorCode::RECEIVE_TIMEOUT`](crate::ErrorCode::RECEIVE_TIMEOUT) if it was receiving.
    ///
    /// # Errors
    ///
    /// K1 if the thread does not wait.
    pub fn timeout(&mut self, thread: u32) -> Result<Answer, Refusal> {
        Answer::of(&self.handle.timeout(thread))
    }

    /// Cancels the thread's wait, as ExchangeRegisters does. The call ends with
    /// [`ErrorCode::SEND_CANCELED`](crate::ErrorCode::SEND_CANCELED) if the thread was sending, and with
    /// [`ErrorCode::RECEIVE_CANCELED`](crate::ErrorCode::RECEIVE_CANCELED) if it was receiving.
    ///
    /// # Errors
    ///
    /// K1 if the thread does not wait.
    pub fn cancel(&mut self, thread: u32) -> Result<Answer, Refusal> {
        Answer::of(&self.handle.cancel(thread))
    }

    /// Returns the step that is executed next if no call is started, or `None` if no step is enabled.
    ///
    /// This is the enabled transfer whose sender has waited longest or, if no transfer is enabled, the enabled expiry of the lowest thread
    /// number.
    pub fn enabled(&self) -> Option<Step> {
        Step::of(&self.handle.enabled())
    }

    /// Executes the step that [`enabled`](Kernel::enabled) returns. Returns `None`, and changes nothing, if there is none.
    ///
    /// ```
    /// use l4::{Call, Fpage, Kernel, Outcome, ThreadId, Timeout};
    /// let mut kernel = Kernel::boot(1)?;
    /// kernel.start(2, &Call::receive(ThreadId::ANY, Fpage::NIL, Timeout::Zero))?;
    /// while let Some(done) = kernel.next() {
    ///     assert_eq!((done.outcome, done.ended), (Outcome::Expired, vec![2]));
    /// }
    /// # Ok::<(), l4::Refusal>(())
    /// ```
    // A kernel is not an iterator: calls that are started in between enable new steps.
    #[allow(clippy::should_implement_trait)]
    pub fn next(&mut self) -> Option<Done> {
        Done::of(&self.handle.next())
    }

    /// Returns the thread with this number: its id, space and pager, and what it is doing. Returns `None` if there is no such thread.
    ///
    /// ```
    /// use l4::{Call, Fpage, Kernel, ThreadId, ThreadState, Timeout, Wait};
    /// let mut kernel = Kernel::boot(1)?;
    /// let root = kernel.thread(2).expect("root exists");
    /// assert_eq!((root.id, root.space, root.pager), (ThreadId::ROOT, 1, ThreadId::SIGMA0));
    /// assert_eq!(root.state, ThreadState::New);
    /// kernel.enter(2, &Call::receive(ThreadId::SIGMA0, Fpage::NIL, Timeout::Never))?;
    /// let wait = Wait { partner: ThreadId::SIGMA0, expires: false, fault: false };
    /// assert_eq!(kernel.thread(2).map(|root| root.state), Some(ThreadState::Receiving(wait)));
    /// assert_eq!(kernel.thread(3), None);
    /// # Ok::<(), l4::Refusal>(())
    /// ```
    pub fn thread(&self, number: u32) -> Option<Thread> {
        queries::thread(&self.handle, number)
    }

    /// Returns the reply of the thread's last call, which has ended. Returns `None` if the thread waits, does not exist, or has made no
    /// call yet; [`thread`](Kernel::thread) tells these apart.
    pub fn reply(&self, thread: u32) -> Option<Reply> {
        queries::reply(&self.handle, thread)
    }

    /// Executes a line of a step list, without its newline: a step or a query. Returns the lines that `l4_steps` prints for it. If the kernel
    /// refuses the step, that is its answer.
    ///
    /// # Errors
    ///
    /// In this order: B5 if the line is not a step or query, and nothing has changed; NoMemory if there is no memory for the answer: the step
    /// has been executed.
    ///
    /// ```
    /// let mut kernel = l4::Kernel::boot(1)?;
    /// assert_eq!(kernel.execute("start 1 ipc 0x8001 0 0 0 0")?, "started\n");
    /// assert_eq!(kernel.execute("start 2 ipc 0 0xffffffff 0 0")?, "started\n");
    /// assert_eq!(kernel.execute("transfer 1 2")?, "done\n1 ipc 00000000 0 00000000\n2 ipc 00000000 0 00004001\n");
    /// # Ok::<(), l4::Refusal>(())
    /// ```
    pub fn execute(&mut self, step: &str) -> Result<String, Refusal> {
        let (told, answer) = self.handle.execute(step);
        match told.refusal {
            ffi::L4_OK => Ok(answer),
            number => Err(Refusal::of(number, 0)),
        }
    }

    /// Watches another kernel: executes a step that the other kernel executed, and compares the other kernel's answer with this kernel's,
    /// as `l4 judge` does.
    ///
    /// `step` is a line of a step list without its newline: a step or a query. `found` has the lines that `l4_steps` prints for it; the last
    /// one may lack its newline. A line `?` matches any one line. An answer without lines differs at place 0. This kernel executes
    /// the step even if the answers differ, so its state follows the definition.
    ///
    /// # Errors
    ///
    /// In this order: B5 if `step` is not a step or query, and nothing has changed; NoMemory if there is no memory for the comparison: the
    /// step has been executed.
    ///
    /// # Examples
    ///
    /// ```
    /// use l4::{Kernel, Step, Verdict};
    /// let mut kernel = Kernel::boot(1)?;
    /// assert_eq!(kernel.judge("start 1 ipc 0x8001 0 0 0 0", "started")?, Verdict::Agrees);
    /// let expected = Some("started".to_string());
    /// assert_eq!(
    ///     kernel.judge("start 2 ipc 0 0xffffffff 0 0", "refused K3")?,
    ///     Verdict::Differs { place: 0, expected },
    /// );
    /// let enabled = Some(Step::Transfer { sender: 1, receiver: 2 });
    /// assert_eq!(kernel.judge("transfer 2 1", "done")?, Verdict::NotEnabled { enabled });
    /// let expected = Some("space 1".to_string());
    /// assert_eq!(kernel.judge("space 2", "")?, Verdict::Differs { place: 0, expected });
    /// # Ok::<(), l4::Refusal>(())
    /// ```
    pub fn judge(&mut self, step: &str, found: &str) -> Result<Verdict, Refusal> {
        let (told, expected) = self.handle.judge(step, found);
        Verdict::of(&told, expected)
    }

    /// Returns the numbers of the threads, by rising number.
    ///
    /// ```
    /// use l4::{Call, Kernel, ThreadId};
    /// let mut kernel = Kernel::boot(1)?;
    /// let id = ThreadId::new(9, 1)?;
    /// kernel.enter(2, &Call::create(id, id, ThreadId::NIL))?;
    /// assert_eq!((kernel.threads(), kernel.spaces()), (vec![1, 2, 9], vec![0, 1, 2]));
    /// # Ok::<(), l4::Refusal>(())
    /// ```
    pub fn threads(&self) -> Vec<u32> {
        queries::threads(&self.handle)
    }

    /// Returns the numbers of the threads of a space, by rising number.
    ///
    /// ```
    /// use l4::{Call, Kernel, ThreadId};
    /// let mut kernel = Kernel::boot(1)?;
    /// kernel.enter(2, &Call::create(ThreadId::new(9, 1)?, ThreadId::ROOT, ThreadId::NIL))?;
    /// assert_eq!((kernel.threads_in(1), kernel.threads_in(2)), (vec![2, 9], vec![]));
    /// # Ok::<(), l4::Refusal>(())
    /// ```
    pub fn threads_in(&self, space: u64) -> Vec<u32> {
        queries::threads_in(&self.handle, space)
    }

    /// Returns the numbers of the spaces, by rising number.
    pub fn spaces(&self) -> Vec<u64> {
        queries::spaces(&self.handle)
    }

    /// Returns the number of a thread's space, or `None` if there is no such thread.
    pub fn space_of(&self, thread: u32) -> Option<u64> {
        queries::space_of(&self.handle, thread)
    }

    /// Returns the mapping of a page of a space, or `None` if the page is not present. `page` is any number: a page of a space that does
    /// not exist, or beyond the space, is not present.
    pub fn mapping(&self, space: u64, page: u32) -> Option<Mapping> {
        queries::mapping(&self.handle, space, page)
    }

    /// Returns the lowest present page of a space that is not below `page`, or `None` if there is none.
    pub fn next_page(&self, space: u64, page: u32) -> Option<u32> {
        queries::next_page(&self.handle, space, page)
    }

    /// Returns the pages that descend from a page of a space: those that were mapped from it, those that were mapped from these, and so
    /// on. Each is returned once, in no fixed order; there are none if the page is not present. The cost depends only on their number.
    ///
    /// A step changes at most the pages that it names and what descends from them before the step. A message names the pages that its
    /// items fill, and the source pages of its grant items.
    ///
    /// # Errors
    ///
    /// NoMemory.
    ///
    /// ```
    /// let kernel = l4::Kernel::boot(256)?;
    /// assert_eq!(kernel.descendants(0, 16)?, []);
    /// # Ok::<(), l4::Refusal>(())
    /// ```
    pub fn descendants(&self, space: u64, page: u32) -> Result<Vec<Place>, Refusal> {
        queries::descendants(&self.handle, space, page)
    }

    /// Returns the pages whose mappings are others than those of another kernel, by rising space and page number: pages that are present in
    /// one of the two kernels alone, and pages whose frame, rights or parent differ.
    ///
    /// To learn which pages a step changed, copy the kernel before the step. Both kernels' mappings are compared in full.
    ///
    /// ```
    /// use l4::{Call, Fpage, Item, Kernel, Message, Rights, ThreadId, Timeout};
    /// let mut kernel = Kernel::boot(2)?;
    /// kernel.start(2, &Call::receive(ThreadId::ANY, Fpage::complete(Rights::NONE), Timeout::Never))?;
    /// let page = Item::map(Fpage::page(1, Rights::READ)?, 0x20000);
    /// kernel.start(1, &Call::send(ThreadId::ROOT, &Message::new(0, &[], &[page])?, Timeout::Never))?;
    /// let before = kernel.copy()?;
    /// kernel.transfer(1, 2)?;
    /// let changes = kernel.changes_since(&before);
    /// assert_eq!((changes.len(), changes[0].place.page, changes[0].before), (1, 32, None));
    /// # Ok::<(), Box<dyn std::error::Error>>(())
    /// ```
    pub fn changes_since(&self, before: &Kernel) -> Vec<Change> {
        let (old, new) = (before.all_mappings(), self.all_mappings());
        let mut places: Vec<Place> = old.keys().chain(new.keys()).copied().collect();
        places.sort_unstable();
        places.dedup();
        let change = |place| Change {
            place,
            before: old.get(&place).copied(),
            after: new.get(&place).copied(),
        };
        let differs = |change: &Change| change.before != change.after;
        places.into_iter().map(change).filter(differs).collect()
    }

    /// Returns the mappings of all spaces by their pages.
    fn all_mappings(&self) -> BTreeMap<Place, Mapping> {
        let spaces = self.spaces().into_iter();
        let mappings = spaces.flat_map(|space| queries::mappings(&self.handle, space));
        mappings.map(|mapping| (mapping.place, mapping)).collect()
    }

    /// Returns an iterator over the mappings of a space's present pages, by rising page number.
    ///
    /// ```
    /// let kernel = l4::Kernel::boot(3)?;
    /// let frames: Vec<u32> = kernel.mappings(0).map(|mapping| mapping.frame).collect();
    /// assert_eq!(frames, [0, 1, 2]);
    /// # Ok::<(), l4::Refusal>(())
    /// ```
    pub fn mappings(&self, space: u64) -> Mappings<'_> {
        Mappings {
            kernel: PhantomData,
            found: queries::mappings(&self.handle, space).into_iter(),
        }
    }
}

impl fmt::Debug for Kernel {
    fn fmt(&self, out: &mut fmt::Formatter<'_>) -> fmt::Result {
        out.write_str("Kernel { .. }")
    }
}

/// An iterator over the mappings of a space, from [`Kernel::mappings`].
#[derive(Clone, Debug)]
pub struct Mappings<'kernel> {
    kernel: PhantomData<&'kernel Kernel>,
    /// The mappings that are left.
    found: vec::IntoIter<Mapping>,
}

impl Iterator for Mappings<'_> {
    type Item = Mapping;

    fn next(&mut self) -> Option<Mapping> {
        self.found.next()
    }
}

impl iter::FusedIterator for Mappings<'_> {}
