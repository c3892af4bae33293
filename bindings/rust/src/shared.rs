//! A kernel that threads share, with its history and its seats.
use crate::ffi::{self, Handle};
use crate::{
    queries, Call, Kernel, Mapping, Outcome, PageSize, Place, Refusal, Reply, Rights, Step, Thread,
};
use std::collections::{HashMap, HashSet};
use std::error::Error;
use std::fmt;
use std::sync::atomic::{AtomicU64, Ordering};
use std::sync::{Arc, Condvar, Mutex, MutexGuard, PoisonError};
use std::time::{Duration, Instant};

/// A step of a history: the start of a call, or a transfer or expiry.
// Every second or third entry of a history is a start.
#[allow(clippy::large_enum_variant)]
#[derive(Clone, PartialEq, Eq, Debug)]
#[non_exhaustive]
pub enum Recorded {
    /// The thread started a call.
    Start {
        /// The number of the thread.
        thread: u32,
        /// The call.
        call: Call,
    },
    /// A transfer or an expiry.
    Next(Step),
    /// The wait of the thread ended, because its timeout had passed. The entry has seat 0.
    Timeout {
        /// The number of the thread.
        thread: u32,
    },
    /// The wait of the thread was canceled. The entry has seat 0.
    Cancel {
        /// The number of the thread.
        thread: u32,
    },
}

/// An entry of a history. It prints as a line of a step list, as the program `l4_steps` reads it.
#[derive(Clone, PartialEq, Eq, Debug)]
pub struct Entry {
    /// The thread number whose call this step starts or follows.
    pub seat: u32,
    /// The step.
    pub step: Recorded,
    /// What the step did.
    pub outcome: Outcome,
    /// The numbers of the threads whose calls ended in it.
    pub ended: Vec<u32>,
}

impl Entry {
    /// Returns the entry that the library reports, or `None` beyond the end.
    fn of(told: &ffi::l4_entry) -> Option<Entry> {
        let step = match told.kind {
            ffi::L4_NONE => return None,
            ffi::L4_START => Recorded::Start {
                thread: told.thread,
                call: Call::told(&told.call, &told.words[..told.word_count as usize]),
            },
            ffi::L4_TIMEOUT => Recorded::Timeout {
                thread: told.thread,
            },
            ffi::L4_CANCEL => Recorded::Cancel {
                thread: told.thread,
            },
            kind => Recorded::Next(Step::named(kind, told.thread, told.receiver)?),
        };
        Some(Entry {
            seat: told.seat,
            step,
            outcome: Outcome::of(told.outcome),
            ended: told.ended[..told.ended_count as usize].to_vec(),
        })
    }
}

impl fmt::Display for Entry {
    fn fmt(&self, out: &mut fmt::Formatter<'_>) -> fmt::Result {
        match &self.step {
            Recorded::Start { thread, call } => write!(out, "start {thread} {}", call.line()),
            Recorded::Next(Step::Transfer { sender, receiver }) => {
                write!(out, "transfer {sender} {receiver}")
            }
            Recorded::Next(Step::Expire { thread }) => write!(out, "expire {thread}"),
            Recorded::Timeout { thread } => write!(out, "timeout {thread}"),
            Recorded::Cancel { thread } => write!(out, "cancel {thread}"),
        }
    }
}

/// A seat's receipt for a call that has ended.
#[derive(Clone, PartialEq, Eq, Debug)]
pub struct Receipt {
    /// The call.
    pub call: Call,
    /// The number since boot, from 0, of the entry that started it.
    pub start: u64,
    /// The number of the entry that ended it.
    pub end: u64,
    /// Its reply.
    pub reply: Reply,
}

/// A transfer that moved a page. It prints as a line of the output of `l4 why`.
#[derive(Clone, Copy, PartialEq, Eq, Debug)]
pub struct Link {
    /// The number of the transfer's entry since boot, from 0.
    pub entry: u64,
    /// The thread number of the sender.
    pub sender: u32,
    /// The thread number of the receiver.
    pub receiver: u32,
    /// The sender's page.
    pub source: Place,
    /// The receiver's page.
    pub target: Place,
    /// Whether the item granted the page; otherwise it mapped the page.
    pub grant: bool,
    /// The rights of the sender's page just before the transfer.
    pub source_rights: Rights,
    /// The rights that the item named.
    pub item_rights: Rights,
}

impl Link {
    /// Returns the link that the library reports, with the sender and the receiver of its entry.
    fn of(told: &ffi::l4_link, entry: &ffi::l4_entry) -> Link {
        Link {
            entry: told.entry,
            sender: entry.thread,
            receiver: entry.receiver,
            source: Place {
                space: told.source_space,
                page: told.source_page,
            },
            target: Place {
                space: told.target_space,
                page: told.target_page,
            },
            grant: told.grant != 0,
            source_rights: Rights::of_bits(told.source_rights),
            item_rights: Rights::of_bits(told.item_rights),
        }
    }

    /// Returns the struct that the library reads.
    fn given(&self) -> ffi::l4_link {
        ffi::l4_link {
            entry: self.entry,
            source_space: self.source.space,
            target_space: self.target.space,
            source_page: self.source.page,
            target_page: self.target.page,
            grant: self.grant.into(),
            source_rights: self.source_rights.bits(),
            item_rights: self.item_rights.bits(),
            reserved: 0,
        }
    }
}

impl fmt::Display for Link {
    fn fmt(&self, out: &mut fmt::Formatter<'_>) -> fmt::Result {
        let kind = if self.grant { "grant" } else { "map" };
        write!(
            out,
            "entry {} transfer {} {} {kind} {} {} {} {}",
            self.entry,
            self.sender,
            self.receiver,
            self.source.page,
            self.target.page,
            self.source_rights,
            self.item_rights
        )
    }
}

/// Entries of a history that [`SharedKernel::hand_out`] handed out. All segments of a kernel in their order, followed by its
/// [`history`](SharedKernel::history), are its steps since boot.
pub struct Segment {
    handle: Handle<ffi::l4_segment>,
}

impl Segment {
    /// Returns the number of the first entry since boot, from 0.
    pub fn first(&self) -> u64 {
        self.handle.first().count
    }

    /// Returns the number of entries.
    pub fn len(&self) -> u64 {
        self.handle.length().count
    }

    /// Returns whether there is no entry.
    pub fn is_empty(&self) -> bool {
        self.len() == 0
    }

    /// Returns an iterator over the entries.
    pub fn entries(&self) -> impl Iterator<Item = Entry> + '_ {
        (self.first()..).map_while(|number| Entry::of(&self.handle.entry(number as usize)))
    }

    /// Returns the file of the segment. `l4 history --from` reads such files, several of them one after another too.
    ///
    /// ```
    /// # use l4::{Call, Fpage, SharedKernel, ThreadId, Timeout};
    /// # use std::time::Duration;
    /// # let path = std::env::temp_dir().join(format!("l4-segment-{}", std::process::id()));
    /// let kernel = SharedKernel::new(256)?;
    /// let mut root = kernel.seat(2)?;
    /// root.call_for(&Call::receive(ThreadId::ANY, Fpage::NIL, Timeout::Never), Duration::ZERO)?;
    /// std::fs::write(&path, kernel.hand_out()?.to_bytes()?)?;
    /// # assert_eq!(std::fs::read(&path)?.len(), 108);
    /// # std::fs::remove_file(&path)?;
    /// # Ok::<(), Box<dyn std::error::Error>>(())
    /// ```
    ///
    /// # Errors
    ///
    /// NoMemory.
    pub fn to_bytes(&self) -> Result<Vec<u8>, Refusal> {
        self.handle.bytes().map_err(|number| Refusal::of(number, 0))
    }
}

impl fmt::Debug for Segment {
    fn fmt(&self, out: &mut fmt::Formatter<'_>) -> fmt::Result {
        write!(out, "Segment {{ first: {}, .. }}", self.first())
    }
}

/// A kernel without a history drops its steps once it keeps this many.
const DROPPED: u64 = 1024;

/// What threads share: the locked kernel, the condition variable of each seat, the seats whose waits are to end, the history's length, the
/// size of pages, and whether the kernel keeps its history. All but the last three are used only while the kernel is locked.
struct Shared {
    lock: Mutex<Handle<ffi::l4_lock>>,
    wakers: Mutex<HashMap<u32, Arc<Condvar>>>,
    ended: Mutex<HashSet<u32>>,
    steps: AtomicU64,
    page_size: PageSize,
    has_history: bool,
}

impl Shared {
    /// Locks the kernel. No code panics while it holds the lock, so the kernel is intact even if a thread has panicked.
    fn lock(&self) -> MutexGuard<'_, Handle<ffi::l4_lock>> {
        self.lock.lock().unwrap_or_else(PoisonError::into_inner)
    }

    /// Returns the seats whose waits are to end.
    fn ended(&self) -> MutexGuard<'_, HashSet<u32>> {
        self.ended.lock().unwrap_or_else(PoisonError::into_inner)
    }

    /// Returns the condition variable of each seat.
    fn wakers(&self) -> MutexGuard<'_, HashMap<u32, Arc<Condvar>>> {
        self.wakers.lock().unwrap_or_else(PoisonError::into_inner)
    }

    /// Ends the wait of a thread by this function of the library, and wakes its seat.
    fn end_call(
        &self,
        lock: &mut Handle<ffi::l4_lock>,
        end: impl FnOnce(&mut Handle<ffi::l4_lock>) -> u32,
    ) -> Result<(), Refusal> {
        let first = self.steps.load(Ordering::SeqCst);
        match end(lock) {
            ffi::L4_OK => {
                // no seat has the number 0
                self.wake(lock, first, 0);
                Ok(())
            }
            refusal => Err(Refusal::of(refusal, 0)),
        }
    }

    /// Wakes the threads of other seats whose calls ended in the entries since `first`, and notes the history's length.
    fn wake(&self, lock: &Handle<ffi::l4_lock>, first: u64, own: u32) {
        self.steps.store(lock.length().count, Ordering::SeqCst);
        let wakers = self.wakers();
        let (threads, count) = lock.ended(first as usize);
        for ended in &threads[..count] {
            if let Some(waker) = wakers.get(ended).filter(|_| *ended != own) {
                waker.notify_one();
            }
        }
    }

    /// Drops the steps that the kernel keeps if there are enough of them, and if it keeps no history. If there is no memory for that, a later
    /// call does it.
    fn drop_steps(&self, lock: &mut Handle<ffi::l4_lock>) {
        let kept = self.steps.load(Ordering::SeqCst) - lock.kept_from().count;
        if !self.has_history && kept >= DROPPED {
            let _ = lock.hand_out();
        }
    }
}

/// A kernel that threads share. It keeps the history of its steps, and gives out one [`Seat`] for each thread number that makes calls.
///
/// While the call of one seat waits, other threads can run and other seats can make calls. The kernel keeps at most 1,000,000 entries of
/// its history. Once it keeps more than 999,871, every further call of a seat is refused with L1; queries and
/// [`close`](SharedKernel::close) still work. To run longer, call [`hand_out`](SharedKernel::hand_out) from time to time, or boot the
/// kernel [`without_history`](SharedKernel::without_history).
///
/// A clone is the same kernel, so each thread of the program may have one. The memory is freed when all clones and seats are dropped. After
/// one clone was closed, the others find nothing: queries return nothing, and methods that can be refused return
/// [`Refusal::EmptyHandle`].
///
/// ```
/// use l4::{Call, Fpage, Message, SharedKernel, ThreadId, Timeout};
/// let kernel = SharedKernel::new(1)?;
/// let (mut sigma0, mut root) = (kernel.seat(1)?, kernel.seat(2)?);
/// let message = Message::new(0, &[5], &[])?;
/// std::thread::scope(|threads| {
///     threads.spawn(|| root.call(&Call::receive(ThreadId::ANY, Fpage::NIL, Timeout::Never)));
///     threads.spawn(|| sigma0.call(&Call::send(ThreadId::ROOT, &message, Timeout::Never)));
/// });
/// assert_eq!(kernel.steps(), 3);
/// assert_eq!(kernel.history()[2].to_string(), "transfer 1 2");
/// assert!(kernel.close(vec![root, sigma0]).is_ok());
/// # Ok::<(), Box<dyn std::error::Error>>(())
/// ```
#[derive(Clone)]
pub struct SharedKernel {
    shared: Arc<Shared>,
}

impl SharedKernel {
    /// Boots a kernel with pages of 4 KiB. The errors are those of [`Kernel::boot`](crate::Kernel::boot).
    pub fn new(frames: u32) -> Result<SharedKernel, Refusal> {
        SharedKernel::new_sized(frames, PageSize::Kib4)
    }

    /// Boots a kernel with pages of this size. The errors are the same.
    pub fn new_sized(frames: u32, size: PageSize) -> Result<SharedKernel, Refusal> {
        SharedKernel::made(frames, size, true)
    }

    /// Boots a kernel that keeps no history: it drops its steps and the receipts of its seats from time to time, so its memory does not grow.
    /// Between two calls it keeps fewer than 1,024 steps. Methods that need dropped steps return L8, as after
    /// [`hand_out`](SharedKernel::hand_out). The errors are those of [`new`](SharedKernel::new).
    ///
    /// ```
    /// use l4::{Call, PageSize, SharedKernel, ThreadId};
    /// let kernel = SharedKernel::without_history(1, PageSize::Kib4)?;
    /// let mut root = kernel.seat(2)?;
    /// for _ in 0..3000 {
    ///     root.call(&Call::set_pager(ThreadId::ROOT, ThreadId::NIL))?;
    /// }
    /// assert_eq!(kernel.steps(), 3000);
    /// assert!(kernel.history().len() < 1024);
    /// # Ok::<(), l4::Refusal>(())
    /// ```
    pub fn without_history(frames: u32, size: PageSize) -> Result<SharedKernel, Refusal> {
        SharedKernel::made(frames, size, false)
    }

    fn made(frames: u32, size: PageSize, has_history: bool) -> Result<SharedKernel, Refusal> {
        match Handle::lock(frames, size.bytes()) {
            Ok(handle) => Ok(SharedKernel {
                shared: Arc::new(Shared {
                    lock: Mutex::new(handle),
                    wakers: Mutex::new(HashMap::new()),
                    ended: Mutex::new(HashSet::new()),
                    steps: AtomicU64::new(0),
                    page_size: size,
                    has_history,
                }),
            }),
            Err(number) => Err(Refusal::of(number, 0)),
        }
    }

    /// Gives out the seat of a thread number. Each seat is given once, and the thread need not exist yet.
    ///
    /// # Errors
    ///
    /// In this order: L4, NoMemory.
    pub fn seat(&self, number: u32) -> Result<Seat, Refusal> {
        let mut lock = self.shared.lock();
        match lock.give(number) {
            ffi::L4_OK => {
                let woken = Arc::new(Condvar::new());
                self.shared.wakers().insert(number, Arc::clone(&woken));
                Ok(Seat {
                    shared: Arc::clone(&self.shared),
                    woken,
                    number,
                })
            }
            refusal => Err(Refusal::of(refusal, 0)),
        }
    }

    /// Ends the wait in which the seat of this number is, and the call continues. [`Seat::call_for`] and [`Seat::wait_for`] then return `None`,
    /// and [`Seat::call`] returns [`Refusal::StillWaiting`]. This has no effect on a seat that does not wait in one of them.
    pub fn end_wait(&self, number: u32) {
        let _lock = self.shared.lock();
        self.shared.ended().insert(number);
        if let Some(waker) = self.shared.wakers().get(&number) {
            waker.notify_one();
        }
    }

    /// Ends the wait of a thread, because its timeout has passed by a clock of the caller. The call ends with
    /// [`ErrorCode::SEND_TIMEOUT`](crate::ErrorCode::SEND_TIMEOUT) if the thread was sending, and with
    /// [`ErrorCode::RECEIVE_TIMEOUT`](crate::ErrorCode::RECEIVE_TIMEOUT) if it was receiving; a receive phase that would have followed does
    /// not begin. [`Seat::call`] then returns the reply.
    ///
    /// # Errors
    ///
    /// In this order: L1, NoMemory, K1 if the thread does not wait.
    pub fn timeout(&self, thread: u32) -> Result<(), Refusal> {
        let mut lock = self.shared.lock();
        self.shared.end_call(&mut lock, |lock| lock.timeout(thread))
    }

    /// Cancels the wait of a thread, as [`timeout`](SharedKernel::timeout) ends it, but with
    /// [`ErrorCode::SEND_CANCELED`](crate::ErrorCode::SEND_CANCELED) or
    /// [`ErrorCode::RECEIVE_CANCELED`](crate::ErrorCode::RECEIVE_CANCELED).
    ///
    /// # Errors
    ///
    /// In this order: L1, NoMemory, K1 if the thread does not wait.
    ///
    /// ```
    /// use l4::{Call, ErrorCode, Fpage, SharedKernel, ThreadId, Timeout};
    /// use std::time::Duration;
    /// let kernel = SharedKernel::new(1)?;
    /// let mut root = kernel.seat(2)?;
    /// let receive = Call::receive(ThreadId::ANY, Fpage::NIL, Timeout::Never);
    /// assert_eq!(root.call_for(&receive, Duration::ZERO)?, None);
    /// kernel.cancel(2)?;
    /// let reply = root.take().expect("the call has ended");
    /// assert_eq!(reply.received(), Some(Err(ErrorCode::RECEIVE_CANCELED)));
    /// # Ok::<(), Box<dyn std::error::Error>>(())
    /// ```
    pub fn cancel(&self, thread: u32) -> Result<(), Refusal> {
        let mut lock = self.shared.lock();
        self.shared.end_call(&mut lock, |lock| lock.cancel(thread))
    }

    /// Returns the number of steps since boot when the last call was entered. It never decreases, and the method never waits.
    pub fn steps(&self) -> u64 {
        self.shared.steps.load(Ordering::SeqCst)
    }

    /// Returns the steps that the kernel keeps: those since the last segment was handed out, or since boot.
    pub fn history(&self) -> Vec<Entry> {
        let lock = self.shared.lock();
        entries_of(&lock, lock.kept_from().count)
    }

    /// Returns the steps from this number on, which counts since boot from 0. To follow a run, pass the number of the first step that you
    /// have not seen: the method reads only the steps from there on. There is none if the number is not below [`steps`](SharedKernel::steps).
    ///
    /// ```
    /// use l4::{Call, Fpage, SharedKernel, ThreadId, Timeout};
    /// use std::time::Duration;
    /// let kernel = SharedKernel::new(1)?;
    /// let mut root = kernel.seat(2)?;
    /// root.call(&Call::set_pager(ThreadId::ROOT, ThreadId::NIL))?;
    /// root.call_for(&Call::receive(ThreadId::ANY, Fpage::NIL, Timeout::Never), Duration::ZERO)?;
    /// assert_eq!(kernel.entries(1)?[0].to_string(), "start 2 ipc 0x00000000 0xffffffff 0x00000000 0x00000000");
    /// assert_eq!(kernel.entries(2)?, []);
    /// # Ok::<(), l4::Refusal>(())
    /// ```
    ///
    /// # Errors
    ///
    /// L8 if the step with this number was handed out.
    pub fn entries(&self, since: u64) -> Result<Vec<Entry>, Refusal> {
        let lock = self.shared.lock();
        let kept = lock.kept_from();
        if kept.refusal != ffi::L4_OK {
            return Err(Refusal::of(kept.refusal, 0));
        }
        if since < kept.count {
            return Err(Refusal::of(ffi::L4_L8, 0));
        }
        Ok(entries_of(&lock, since))
    }

    /// Returns the step with this number, which counts since boot from 0, or `None` if there is no such step yet.
    ///
    /// # Errors
    ///
    /// L8 if the step was handed out.
    pub fn entry(&self, number: u64) -> Result<Option<Entry>, Refusal> {
        let told = self.shared.lock().entry(number as usize);
        match told.refusal {
            ffi::L4_OK => Ok(Entry::of(&told)),
            refusal => Err(Refusal::of(refusal, 0)),
        }
    }

    /// Hands out the steps that the kernel keeps, and forgets the receipts of all seats. From then on, the kernel keeps the steps and
    /// receipts of later calls only, and their numbers continue. Any thread may call this at any time; calls that wait are not affected.
    ///
    /// # Errors
    ///
    /// NoMemory. Then nothing has changed.
    pub fn hand_out(&self) -> Result<Segment, Refusal> {
        match self.shared.lock().hand_out() {
            Ok(handle) => Ok(Segment { handle }),
            Err(number) => Err(Refusal::of(number, 0)),
        }
    }

    /// Returns the thread with this number, as [`Kernel::thread`] does. This query and those below it see the kernel at one moment between
    /// two calls, and change nothing.
    ///
    /// ```
    /// use l4::{Call, Fpage, SharedKernel, ThreadId, ThreadState, Timeout};
    /// use std::time::Duration;
    /// let kernel = SharedKernel::new(1)?;
    /// let mut root = kernel.seat(2)?;
    /// let receive = Call::receive(ThreadId::ANY, Fpage::NIL, Timeout::Never);
    /// assert_eq!(root.call_for(&receive, Duration::ZERO)?, None);
    /// let state = kernel.thread(2).map(|thread| thread.state);
    /// assert!(matches!(state, Some(ThreadState::Receiving(wait)) if wait.partner == ThreadId::ANY));
    /// # Ok::<(), l4::Refusal>(())
    /// ```
    pub fn thread(&self, number: u32) -> Option<Thread> {
        queries::thread(&*self.shared.lock(), number)
    }

    /// Returns the numbers of the threads, by rising number.
    pub fn threads(&self) -> Vec<u32> {
        queries::threads(&*self.shared.lock())
    }

    /// Returns the numbers of the threads of a space, by rising number.
    pub fn threads_in(&self, space: u64) -> Vec<u32> {
        queries::threads_in(&*self.shared.lock(), space)
    }

    /// Returns the numbers of the spaces, by rising number.
    pub fn spaces(&self) -> Vec<u64> {
        queries::spaces(&*self.shared.lock())
    }

    /// Returns the number of a thread's space, or `None` if there is no such thread.
    pub fn space_of(&self, thread: u32) -> Option<u64> {
        queries::space_of(&*self.shared.lock(), thread)
    }

    /// Returns the reply of the thread's last call, as [`Kernel::reply`] does, whether or not its seat has taken it.
    pub fn reply(&self, thread: u32) -> Option<Reply> {
        queries::reply(&*self.shared.lock(), thread)
    }

    /// Returns the size of the pages and frames with which the kernel was booted.
    pub fn page_size(&self) -> PageSize {
        self.shared.page_size
    }

    /// Returns the mapping of a page of a space, as [`Kernel::mapping`] does.
    pub fn mapping(&self, space: u64, page: u32) -> Option<Mapping> {
        queries::mapping(&*self.shared.lock(), space, page)
    }

    /// Returns the lowest present page of a space that is not below `page`, or `None` if there is none.
    pub fn next_page(&self, space: u64, page: u32) -> Option<u32> {
        queries::next_page(&*self.shared.lock(), space, page)
    }

    /// Returns the mappings of a space's present pages, by rising page number. Calls of seats wait until all have been found.
    pub fn mappings(&self, space: u64) -> Vec<Mapping> {
        let lock = self.shared.lock();
        queries::mappings(&*lock, space)
    }

    /// Returns the pages that descend from a page of a space, as [`Kernel::descendants`] does.
    ///
    /// # Errors
    ///
    /// NoMemory.
    pub fn descendants(&self, space: u64, page: u32) -> Result<Vec<Place>, Refusal> {
        queries::descendants(&*self.shared.lock(), space, page)
    }

    /// Returns a copy of the kernel, in memory of its own, at one moment between two calls. You can query it while calls go on, or let it
    /// continue in another way. The copy has no history and no seats.
    ///
    /// # Errors
    ///
    /// NoMemory.
    pub fn copy(&self) -> Result<Kernel, Refusal> {
        let lock = self.shared.lock();
        match lock.copy() {
            Ok(handle) => Ok(Kernel::of(handle, lock.frames())),
            Err(number) => Err(Refusal::of(number, 0)),
        }
    }

    /// Finds how a page of a space got to where it is.
    ///
    /// Returns the transfers that brought the page there, one after another, from a page that sigma0 had at boot. A page that sigma0 has
    /// had since boot has no transfers. Returns `None` if the page is not present. The history is replayed on a second kernel; calls of
    /// seats wait meanwhile.
    ///
    /// # Errors
    ///
    /// L8 if steps were handed out; NoMemory; or L6 if a transfer of the history found no memory.
    pub fn provenance(&self, space: u64, page: u32) -> Result<Option<Vec<Link>>, Refusal> {
        let lock = self.shared.lock();
        let (told, links) = lock.provenance(space, page);
        if told.refusal != ffi::L4_OK {
            return Err(Refusal::of(told.refusal, told.detail));
        }
        let links = links
            .iter()
            .map(|link| Link::of(link, &lock.entry(link.entry as usize)));
        Ok((told.there != 0).then(|| links.collect()))
    }

    /// Checks that exactly these links are how a page of a space got to where it is. The check shares no code with
    /// [`provenance`](SharedKernel::provenance).
    ///
    /// The sender and the receiver of a link follow from its entry, and are not checked.
    ///
    /// # Errors
    ///
    /// L8, NoMemory or L6, as for `provenance`; L7 if these links are not how the page got there, or the page is not present.
    pub fn check_provenance(&self, space: u64, page: u32, links: &[Link]) -> Result<(), Refusal> {
        let given: Vec<_> = links.iter().map(Link::given).collect();
        let verdict = self.shared.lock().check_provenance(space, page, &given);
        match verdict.refusal {
            ffi::L4_OK => Ok(()),
            number => Err(Refusal::of(number, verdict.detail)),
        }
    }

    /// Takes back the seats, frees the kernel, and returns the steps that it keeps, if exactly the seats that were given come back. Success
    /// confirms that every receipt that is kept was right about the history.
    ///
    /// # Errors
    ///
    /// X1 if a seat is missing, and X2 if a seat belongs to another kernel. The error then contains the kernel and all seats.
    // The error is large, and rare.
    #[allow(clippy::result_large_err)]
    pub fn close(self, seats: Vec<Seat>) -> Result<Vec<Entry>, Unclosed> {
        let other = seats
            .iter()
            .find(|seat| !Arc::ptr_eq(&seat.shared, &self.shared));
        if let Some(seat) = other {
            let refusal = Refusal::SeatForeign(seat.number);
            return Err(Unclosed {
                refusal,
                kernel: self,
                seats,
            });
        }
        let history = self.history();
        let numbers: Vec<u32> = seats.iter().map(|seat| seat.number).collect();
        let verdict = self.shared.lock().close(&numbers);
        match verdict.refusal {
            ffi::L4_OK => Ok(history),
            number => Err(Unclosed {
                refusal: Refusal::of(number, verdict.detail),
                kernel: self,
                seats,
            }),
        }
    }
}

impl fmt::Debug for SharedKernel {
    fn fmt(&self, out: &mut fmt::Formatter<'_>) -> fmt::Result {
        out.write_str("SharedKernel { .. }")
    }
}

/// The error of [`SharedKernel::close`]: the kernel was not closed, and the error contains everything that was passed.
///
/// ```
/// use l4::SharedKernel;
/// fn close_without_its_seat() -> Result<(), Box<dyn std::error::Error + Send + Sync>> {
///     let kernel = SharedKernel::new(1)?;
///     let _root = kernel.seat(2)?;
///     kernel.close(Vec::new())?;
///     Ok(())
/// }
/// let text = "the kernel was not closed: X1 2: the seat of this number was given out, but was not returned";
/// assert_eq!(close_without_its_seat().unwrap_err().to_string(), text);
/// ```
#[derive(Debug)]
pub struct Unclosed {
    /// Why the kernel was not closed.
    pub refusal: Refusal,
    /// The kernel.
    pub kernel: SharedKernel,
    /// The seats.
    pub seats: Vec<Seat>,
}

impl fmt::Display for Unclosed {
    fn fmt(&self, out: &mut fmt::Formatter<'_>) -> fmt::Result {
        write!(out, "the kernel was not closed: {}", self.refusal)
    }
}

impl Error for Unclosed {}

/// The right to make the calls of one thread number, from [`SharedKernel::seat`].
pub struct Seat {
    shared: Arc<Shared>,
    woken: Arc<Condvar>,
    number: u32,
}

impl Seat {
    /// Returns the seat's thread number.
    pub fn number(&self) -> u32 {
        self.number
    }

    /// Makes a call, and waits until it has ended. Other seats can make calls meanwhile. Only [`SharedKernel::end_wait`] ends the wait
    /// earlier: the kernel cannot be closed without this seat.
    ///
    /// # Errors
    ///
    /// In this order: L3 if an earlier call has ended whose reply was not taken, L1, NoMemory, K2 if there is no such thread, and those of
    /// [`Kernel::start`](crate::Kernel::start). K3 if an earlier call still waits, or if `end_wait` ended the wait: in both cases, get the
    /// reply of the call that waits with [`wait_for`](Seat::wait_for) or [`take`](Seat::take).
    pub fn call(&mut self, call: &Call) -> Result<Reply, Refusal> {
        let mut lock = self.shared.lock();
        let mut reply = self.enter(&mut lock, call)?;
        self.shared.ended().remove(&self.number);
        loop {
            if let Some(reply) = reply {
                return Ok(reply);
            }
            if self.shared.ended().remove(&self.number) {
                return Err(Refusal::StillWaiting);
            }
            lock = self
                .woken
                .wait(lock)
                .unwrap_or_else(PoisonError::into_inner);
            reply = Reply::of(&lock.take(self.number));
        }
    }

    /// Makes a call as [`call`](Seat::call) does. If the call has not ended after this long, [`SharedKernel::timeout`] ends it, and the reply
    /// has ErrorCode 2 or 3. To stop waiting without ending the call, use [`call_for`](Seat::call_for).
    ///
    /// # Errors
    ///
    /// Those of `call`, and L1 and NoMemory of `timeout`; then the call continues.
    ///
    /// ```
    /// use l4::{Call, ErrorCode, Fpage, SharedKernel, ThreadId, Timeout};
    /// use std::time::Duration;
    /// let mut root = SharedKernel::new(1)?.seat(2)?;
    /// let receive = Call::receive(ThreadId::ANY, Fpage::NIL, Timeout::Never);
    /// let reply = root.call_within(&receive, Duration::from_millis(1))?;
    /// assert_eq!(reply.received(), Some(Err(ErrorCode::RECEIVE_TIMEOUT)));
    /// # Ok::<(), Box<dyn std::error::Error>>(())
    /// ```
    pub fn call_within(&mut self, call: &Call, limit: Duration) -> Result<Reply, Refusal> {
        let begin = Instant::now();
        let mut lock = self.shared.lock();
        let mut reply = self.enter(&mut lock, call)?;
        self.shared.ended().remove(&self.number);
        loop {
            if let Some(reply) = reply {
                return Ok(reply);
            }
            if self.shared.ended().remove(&self.number) {
                return Err(Refusal::StillWaiting);
            }
            let left = limit.saturating_sub(begin.elapsed());
            if left.is_zero() {
                self.shared
                    .end_call(&mut lock, |lock| lock.timeout(self.number))?;
            } else {
                lock = self
                    .woken
                    .wait_timeout(lock, left)
                    .unwrap_or_else(PoisonError::into_inner)
                    .0;
            }
            reply = Reply::of(&lock.take(self.number));
        }
    }

    /// Enters a call, and returns its reply if it has ended.
    fn enter(
        &self,
        lock: &mut Handle<ffi::l4_lock>,
        call: &Call,
    ) -> Result<Option<Reply>, Refusal> {
        let (given, words) = call.given();
        let first = self.shared.steps.load(Ordering::SeqCst);
        let told = lock.enter(self.number, given, words);
        if told.refusal != ffi::L4_OK {
            return Err(Refusal::of(told.refusal, told.detail));
        }
        self.shared.wake(lock, first, self.number);
        self.shared.drop_steps(lock);
        Ok(Reply::of(&told.reply))
    }

    /// Makes a call as [`call`](Seat::call) does, and waits at most this long. Returns `None` if the call has not ended by then, or if
    /// [`SharedKernel::end_wait`] ended the wait. The call continues: get its reply with [`wait_for`](Seat::wait_for) or
    /// [`take`](Seat::take).
    ///
    /// # Errors
    ///
    /// Those of `call`. While an earlier call waits, the refusal is K3.
    ///
    /// ```
    /// use l4::{Call, Fpage, SharedKernel, ThreadId, Timeout};
    /// use std::time::Duration;
    /// let kernel = SharedKernel::new(1)?;
    /// let mut root = kernel.seat(2)?;
    /// let receive = Call::receive(ThreadId::ANY, Fpage::NIL, Timeout::Never);
    /// assert_eq!(root.call_for(&receive, Duration::from_millis(1))?, None);
    /// assert_eq!(root.take(), None);
    /// # Ok::<(), Box<dyn std::error::Error>>(())
    /// ```
    pub fn call_for(&mut self, call: &Call, limit: Duration) -> Result<Option<Reply>, Refusal> {
        let mut lock = self.shared.lock();
        match self.enter(&mut lock, call)? {
            Some(reply) => Ok(Some(reply)),
            None => Ok(self.wait(lock, limit)),
        }
    }

    /// Waits at most this long until an earlier call has ended, and takes its reply. Returns `None` if it has not ended by then, if
    /// [`SharedKernel::end_wait`] ended the wait, or if there is no such call.
    pub fn wait_for(&mut self, limit: Duration) -> Option<Reply> {
        self.wait(self.shared.lock(), limit)
    }

    /// Returns whether an earlier call has ended since, so that [`take`](Seat::take) returns its reply. This method never waits for the end
    /// of a call.
    pub fn poll(&self) -> bool {
        let lock = self.shared.lock();
        let told = lock.seat_of(self.number);
        let thread = queries::thread(&*lock, self.number);
        told.starts > told.receipts && !thread.is_some_and(|thread| thread.waits())
    }

    /// Takes the reply of an earlier call that has ended since. This method never waits for the end of a call.
    pub fn take(&mut self) -> Option<Reply> {
        Reply::of(&self.shared.lock().take(self.number))
    }

    /// Waits at most this long for a reply, or until the wait is ended.
    fn wait(
        &self,
        mut lock: MutexGuard<'_, Handle<ffi::l4_lock>>,
        limit: Duration,
    ) -> Option<Reply> {
        let begin = Instant::now();
        self.shared.ended().remove(&self.number);
        loop {
            if let Some(reply) = Reply::of(&lock.take(self.number)) {
                return Some(reply);
            }
            let left = limit.saturating_sub(begin.elapsed());
            if left.is_zero() || self.shared.ended().remove(&self.number) {
                return None;
            }
            lock = self
                .woken
                .wait_timeout(lock, left)
                .unwrap_or_else(PoisonError::into_inner)
                .0;
        }
    }

    /// Returns the number of calls that the seat has started.
    pub fn starts(&self) -> u64 {
        self.shared.lock().seat_of(self.number).starts
    }

    /// Returns the receipts that are kept, in the order in which the seat got them. [`SharedKernel::hand_out`] forgets the earlier ones.
    pub fn receipts(&self) -> Vec<Receipt> {
        let lock = self.shared.lock();
        (lock.seat_of(self.number).kept_from..)
            .map_while(|number| receipt_of(&lock.receipt(self.number, number as usize)))
            .collect()
    }
}

impl fmt::Debug for Seat {
    fn fmt(&self, out: &mut fmt::Formatter<'_>) -> fmt::Result {
        write!(out, "Seat({})", self.number)
    }
}

/// Returns the entries from this number on.
fn entries_of(lock: &Handle<ffi::l4_lock>, since: u64) -> Vec<Entry> {
    (since..lock.length().count)
        .map_while(|number| Entry::of(&lock.entry(number as usize)))
        .collect()
}

/// Returns the receipt that the library reports, or `None` if there is none.
fn receipt_of(told: &ffi::l4_receipt) -> Option<Receipt> {
    Some(Receipt {
        call: Call::told(&told.call, &told.words[..told.word_count as usize]),
        start: told.start,
        end: told.end,
        reply: Reply::of(&told.reply)?,
    })
}
