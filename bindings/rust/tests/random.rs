//! After each of many random calls: each page has the frame of its parent and no more rights, what descends from it are the pages below it, a
//! refused call has changed nothing, and a copy of the kernel and one that was read from a checkpoint have done the same. Between calls, waits
//! of threads end by a timeout or a cancel. Threads of the program make such calls of one shared kernel too, while one thread ends waits.
use l4::*;
use std::collections::BTreeMap;
use std::thread;
use std::time::Duration;

const FRAMES: u32 = 16;
const THREADS: u32 = 6;

fn id(number: u32) -> ThreadId {
    ThreadId::new(number, 1).unwrap()
}

/// Pseudo-random numbers (xorshift), and calls made from them.
struct Random(u64);

impl Random {
    fn below(&mut self, bound: u32) -> u32 {
        self.0 ^= self.0 << 13;
        self.0 ^= self.0 >> 7;
        self.0 ^= self.0 << 17;
        (self.0 >> 32) as u32 % bound
    }

    fn thread(&mut self) -> u32 {
        1 + self.below(THREADS)
    }

    fn rights(&mut self) -> Rights {
        Rights::of_bits(self.below(8))
    }

    fn fpage(&mut self) -> Fpage {
        let log = self.below(4);
        let first = self.below(FRAMES >> log) << log;
        let rights = match self.below(2) {
            0 => Rights::ALL,
            _ => self.rights(),
        };
        Fpage::pages(first, log as u8, rights).unwrap()
    }

    fn message(&mut self) -> Message {
        let items: Vec<Item> = (0..1 + self.below(3))
            .map(|_| {
                let base = self.below(FRAMES) * PAGE_BYTES;
                match self.below(8) {
                    0 => Item::grant(self.fpage(), base),
                    _ => Item::map(self.fpage(), base),
                }
            })
            .collect();
        Message::new(0, &[7], &items).unwrap()
    }

    /// One thread receives from any, and another one, often sigma0, sends it pages.
    fn handover(&mut self) -> Vec<(u32, Call)> {
        let receiver = self.thread();
        let sender = match self.below(3) {
            0 => 1,
            _ => self.thread(),
        };
        let receive = Call::receive(ThreadId::ANY, WINDOW, Timeout::Never);
        let send = Call::send(id(receiver), &self.message(), Timeout::Zero);
        vec![(receiver, receive), (sender, send)]
    }

    fn call(&mut self) -> Call {
        let wait = match self.below(2) {
            0 => Timeout::Zero,
            _ => Timeout::Never,
        };
        let to = id(self.thread());
        match self.below(8) {
            0 | 1 => Call::reply_and_wait(to, &self.message(), WINDOW, Timeout::Zero, wait),
            2 => Call::send(to, &self.message(), wait),
            3 => Call::fault(self.below(FRAMES) * PAGE_BYTES, 0, self.rights()),
            4 => Call::unmap(&[self.fpage()], self.below(4) == 0).unwrap(),
            5 => Call::delete(to),
            6 => Call::set_pager(to, id(self.thread())),
            _ => Call::create(to, id(self.thread()), id(self.thread())),
        }
    }
}

const WINDOW: Fpage = Fpage::complete(Rights::NONE);

/// The threads with their spaces and replies, and all mappings.
#[derive(PartialEq, Debug)]
struct State {
    threads: Vec<(u32, Option<u64>, Option<Reply>)>,
    mappings: Vec<Mapping>,
}

fn state(kernel: &Kernel) -> State {
    let thread = |number| (number, kernel.space_of(number), kernel.reply(number));
    let spaces = kernel.spaces().into_iter();
    State {
        threads: kernel.threads().into_iter().map(thread).collect(),
        mappings: spaces.flat_map(|space| kernel.mappings(space)).collect(),
    }
}

fn check_parents(kernel: &Kernel, mappings: &[Mapping]) {
    for mapping in mappings {
        assert!(mapping.frame < FRAMES && !mapping.rights.is_empty());
        let Some(place) = mapping.parent else {
            continue;
        };
        let parent = kernel.mapping(place.space, place.page);
        let parent = parent.unwrap_or_else(|| panic!("{mapping:?} has lost its parent"));
        assert_eq!(parent.frame, mapping.frame, "{parent:?} {mapping:?}");
        let rights = parent.rights.contains(mapping.rights);
        assert!(rights, "{parent:?} {mapping:?}");
    }
}

/// The pages that descend from a page are those whose parents lead to it.
fn check_descendants(kernel: &Kernel, mappings: &[Mapping]) {
    let parents: BTreeMap<Place, Option<Place>> = mappings
        .iter()
        .map(|mapping| (mapping.place, mapping.parent))
        .collect();
    let mut below: BTreeMap<Place, Vec<Place>> = BTreeMap::new();
    for &place in parents.keys() {
        let mut above = parents[&place];
        while let Some(page) = above {
            below.entry(page).or_default().push(place);
            above = parents[&page];
        }
    }
    for place in parents.keys() {
        let mut found = kernel.descendants(place.space, place.page).unwrap();
        found.sort_unstable();
        assert_eq!(found, below.remove(place).unwrap_or_default(), "{place:?}");
    }
}

fn creates() -> impl Iterator<Item = Call> {
    (3..=THREADS).map(|number| Call::create(id(number), id(number), ThreadId::ROOT))
}

/// A kernel with all threads, each of them in a space of its own.
fn boot() -> Kernel {
    let mut kernel = Kernel::boot(FRAMES).unwrap();
    for create in creates() {
        kernel.enter(2, &create).unwrap();
    }
    kernel
}

/// Makes a call, and checks what must hold then. Returns the transfers that it led to, or nothing if it was refused.
fn check_call(kernel: &mut Kernel, thread: u32, call: &Call) -> Option<usize> {
    let before = state(kernel);
    let checkpoint = kernel.checkpoint(0).unwrap();
    let (mut read, _) = Kernel::from_checkpoint(&checkpoint).unwrap();
    let mut copy = kernel.copy().unwrap();
    let entered = kernel.enter(thread, call);
    let after = state(kernel);
    assert_eq!(entered, copy.enter(thread, call), "{thread} {call:?}");
    assert_eq!(after, state(&copy), "{thread} {call:?}");
    assert_eq!(entered, read.enter(thread, call), "{thread} {call:?}");
    assert_eq!(after, state(&read), "{thread} {call:?}");
    assert_eq!(kernel.changes_since(&copy), []);
    assert_eq!(kernel.enabled(), None, "{thread} {call:?}");
    check_parents(kernel, &after.mappings);
    check_descendants(kernel, &after.mappings);
    let Ok(entered) = entered else {
        assert_eq!(before, after, "{thread} {call:?}");
        assert_eq!(kernel.checkpoint(0).unwrap(), checkpoint);
        return None;
    };
    let is_delivered = |done: &&Done| done.outcome == Outcome::Delivered;
    Some(entered.steps.iter().filter(is_delivered).count())
}

/// Ends the wait of a thread, and checks that only its call has ended. Returns whether it waited.
fn check_end(kernel: &mut Kernel, number: u32, is_late: bool) -> bool {
    let (before, thread) = (state(kernel), kernel.thread(number));
    let ended = match is_late {
        true => kernel.timeout(number),
        false => kernel.cancel(number),
    };
    let after = state(kernel);
    assert_eq!(before.mappings, after.mappings);
    assert_eq!(kernel.enabled(), None);
    let Some(thread) = thread.filter(Thread::waits) else {
        assert_eq!(ended, Err(Refusal::NotEnabled), "{number}");
        assert_eq!(before, after);
        return false;
    };
    let (outcome, ends) = (Outcome::WaitEnded, vec![number]);
    assert_eq!(ended.map(|it| (it.outcome, it.ended)), Ok((outcome, ends)));
    let (wait, code) = match (thread.state, is_late) {
        (ThreadState::Sending(wait), true) => (wait, ErrorCode::SEND_TIMEOUT),
        (ThreadState::Sending(wait), false) => (wait, ErrorCode::SEND_CANCELED),
        (ThreadState::Receiving(wait), true) => (wait, ErrorCode::RECEIVE_TIMEOUT),
        (ThreadState::Receiving(wait), false) => (wait, ErrorCode::RECEIVE_CANCELED),
        other => panic!("{other:?}"),
    };
    let wanted = Some(match wait.fault {
        true => Reply::Failed(code),
        false => Reply::Ipc(Received {
            tag: 0x8000,
            error: Some(code),
            from: ThreadId::NIL,
            words: vec![],
        }),
    });
    for (old, new) in before.threads.iter().zip(&after.threads) {
        let reply = if old.0 == number { &wanted } else { &old.2 };
        assert_eq!((old.0, old.1, reply), (new.0, new.1, &new.2));
    }
    true
}

#[test]
fn random_calls_keep_what_must_hold() {
    let mut random = Random(0x1234_5678_9abc_def1);
    let (mut refused, mut delivered, mut ended) = (0, 0, 0);
    for _ in 0..100 {
        let mut kernel = boot();
        for _ in 0..30 {
            if random.below(4) == 0 {
                let (thread, is_late) = (random.thread(), random.below(2) == 0);
                ended += usize::from(check_end(&mut kernel, thread, is_late));
            }
            let calls = match random.below(2) {
                0 => vec![(random.thread(), random.call())],
                _ => random.handover(),
            };
            for (thread, call) in calls {
                match check_call(&mut kernel, thread, &call) {
                    Some(count) => delivered += count,
                    None => refused += 1,
                }
            }
        }
    }
    // the calls are of all kinds
    assert!(
        refused > 500 && delivered > 500 && ended > 100,
        "{refused} {delivered} {ended}"
    );
}

/// Makes random calls under a seat, and waits for none of them. Returns the number of replies.
fn act(seat: &mut Seat, mut random: Random) -> usize {
    let mut replies = 0;
    for _ in 0..200 {
        // if an earlier call waits, this one is refused
        let call = match random.below(2) {
            0 => random.call(),
            _ => Call::receive(ThreadId::ANY, WINDOW, Timeout::Never),
        };
        let at_once = matches!(seat.call_for(&call, Duration::ZERO), Ok(Some(_)));
        replies += usize::from(at_once) + usize::from(seat.take().is_some());
    }
    replies
}

/// Executes the steps of a history on a new kernel.
fn replay(history: &[Entry]) -> Kernel {
    let mut kernel = Kernel::boot(FRAMES).unwrap();
    for entry in history {
        let answer = match &entry.step {
            Recorded::Start { thread, call } => kernel.start(*thread, call),
            Recorded::Next(Step::Transfer { sender, receiver }) => {
                kernel.transfer(*sender, *receiver)
            }
            Recorded::Next(Step::Expire { thread }) => kernel.expire(*thread),
            Recorded::Timeout { thread } => kernel.timeout(*thread),
            Recorded::Cancel { thread } => kernel.cancel(*thread),
            other => panic!("{other:?}"),
        };
        let answer = answer.unwrap();
        assert_eq!(
            (answer.outcome, answer.ended),
            (entry.outcome, entry.ended.clone())
        );
    }
    kernel
}

/// Ends waits of random threads. Returns how many.
fn end_waits(kernel: &SharedKernel, mut random: Random) -> usize {
    let mut ended = 0;
    for _ in 0..200 {
        let thread = random.thread();
        let end = match random.below(2) {
            0 => kernel.timeout(thread),
            _ => kernel.cancel(thread),
        };
        assert!(matches!(end, Ok(()) | Err(Refusal::NotEnabled)), "{end:?}");
        ended += usize::from(end.is_ok());
        thread::yield_now();
    }
    ended
}

/// Threads of the program make random calls of one kernel at the same time, and one ends waits. Returns the seats, the numbers of their replies, and
/// the number of waits that were ended.
fn storm(kernel: &SharedKernel, round: u64) -> (Vec<Seat>, Vec<usize>, usize) {
    let mut seats: Vec<Seat> = (1..=THREADS)
        .map(|number| kernel.seat(number).unwrap())
        .collect();
    for create in creates() {
        seats[1].call(&create).unwrap();
    }
    let (mut replies, ended) = thread::scope(|threads| {
        let ending = threads.spawn(|| end_waits(kernel, Random(0x1234_5678_9abc_def1 ^ round)));
        let running: Vec<_> = seats
            .iter_mut()
            .map(|seat| {
                let seed = 0x1234_5678_9abc_def1 ^ round << 8 ^ u64::from(seat.number());
                threads.spawn(move || act(seat, Random(seed)))
            })
            .collect();
        let joined = running.into_iter().map(|thread| thread.join().unwrap());
        (joined.collect::<Vec<usize>>(), ending.join().unwrap())
    });
    replies[1] += creates().count();
    (seats, replies, ended)
}

/// Some pages have a provenance from sigma0's page of their frame, and a shorter list is refused.
fn check_provenance(kernel: &SharedKernel, mappings: &[Mapping]) {
    for mapping in mappings.iter().rev().take(20) {
        let Place { space, page } = mapping.place;
        let links = kernel.provenance(space, page).unwrap().unwrap();
        assert_eq!(kernel.check_provenance(space, page, &links), Ok(()));
        let Some((first, rest)) = links.split_first() else {
            continue;
        };
        assert_eq!((first.source.space, first.source.page), (0, mapping.frame));
        let shorter = kernel.check_provenance(space, page, rest);
        assert_eq!(shorter, Err(Refusal::OtherProvenance));
    }
}

#[test]
fn threads_make_random_calls_of_one_kernel() {
    for round in 1..=10 {
        let kernel = SharedKernel::new(FRAMES).unwrap();
        let (seats, replies, ended) = storm(&kernel, round);
        let copy = kernel.copy().unwrap();
        let mappings = state(&copy).mappings;
        check_parents(&copy, &mappings);
        check_descendants(&copy, &mappings);
        check_provenance(&kernel, &mappings);
        let receipts = seats.iter().map(|seat| seat.receipts().len());
        assert_eq!(receipts.collect::<Vec<_>>(), replies);
        let history = kernel.close(seats).unwrap();
        assert_eq!(
            history.iter().filter(|entry| entry.seat == 0).count(),
            ended
        );
        let replayed = replay(&history);
        assert_eq!(replayed.changes_since(&copy), []);
        assert_eq!(replayed.checkpoint(0).unwrap(), copy.checkpoint(0).unwrap());
    }
}
