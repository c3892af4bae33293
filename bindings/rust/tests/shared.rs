//! Threads share a kernel.
use l4::{
    Call, Entry, ErrorCode, Fpage, Item, Message, PageSize, Place, Recorded, Refusal, Reply,
    Rights, Seat, SharedKernel, ThreadId, ThreadState, Timeout, Wait,
};
use std::thread;
use std::time::Duration;

fn id(number: u32) -> ThreadId {
    ThreadId::new(number, 1).unwrap()
}

fn create(number: u32, pager: ThreadId) -> Call {
    Call::create(id(number), id(number), pager)
}

fn receive(from: ThreadId) -> Call {
    Call::receive(from, Fpage::complete(Rights::NONE), Timeout::Never)
}

fn send(to: u32, message: &Message) -> Call {
    Call::send(id(to), message, Timeout::Never)
}

/// How many starts of this thread's calls there are.
fn starts(history: &[Entry], number: u32) -> usize {
    let own =
        |entry: &&Entry| matches!(entry.step, Recorded::Start { thread, .. } if thread == number);
    history.iter().filter(own).count()
}

/// Other threads act until the history has this many steps.
fn wait_for(kernel: &SharedKernel, steps: u64) {
    while kernel.steps() < steps {
        thread::yield_now();
    }
}

#[test]
fn a_fault_waits_for_its_pager() {
    let kernel = SharedKernel::new(256).unwrap();
    let [mut sigma0, mut root, mut pager, mut client] =
        [1, 2, 3, 4].map(|number| kernel.seat(number).unwrap());
    assert_eq!(root.call(&create(3, ThreadId::NIL)), Ok(Reply::Controlled));
    assert_eq!(root.call(&create(4, id(3))), Ok(Reply::Controlled));
    let page = Item::map(Fpage::page(16, Rights::ALL).unwrap(), 16 * l4::PAGE_BYTES);
    let message = Message::new(0, &[], &[page]).unwrap();
    let fault = Call::fault(0x10123, 0, Rights::READ);
    thread::scope(|threads| {
        let faults = threads.spawn(|| (client.call(&fault), client.call(&fault)));
        wait_for(&kernel, 3);
        threads.spawn(|| sigma0.call(&send(3, &message)));
        threads.spawn(|| {
            pager.call(&receive(ThreadId::SIGMA0)).unwrap();
            let asked = pager.call(&receive(id(4))).unwrap();
            assert_eq!(asked.received().unwrap().unwrap().untyped()[0], 0x10123);
            pager.call(&send(4, &message)).unwrap();
        });
        assert_eq!(
            faults.join().unwrap(),
            (Ok(Reply::Answered), Ok(Reply::Hit))
        );
    });
    let receipts = client.receipts();
    assert_eq!((receipts.len(), client.starts()), (2, 2));
    assert_eq!(
        (receipts[0].start, &receipts[0].reply),
        (2, &Reply::Answered)
    );
    let steps = kernel.steps();
    let history = kernel.close(vec![root, client, pager, sigma0]).unwrap();
    assert_eq!(history.len() as u64, steps);
    assert_eq!(
        history[0].to_string(),
        "start 2 create 0x0000c001 0x0000c001 0x00000000"
    );
    assert_eq!(
        history[2].to_string(),
        "start 4 fault 0x00010123 0x00000000 0x00000004"
    );
    assert_eq!(
        history[receipts[0].end as usize].to_string(),
        "transfer 3 4"
    );
}

/// Seven threads send 100 messages each, and one receives them.
fn storm(kernel: &SharedKernel) -> Vec<Seat> {
    let mut root = kernel.seat(2).unwrap();
    for number in 3..=10 {
        root.call(&create(number, ThreadId::NIL)).unwrap();
    }
    let mut seats = thread::scope(|threads| {
        let parties: Vec<_> = (3..=10)
            .map(|number| {
                let mut seat = kernel.seat(number).unwrap();
                threads.spawn(move || {
                    let message = Message::new(0, &[number], &[]).unwrap();
                    let (call, count) = if number == 3 {
                        (receive(ThreadId::ANY), 700)
                    } else {
                        (send(3, &message), 100)
                    };
                    for _ in 0..count {
                        seat.call(&call).unwrap();
                    }
                    seat
                })
            })
            .collect();
        parties
            .into_iter()
            .map(|party| party.join().unwrap())
            .collect::<Vec<Seat>>()
    });
    seats.push(root);
    seats
}

#[test]
fn many_threads_send_to_one() {
    let kernel = SharedKernel::new(1).unwrap();
    let seats = storm(&kernel);
    assert_eq!(kernel.steps(), 2108);
    let counts: Vec<(u32, u64)> = seats
        .iter()
        .map(|seat| (seat.number(), seat.starts()))
        .collect();
    let history = kernel.close(seats).unwrap();
    assert_eq!(history.len(), 2108);
    for (number, count) in counts {
        let wanted = match number {
            2 => 8,
            3 => 700,
            _ => 100,
        };
        assert_eq!(
            (number, count, starts(&history, number)),
            (number, wanted, wanted as usize)
        );
    }
    let transfers = history
        .iter()
        .filter(|entry| matches!(entry.step, Recorded::Next(_)));
    assert_eq!(transfers.count(), 700);
}

#[test]
fn a_thread_hands_out_segments_meanwhile() {
    let kernel = SharedKernel::new(1).unwrap();
    let (seats, segments) = thread::scope(|threads| {
        let collects = threads.spawn(|| {
            let mut segments = Vec::new();
            while kernel.steps() < 2108 {
                segments.push(kernel.hand_out().unwrap());
            }
            segments
        });
        let seats = storm(&kernel);
        (seats, collects.join().unwrap())
    });
    let mut entries: Vec<Entry> = Vec::new();
    for segment in &segments {
        assert_eq!(segment.first(), entries.len() as u64);
        entries.extend(segment.entries());
    }
    let rest = kernel.close(seats).unwrap();
    entries.extend(rest);
    assert_eq!(entries.len(), 2108);
    for number in 4..=10 {
        assert_eq!(starts(&entries, number), 100);
    }
}

#[test]
fn a_kernel_without_a_history_drops_its_steps() {
    let kernel = SharedKernel::without_history(1, PageSize::Kib4).unwrap();
    let seats = storm(&kernel);
    assert_eq!(kernel.steps(), 2108);
    assert!(kernel.history().len() < 1024);
    assert_eq!(kernel.entries(0).unwrap_err(), Refusal::HandedOut);
    assert_eq!(kernel.provenance(0, 0).unwrap_err(), Refusal::HandedOut);
    assert!(seats.iter().all(|seat| seat.starts() >= 7));
    let kept: usize = seats.iter().map(|seat| seat.receipts().len()).sum();
    assert!(kept < 1024, "{kept} receipts");
    assert!(kernel.close(seats).is_ok());
}

/// The file of a segment that begins with entry 1, of a kernel with one frame: "LSG4", the version, the frames, the bytes of a page, and the
/// number of the first entry.
const HEADING: [u8; 24] = [
    76, 83, 71, 52, 1, 0, 0, 0, 1, 0, 0, 0, 0, 16, 0, 0, 1, 0, 0, 0, 0, 0, 0, 0,
];

#[test]
fn receipts_and_steps_of_later_calls_continue_their_numbers() {
    let kernel = SharedKernel::new(1).unwrap();
    let mut root = kernel.seat(2).unwrap();
    root.call(&create(3, ThreadId::NIL)).unwrap();
    let first = kernel.hand_out().unwrap();
    assert_eq!(
        (first.first(), first.len(), first.is_empty()),
        (0, 1, false)
    );
    assert_eq!(
        (kernel.history().len(), root.receipts().len(), root.starts()),
        (0, 0, 1)
    );
    root.call(&Call::delete(id(3))).unwrap();
    let receipts = root.receipts();
    assert_eq!(
        (receipts.len(), receipts[0].start, receipts[0].end),
        (1, 1, 1)
    );
    assert_eq!(kernel.provenance(0, 0), Err(Refusal::HandedOut));
    assert_eq!(kernel.check_provenance(0, 0, &[]), Err(Refusal::HandedOut));
    let second = kernel.hand_out().unwrap();
    assert_eq!((second.first(), second.len()), (1, 1));
    assert_eq!(second.to_bytes().unwrap()[..24], HEADING);
    assert!(kernel.hand_out().unwrap().is_empty());
    assert_eq!(kernel.close(vec![root]).unwrap().len(), 0);
    assert_eq!(second.entries().count(), 1);
}

#[test]
fn later_steps_are_read_alone() {
    let kernel = SharedKernel::new(256).unwrap();
    let mut root = kernel.seat(2).unwrap();
    for number in 3..6 {
        root.call(&create(number, ThreadId::NIL)).unwrap();
    }
    let history = kernel.history();
    assert_eq!(history.len(), 3);
    assert_eq!(kernel.entries(0).unwrap(), history);
    assert_eq!(kernel.entries(2).unwrap(), history[2..]);
    assert_eq!(kernel.entries(3), Ok(Vec::new()));
    assert_eq!(kernel.entries(u64::MAX), Ok(Vec::new()));
    assert_eq!(kernel.entry(1).unwrap().as_ref(), Some(&history[1]));
    assert_eq!(kernel.entry(3), Ok(None));
    kernel.hand_out().unwrap();
    root.call(&create(6, ThreadId::NIL)).unwrap();
    assert_eq!(kernel.entries(2), Err(Refusal::HandedOut));
    assert_eq!(kernel.entry(2), Err(Refusal::HandedOut));
    assert_eq!(kernel.entries(3).unwrap(), kernel.history());
    assert_eq!(kernel.history().len(), 1);
}

#[test]
fn a_call_goes_on_after_its_wait() {
    let kernel = SharedKernel::new(1).unwrap();
    let [mut sigma0, mut root] = [1, 2].map(|number| kernel.seat(number).unwrap());
    let any = receive(ThreadId::ANY);
    let short = Duration::from_millis(1);
    assert_eq!(root.call_for(&any, short), Ok(None));
    assert_eq!(root.call(&any), Err(Refusal::StillWaiting));
    assert_eq!((root.take(), root.wait_for(short)), (None, None));
    thread::scope(|threads| {
        let waits = threads.spawn(|| root.wait_for(Duration::from_secs(100)));
        while !waits.is_finished() {
            kernel.end_wait(2);
            thread::yield_now();
        }
        assert_eq!(waits.join().unwrap(), None);
    });
    let message = Message::new(0, &[5], &[]).unwrap();
    sigma0.call(&send(2, &message)).unwrap();
    assert_eq!(root.call_for(&any, short), Err(Refusal::ReplyWaiting));
    let reply = root.wait_for(short).unwrap();
    assert_eq!(reply.received().unwrap().unwrap().untyped(), [5]);
    assert_eq!(root.take(), None);
    kernel.end_wait(2);
    assert_eq!(
        root.call_for(&create(3, ThreadId::NIL), short),
        Ok(Some(Reply::Controlled))
    );
    assert_eq!(kernel.close(vec![sigma0, root]).unwrap().len(), 4);
}

#[test]
fn the_wait_of_a_call_can_be_ended() {
    let kernel = SharedKernel::new(1).unwrap();
    let [mut sigma0, mut root] = [1, 2].map(|number| kernel.seat(number).unwrap());
    thread::scope(|threads| {
        let waits = threads.spawn(|| root.call(&receive(ThreadId::ANY)));
        let other = kernel.clone();
        while !waits.is_finished() {
            other.end_wait(2);
            thread::yield_now();
        }
        assert_eq!(waits.join().unwrap(), Err(Refusal::StillWaiting));
    });
    let message = Message::new(0, &[5], &[]).unwrap();
    sigma0.call(&send(2, &message)).unwrap();
    let reply = root.take().unwrap();
    assert_eq!(reply.received().unwrap().unwrap().untyped(), [5]);
    assert_eq!(kernel.close(vec![sigma0, root]).unwrap().len(), 3);
}

#[test]
fn a_clone_of_a_closed_kernel_finds_nothing() {
    let kernel = SharedKernel::new(1).unwrap();
    let other = kernel.clone();
    let mut root = other.seat(2).unwrap();
    root.call(&create(3, ThreadId::NIL)).unwrap();
    assert_eq!((kernel.threads().len(), other.threads().len()), (3, 3));
    assert_eq!(kernel.close(vec![root]).unwrap().len(), 1);
    assert_eq!((other.thread(2), other.mapping(0, 0)), (None, None));
    assert_eq!((other.threads(), other.spaces()), (vec![], vec![]));
    assert_eq!((other.reply(2), other.history()), (None, vec![]));
    assert_eq!((other.steps(), other.page_size()), (1, PageSize::Kib4));
    assert_eq!(other.entry(0), Err(Refusal::EmptyHandle));
    assert_eq!(other.entries(0), Err(Refusal::EmptyHandle));
    assert_eq!(other.seat(2).unwrap_err(), Refusal::EmptyHandle);
    assert_eq!(other.copy().unwrap_err(), Refusal::EmptyHandle);
    assert_eq!(other.hand_out().unwrap_err(), Refusal::EmptyHandle);
    assert_eq!(other.provenance(0, 0), Err(Refusal::EmptyHandle));
    other.end_wait(2);
}

#[test]
fn a_copy_answers_as_the_kernel_does() {
    let kernel = SharedKernel::new(256).unwrap();
    let [mut sigma0, mut root, mut first] = [1, 2, 3].map(|number| kernel.seat(number).unwrap());
    root.call(&create(3, ThreadId::NIL)).unwrap();
    let map = Item::map(Fpage::page(16, Rights::ALL).unwrap(), 32 * l4::PAGE_BYTES);
    moves(&mut sigma0, &mut first, map);
    let copy = kernel.copy().unwrap();
    assert_eq!(copy.mapping(2, 32).unwrap().frame, 16);
    assert_eq!(copy.threads().len(), 3);
    root.call(&Call::delete(id(3))).unwrap();
    assert_eq!(copy.threads().len(), 3);
    assert_eq!(kernel.copy().unwrap().threads().len(), 2);
    assert!(kernel.close(vec![sigma0, root, first]).is_ok());
}

#[test]
fn a_deleted_thread_is_gone() {
    let kernel = SharedKernel::new(1).unwrap();
    let (mut root, mut waiting) = (kernel.seat(2).unwrap(), kernel.seat(3).unwrap());
    root.call(&create(3, ThreadId::NIL)).unwrap();
    thread::scope(|threads| {
        let waits = threads.spawn(|| waiting.call(&receive(ThreadId::ANY)));
        wait_for(&kernel, 2);
        assert_eq!(root.call(&Call::delete(id(3))), Ok(Reply::Controlled));
        assert_eq!(waits.join().unwrap(), Ok(Reply::Gone));
    });
    assert_eq!(
        waiting.call(&receive(ThreadId::ANY)),
        Err(Refusal::NoSuchThread)
    );
    assert_eq!(kernel.close(vec![waiting, root]).unwrap().len(), 3);
}

/// One seat sends an item to another's thread, which receives it.
fn moves(sender: &mut Seat, receiver: &mut Seat, item: Item) {
    let message = Message::new(0, &[], &[item]).unwrap();
    let to = receiver.number();
    thread::scope(|threads| {
        threads.spawn(|| receiver.call(&receive(ThreadId::ANY)).unwrap());
        sender.call(&send(to, &message)).unwrap();
    });
}

#[test]
fn a_page_came_by_two_links() {
    let kernel = SharedKernel::new(256).unwrap();
    let [mut sigma0, mut root, mut first, mut second] =
        [1, 2, 3, 4].map(|number| kernel.seat(number).unwrap());
    root.call(&create(3, ThreadId::NIL)).unwrap();
    root.call(&create(4, ThreadId::NIL)).unwrap();
    let page = |page, rights| Fpage::page(page, rights).unwrap();
    let map = Item::map(page(16, Rights::ALL), 32 * l4::PAGE_BYTES);
    moves(&mut sigma0, &mut first, map);
    let grant = Item::grant(page(32, Rights::READ), 7 * l4::PAGE_BYTES);
    moves(&mut first, &mut second, grant);
    let links = kernel.provenance(3, 7).unwrap().unwrap();
    let lines: Vec<_> = links.iter().map(|link| link.to_string()).collect();
    assert_eq!(
        lines,
        [
            "entry 4 transfer 1 3 map 16 32 rwx rwx",
            "entry 7 transfer 3 4 grant 32 7 rwx r--"
        ]
    );
    assert_eq!(links[1].source, Place { space: 2, page: 32 });
    assert_eq!(kernel.check_provenance(3, 7, &links), Ok(()));
    for others in [&links[..1], &links[1..], &[]] {
        let refused = kernel.check_provenance(3, 7, others);
        assert_eq!(refused, Err(Refusal::OtherProvenance));
    }
    assert_eq!(kernel.provenance(2, 32), Ok(None));
    assert_eq!(kernel.provenance(0, 16), Ok(Some(Vec::new())));
}

#[test]
fn a_page_came_by_many_links() {
    let kernel = SharedKernel::new(1).unwrap();
    let (mut sigma0, mut root) = (kernel.seat(1).unwrap(), kernel.seat(2).unwrap());
    let page = Fpage::page(0, Rights::ALL).unwrap();
    for _ in 0..10 {
        moves(&mut sigma0, &mut root, Item::grant(page, 0));
        moves(&mut root, &mut sigma0, Item::grant(page, 0));
    }
    let links = kernel.provenance(0, 0).unwrap().unwrap();
    assert_eq!(links.len(), 20);
    assert_eq!((links[0].entry, links[19].entry), (2, 59));
    assert_eq!(kernel.check_provenance(0, 0, &links), Ok(()));
}

#[test]
fn a_seat_calls_again_after_a_wait_that_ended() {
    let kernel = SharedKernel::new(1).unwrap();
    let (mut sigma0, mut root) = (kernel.seat(1).unwrap(), kernel.seat(2).unwrap());
    let waiting = receive(ThreadId::ANY);
    // the timeout of a call passes
    let late = root
        .call_within(&waiting, Duration::from_millis(1))
        .unwrap();
    assert_eq!(late.received(), Some(Err(ErrorCode::RECEIVE_TIMEOUT)));
    // another thread cancels the wait of a call
    thread::scope(|threads| {
        let canceled = threads.spawn(|| root.call(&waiting).unwrap());
        wait_for(&kernel, 3);
        kernel.cancel(2).unwrap();
        let reply = canceled.join().unwrap();
        assert_eq!(reply.received(), Some(Err(ErrorCode::RECEIVE_CANCELED)));
    });
    // the same in a send phase
    let message = Message::new(0, &[5], &[]).unwrap();
    assert_eq!(
        sigma0.call_for(&send(2, &message), Duration::ZERO),
        Ok(None)
    );
    kernel.timeout(1).unwrap();
    let reply = sigma0.take().unwrap();
    assert_eq!(reply.received(), Some(Err(ErrorCode::SEND_TIMEOUT)));
    // threads that run, and a thread that does not exist
    for number in [1, 2, 3] {
        assert_eq!(kernel.cancel(number), Err(Refusal::NotEnabled));
    }
    // both seats call again
    assert_eq!(root.call_for(&waiting, Duration::ZERO), Ok(None));
    sigma0.call(&send(2, &message)).unwrap();
    assert_eq!(
        root.take().unwrap().received().unwrap().unwrap().untyped(),
        [5]
    );
    let ends: Vec<(u32, String)> = kernel
        .history()
        .iter()
        .filter(|entry| entry.seat == 0)
        .map(|entry| (entry.seat, entry.to_string()))
        .collect();
    let expected = ["timeout 2", "cancel 2", "timeout 1"].map(|line| (0, line.to_string()));
    assert_eq!(ends, expected);
    assert_eq!(kernel.close(vec![root, sigma0]).unwrap().len(), 9);
}

#[test]
fn a_server_thread_shuts_down() {
    let kernel = SharedKernel::new(1).unwrap();
    let (mut sigma0, mut root) = (kernel.seat(1).unwrap(), kernel.seat(2).unwrap());
    thread::scope(|threads| {
        let server = threads.spawn(|| {
            // receives until its receive is canceled, and returns how many messages came
            let mut messages = 0;
            while let Some(Ok(_)) = root.call(&receive(ThreadId::ANY)).unwrap().received() {
                messages += 1;
            }
            messages
        });
        let message = Message::new(0, &[5], &[]).unwrap();
        for _ in 0..2 {
            sigma0.call(&send(2, &message)).unwrap();
        }
        while kernel.cancel(2).is_err() {
            thread::yield_now();
        }
        assert_eq!(server.join().unwrap(), 2);
    });
}

#[test]
fn a_seat_is_missing() {
    let kernel = SharedKernel::new(1).unwrap();
    let (root, third) = (kernel.seat(2).unwrap(), kernel.seat(3).unwrap());
    assert_eq!(kernel.seat(3).unwrap_err(), Refusal::SeatTaken);
    let unclosed = kernel.close(vec![root]).unwrap_err();
    assert_eq!(unclosed.refusal, Refusal::SeatMissing(3));
    let other = SharedKernel::new(1).unwrap();
    let foreign = other.seat(3).unwrap();
    let mut seats = unclosed.seats;
    seats.push(foreign);
    let unclosed = unclosed.kernel.close(seats).unwrap_err();
    assert_eq!(unclosed.refusal, Refusal::SeatForeign(3));
    let mut seats = unclosed.seats;
    seats.pop();
    seats.push(third);
    assert_eq!(unclosed.kernel.close(seats).unwrap(), []);
}

#[test]
fn a_shared_kernel_is_sent_and_shared() {
    fn shared<T: Send + Sync>() {}
    shared::<SharedKernel>();
    shared::<Seat>();
    assert_eq!(SharedKernel::new(0).unwrap_err(), Refusal::FrameCount);
}

#[test]
fn a_shared_kernel_answers_queries() {
    let kernel = SharedKernel::new(256).expect("a kernel");
    let (mut sigma0, mut root) = (
        kernel.seat(1).expect("a seat"),
        kernel.seat(2).expect("a seat"),
    );
    let everywhere = Fpage::complete(Rights::NONE);
    let receive = Call::receive(ThreadId::SIGMA0, everywhere, Timeout::Never);
    assert_eq!(root.call_for(&receive, Duration::ZERO), Ok(None));
    let wait = Wait {
        partner: ThreadId::SIGMA0,
        expires: false,
        fault: false,
    };
    let waiting = kernel.thread(2).expect("root exists");
    assert_eq!(waiting.state, ThreadState::Receiving(wait));
    assert_eq!((waiting.id, waiting.space), (ThreadId::ROOT, 1));
    assert_eq!((waiting.pager, kernel.reply(2)), (ThreadId::SIGMA0, None));
    let page = Fpage::page(16, Rights::ALL).expect("a page");
    let message = Message::new(0, &[], &[Item::map(page, 0x20000)]).expect("a message");
    let send = Call::send(ThreadId::ROOT, &message, Timeout::Never);
    assert!(waiting.waits() && !root.poll());
    sigma0.call(&send).expect("a reply");
    assert!(root.poll() && !sigma0.poll());
    assert_eq!(
        (kernel.threads(), kernel.threads_in(1)),
        (vec![1, 2], vec![2])
    );
    assert_eq!((kernel.spaces(), kernel.space_of(3)), (vec![0, 1], None));
    assert_eq!(kernel.page_size(), PageSize::Kib4);
    let mapping = kernel.mapping(1, 32).expect("the page is present");
    assert_eq!((mapping.frame, kernel.next_page(1, 33)), (16, None));
    assert_eq!(kernel.mappings(1), [mapping]);
    let descends = Place { space: 1, page: 32 };
    assert_eq!(kernel.descendants(0, 16), Ok(vec![descends]));
    assert_eq!(
        kernel.thread(2).map(|root| root.state),
        Some(ThreadState::Running)
    );
    assert!(kernel.reply(2).is_some() && root.take().is_some() && !root.poll());
    assert_eq!(kernel.thread(3), None);
}
