//! Each call of the crate on a kernel, and what a caller can't do.
use l4::*;

const WINDOW: Fpage = Fpage::complete(Rights::NONE);

fn id(number: u32) -> ThreadId {
    ThreadId::new(number, 1).unwrap()
}

fn message(words: &[u32]) -> Message {
    Message::of_words(words).unwrap()
}

/// A kernel whose thread 3, in space 2, shows page 16 of sigma0's as its page 32.
fn delivered() -> Kernel {
    let mut kernel = Kernel::boot(256).unwrap();
    let answer = kernel
        .start(2, &Call::create(id(3), id(3), ThreadId::ROOT))
        .unwrap();
    assert_eq!((answer.outcome, answer.ended), (Outcome::Started, vec![2]));
    let answer = kernel
        .start(3, &Call::receive(ThreadId::ANY, WINDOW, Timeout::Never))
        .unwrap();
    assert_eq!(answer.ended, []);
    assert_eq!(kernel.enabled(), None);
    kernel
        .start(
            1,
            &Call::send(id(3), &message(&[0x80, 0x20008, 0x100c7]), Timeout::Never),
        )
        .unwrap();
    assert_eq!(
        kernel.enabled(),
        Some(Step::Transfer {
            sender: 1,
            receiver: 3
        })
    );
    let answer = kernel.transfer(1, 3).unwrap();
    assert_eq!(
        (answer.outcome, answer.ended),
        (Outcome::Delivered, vec![1, 3])
    );
    kernel
}

#[test]
fn a_kernel_boots_with_its_frames() {
    assert_eq!(Kernel::boot(0).unwrap_err(), Refusal::FrameCount);
    assert_eq!(
        Kernel::boot(MAX_FRAMES + 1).unwrap_err(),
        Refusal::FrameCount
    );
    let kernel = Kernel::boot(MAX_FRAMES).unwrap();
    assert_eq!(kernel.mappings(0).count(), MAX_FRAMES as usize);
    assert_eq!(kernel.mappings(1).count(), 0);
    assert_eq!(
        (kernel.space_of(1), kernel.space_of(2), kernel.space_of(3)),
        (Some(0), Some(1), None)
    );
    assert_eq!(kernel.reply(1), None);
}

#[test]
fn a_kernel_may_have_small_pages() {
    assert_eq!(
        Kernel::boot_sized(0, PageSize::Kib1).unwrap_err(),
        Refusal::FrameCount
    );
    let mut kernel = Kernel::boot_sized(256, PageSize::Kib1).unwrap();
    assert_eq!(kernel.page_size(), PageSize::Kib1);
    assert_eq!(Kernel::boot(1).unwrap().page_size(), PageSize::Kib4);
    kernel
        .start(2, &Call::receive(ThreadId::ANY, WINDOW, Timeout::Never))
        .unwrap();
    let last = PageSize::Kib1.space_pages() - 1;
    let page = PageSize::Kib1.fpage(16, 0, Rights::READ).unwrap();
    let item = Item::map(page, last * PageSize::Kib1.bytes());
    let sent = Message::new(0, &[], &[item]).unwrap();
    kernel
        .enter(1, &Call::send(ThreadId::ROOT, &sent, Timeout::Never))
        .unwrap();
    let mut mappings = kernel.mappings(1);
    let mapping = mappings.next().unwrap();
    assert_eq!((mapping.place.page, mapping.frame), (last, 16));
    assert_eq!((mappings.next(), mappings.next()), (None, None));
}

#[test]
fn small_pages_have_plans_of_their_own() {
    let region = Region {
        source: 16,
        target: 32,
        count: 1,
        rights: Rights::ALL,
    };
    let plan = region.plan_sized(PageSize::Kib1).unwrap();
    let (words, pages) = (plan.item_words().collect::<Vec<_>>(), plan.pages());
    assert_eq!(
        (words.as_slice(), pages.as_slice()),
        (&[0x8008, 0x40a7][..], &[16][..])
    );
    assert_eq!(region.check_sized(&words, &pages, PageSize::Kib1), Ok(()));
    assert_eq!(region.check(&words, &pages), Err(Refusal::PageNotMoved(16)));
    let whole = Region {
        source: 0,
        target: 0,
        count: PageSize::Kib1.space_pages(),
        rights: Rights::ALL,
    };
    let plan = whole.plan_sized(PageSize::Kib1).unwrap();
    assert_eq!(plan.only().unwrap().words(), [0x80, 0x8, 0x17]);
    assert_eq!(
        whole.plan().unwrap_err().refusal(),
        Refusal::RegionBeyondSpace
    );
    let long = Region {
        source: 1,
        target: 0,
        count: TOO_MANY as u32,
        rights: Rights::ALL,
    };
    let Err(NoPlan::TooLong(pages)) = long.plan_sized(PageSize::Kib1) else {
        panic!("it has a plan");
    };
    assert_eq!(long.check_too_long_sized(&pages, PageSize::Kib1), Ok(()));
}

/// Each page needs an item of its own, by either size.
#[test]
fn forty_items_go_in_two_messages() {
    let region = Region {
        source: 0,
        target: 1,
        count: 40,
        rights: Rights::READ,
    };
    for (size, last) in [
        (PageSize::Kib4, [0x28008, 0x270c4]),
        (PageSize::Kib1, [0xa008, 0x9ca4]),
    ] {
        let plan = region.plan_sized(size).unwrap();
        assert_eq!((plan.item_count(), plan.message_count()), (40, 2));
        let messages: Vec<_> = plan.messages().collect();
        assert_eq!((plan.messages().len(), messages.len()), (2, 2));
        assert_eq!(
            (messages[0].words()[0], messages[0].words().len()),
            (0xf80, 63)
        );
        assert_eq!(
            (messages[1].words()[0], messages[1].words().len()),
            (0x480, 19)
        );
        assert_eq!(messages[1].words()[17..], last);
        assert_eq!(plan.only(), Err(Refusal::SeveralMessages));
        assert_eq!(plan.message(2), Err(Refusal::NoSuchMessage));
        assert_eq!(plan.pages(), (0..40).collect::<Vec<_>>());
        assert_eq!(plan.items().count(), 40);
        let words = plan.item_words().collect::<Vec<_>>();
        assert_eq!(region.check_sized(&words, &plan.pages(), size), Ok(()));
    }
}

#[test]
fn two_kernels_are_independent() {
    let mut one = delivered();
    let other = Kernel::boot(1).unwrap();
    one.start(2, &Call::delete(id(3))).unwrap();
    assert_eq!(
        (one.mappings(0).count(), other.mappings(0).count()),
        (256, 1)
    );
}

#[test]
fn a_message_maps_a_page() {
    let kernel = delivered();
    let received = match kernel.reply(3) {
        Some(Reply::Ipc(received)) => received,
        other => panic!("{other:?}"),
    };
    assert_eq!(
        (received.tag, received.error, received.from),
        (0x80, None, ThreadId::SIGMA0)
    );
    assert_eq!(received.words, [0x20008, 0x100c7]);
    assert_eq!(kernel.space_of(3), Some(2));
    let mapping = Mapping {
        place: Place { space: 2, page: 32 },
        frame: 16,
        rights: Rights::ALL,
        parent: Some(Place { space: 0, page: 16 }),
    };
    assert_eq!(kernel.mapping(2, 32), Some(mapping));
    assert_eq!(kernel.mappings(2).collect::<Vec<_>>(), [mapping]);
    assert_eq!(
        (kernel.next_page(2, 0), kernel.next_page(2, 33)),
        (Some(32), None)
    );
    assert_eq!(kernel.mapping(0, 16).unwrap().parent, None);
    assert_eq!(
        (
            kernel.mapping(2, 31),
            kernel.mapping(9, 32),
            kernel.mapping(2, u32::MAX)
        ),
        (None, None, None)
    );
}

#[test]
fn descendants_of_a_page_are_listed_once() {
    let mut kernel = delivered();
    let listed = |kernel: &Kernel, space, page| {
        let mut places = kernel.descendants(space, page).unwrap();
        places.sort_by_key(|place| (place.space, place.page));
        places
    };
    let first = Place { space: 2, page: 32 };
    assert_eq!(listed(&kernel, 0, 16), [first]);
    // thread 3 maps its page 32 to pages 0 to 19 of root
    for page in 0..20 {
        kernel
            .start(2, &Call::receive(ThreadId::ANY, WINDOW, Timeout::Never))
            .unwrap();
        let item = Item::map(Fpage::page(32, Rights::READ).unwrap(), page * PAGE_BYTES);
        let sent = Message::new(0, &[], &[item]).unwrap();
        kernel
            .enter(3, &Call::send(ThreadId::ROOT, &sent, Timeout::Never))
            .unwrap();
    }
    let mut below: Vec<Place> = (0..20).map(|page| Place { space: 1, page }).collect();
    assert_eq!(listed(&kernel, 2, 32), below);
    below.push(first);
    assert_eq!(listed(&kernel, 0, 16), below);
    for (space, page) in [(0, 17), (1, 0), (1, 20), (9, 0), (0, u32::MAX)] {
        assert_eq!(listed(&kernel, space, page), []);
    }
}

#[test]
fn threads_of_a_space_are_listed() {
    let mut kernel = delivered();
    kernel
        .enter(2, &Call::create(id(9), id(3), ThreadId::NIL))
        .unwrap();
    let threads: Vec<Vec<u32>> = (0..4).map(|space| kernel.threads_in(space)).collect();
    assert_eq!(threads, [vec![1], vec![2], vec![3, 9], vec![]]);
}

#[test]
fn steps_and_replies_have_the_lines_of_scripts() {
    let mut kernel = delivered();
    assert_eq!(
        kernel.reply(3).unwrap().line(3),
        "3 ipc 00000080 0 1 00020008 000100c7"
    );
    assert_eq!(kernel.reply(2).unwrap().line(2), "2 control ok");
    let receive = Call::receive(ThreadId::ANY, Fpage::NIL, Timeout::Zero);
    kernel.start(2, &receive).unwrap();
    assert_eq!(kernel.enabled().unwrap().line(), "expire 2");
    assert_eq!(kernel.next().unwrap().line(), "expire 2");
    assert_eq!(kernel.reply(2).unwrap().line(2), "2 ipc 00008000 3 nil");
    kernel.start(3, &receive).unwrap();
    let send = Call::send(id(3), &message(&[0x80, 0x20008, 0x100c7]), Timeout::Never);
    let entered = kernel.enter(1, &send).unwrap();
    assert_eq!(entered.steps[0].step.line(), "transfer 1 3");
    assert_eq!(entered.steps[0].line(), "transfer 1 3 no-window");
    let replies = [Reply::Hit, Reply::Answered, Reply::Unmapped, Reply::Gone];
    assert_eq!(
        replies.map(|reply| reply.line(4)),
        ["4 fault hit", "4 fault answered", "4 unmap ok", "4 gone"]
    );
    let reply = Reply::Ipc(Received {
        tag: 0x3f,
        error: None,
        from: ThreadId::of_word(0xffff_c001),
        words: vec![1; 63],
    });
    assert_eq!(reply.line(262_143).len(), 6 + 13 + 2 + 7 + 63 * 9);
    assert_eq!(l4::library_version(), (0, 1, 0));
}

#[test]
fn a_run_has_two_continuations() {
    let mut kernel = delivered();
    let send = Call::send(ThreadId::ROOT, &message(&[1, 5]), Timeout::Zero);
    kernel.start(1, &send).unwrap();
    let mut copy = kernel.copy().unwrap();
    assert_eq!(
        (copy.threads(), copy.spaces()),
        (vec![1, 2, 3], vec![0, 1, 2])
    );
    let receive = Call::receive(ThreadId::ANY, Fpage::NIL, Timeout::Never);
    assert_eq!(kernel.enter(2, &receive).unwrap().steps.len(), 1);
    assert!(matches!(kernel.reply(2), Some(Reply::Ipc(_))));
    assert_eq!(copy.enabled(), Some(Step::Expire { thread: 1 }));
    assert!(matches!(copy.reply(2), Some(Reply::Controlled)));
    copy.expire(1).unwrap();
    copy.start(2, &Call::delete(id(3))).unwrap();
    assert_eq!((copy.threads(), copy.spaces()), (vec![1, 2], vec![0, 1]));
    assert_eq!(kernel.mapping(2, 32).unwrap().frame, 16);
    assert_eq!(copy.mapping(2, 32), None);
    drop(kernel);
    assert_eq!(copy.mapping(0, 16).unwrap().frame, 16);
}

#[test]
fn the_other_kinds_of_calls() {
    let mut kernel = delivered();
    kernel
        .start(3, &Call::fault(0x20123, 0, Rights::READ))
        .unwrap();
    assert_eq!(kernel.reply(3), Some(Reply::Hit));
    let unmap = Call::unmap(&[Fpage::complete(Rights::WRITE)], false).unwrap();
    kernel.start(1, &unmap).unwrap();
    assert_eq!(kernel.reply(1), Some(Reply::Unmapped));
    assert_eq!(
        kernel.mapping(2, 32).unwrap().rights,
        Rights::READ | Rights::EXECUTE
    );
    kernel
        .start(3, &Call::receive(ThreadId::ANY, WINDOW, Timeout::Zero))
        .unwrap();
    assert_eq!(kernel.enabled(), Some(Step::Expire { thread: 3 }));
    assert_eq!(kernel.expire(1), Err(Refusal::NotEnabled));
    assert_eq!(kernel.expire(3).unwrap().outcome, Outcome::Expired);
    assert_eq!(
        kernel.reply(3).unwrap().received(),
        Some(Err(ErrorCode::RECEIVE_TIMEOUT))
    );
    assert_eq!(
        kernel.start(3, &Call::set_pager(id(3), ThreadId::SIGMA0)),
        Err(Refusal::NotRoot)
    );
    kernel
        .start(2, &Call::set_pager(id(3), ThreadId::SIGMA0))
        .unwrap();
    assert_eq!(kernel.reply(2), Some(Reply::Controlled));
    kernel.start(3, &Call::fault(0, 0, Rights::WRITE)).unwrap();
    assert_eq!(kernel.start(2, &Call::delete(id(3))).unwrap().ended, [2, 3]);
    assert_eq!((kernel.space_of(3), kernel.reply(3)), (None, None));
}

#[test]
fn a_call_is_entered_with_its_steps() {
    let mut kernel = Kernel::boot(1).unwrap();
    let entered = kernel
        .enter(2, &Call::receive(ThreadId::ANY, WINDOW, Timeout::Never))
        .unwrap();
    assert_eq!((entered.start.ended, entered.steps), (vec![], vec![]));
    let entered = kernel
        .enter(
            1,
            &Call::send(ThreadId::ROOT, &message(&[1, 5]), Timeout::Never),
        )
        .unwrap();
    let done = Done {
        step: Step::Transfer {
            sender: 1,
            receiver: 2,
        },
        outcome: Outcome::Delivered,
        ended: vec![1, 2],
    };
    assert_eq!(entered.steps, [done]);
    assert_eq!(kernel.next(), None);
    assert_eq!(
        kernel.enter(9, &Call::delete(id(3))),
        Err(Refusal::NoSuchThread)
    );
}

#[test]
fn a_message_without_a_window_and_an_entangled_one() {
    let mut kernel = Kernel::boot(64).unwrap();
    let page = Fpage::page(5, Rights::ALL).unwrap();
    let twice = Message::new(
        0,
        &[],
        &[Item::grant(page, 0x5000), Item::map(page, 0x5000)],
    )
    .unwrap();
    for (window, outcome) in [
        (Fpage::NIL, Outcome::NoWindow),
        (WINDOW, Outcome::Entangled),
    ] {
        kernel
            .start(2, &Call::receive(ThreadId::SIGMA0, window, Timeout::Never))
            .unwrap();
        let entered = kernel
            .enter(1, &Call::send(ThreadId::ROOT, &twice, Timeout::Never))
            .unwrap();
        assert_eq!(entered.steps[0].outcome, outcome);
        assert_eq!(
            kernel.reply(1).unwrap().received(),
            Some(Err(ErrorCode::SEND_OVERFLOW))
        );
        assert_eq!(
            kernel.reply(2).unwrap().received(),
            Some(Err(ErrorCode::RECEIVE_OVERFLOW))
        );
    }
}

#[test]
fn refusals_change_nothing_and_carry_their_numbers() {
    let mut kernel = Kernel::boot(1).unwrap();
    let mut send = |words: &[u32]| {
        kernel
            .start(
                1,
                &Call::send(ThreadId::ROOT, &message(words), Timeout::Never),
            )
            .unwrap_err()
    };
    assert_eq!(send(&[]), Refusal::TooFewWords);
    assert_eq!(send(&[0xfff; 64]), Refusal::WordCount);
    assert_eq!(send(&[0x1000]), Refusal::Flags);
    assert_eq!(send(&[0x40, 0]), Refusal::OddItemWords);
    assert_eq!(send(&[0x100, 8, 0, 14, 0]), Refusal::BadItem(1));
    assert_eq!(send(&[0x100, 8, 0, 0, 0]), Refusal::UnsupportedItem(1));
    let ipc = Ipc {
        to: ThreadId::NIL,
        from: ThreadId::ANY,
        timeouts: 0,
        acceptor: 0x20,
        message: message(&[]),
    };
    assert_eq!(kernel.start(1, &Call::ipc(&ipc)), Err(Refusal::BadWindow));
    assert_eq!(
        kernel.start(1, &Call::ipc(&Ipc { timeouts: 1, ..ipc })),
        Err(Refusal::TimeoutValue)
    );
    assert_eq!(
        kernel.start(9, &Call::delete(id(3))),
        Err(Refusal::NoSuchThread)
    );
    assert_eq!(
        kernel.start(1, &Call::unmap_words(1, &[0x17, 0x20]).unwrap()),
        Err(Refusal::BadUnmapWord(1))
    );
    assert_eq!(
        kernel.start(1, &Call::unmap_words(1, &[0x17]).unwrap()),
        Err(Refusal::TooFewUnmapWords)
    );
    kernel
        .start(2, &Call::receive(ThreadId::ANY, WINDOW, Timeout::Never))
        .unwrap();
    assert_eq!(
        kernel.start(2, &Call::delete(id(3))),
        Err(Refusal::StillWaiting)
    );
    assert_eq!(kernel.transfer(1, 2), Err(Refusal::NotEnabled));
}

#[test]
fn plans_are_checked() {
    let region = Region {
        source: 4,
        target: 12,
        count: 12,
        rights: Rights::ALL,
    };
    let plan = region.plan().unwrap();
    let (words, pages) = (plan.item_words().collect::<Vec<_>>(), plan.pages());
    let (words, pages) = (words.as_slice(), pages.as_slice());
    assert_eq!((plan.items().count(), pages), (2, &[4, 8][..]));
    assert_eq!(region.check(words, pages), Ok(()));
    assert_eq!(region.check(&words[..3], pages), Err(Refusal::OddItemWords));
    assert_eq!(region.check(words, &[4]), Err(Refusal::PageCount));
    assert_eq!(region.check(words, &[4, 16]), Err(Refusal::ForeignPage(1)));
    assert_eq!(
        Region {
            count: 13,
            ..region
        }
        .check(words, pages),
        Err(Refusal::PageNotMoved(16))
    );
    let weaker = Region {
        rights: Rights::READ,
        ..region
    };
    assert_eq!(weaker.check(words, pages), Err(Refusal::ForeignItem(0)));
    let empty = Region { count: 0, ..region };
    assert_eq!(empty.plan(), Err(NoPlan::Refused(Refusal::EmptyRegion)));
    assert_eq!(empty.check(words, pages), Err(Refusal::RefusedRegion));
    let beyond = Region {
        source: SPACE_PAGES,
        ..region
    };
    assert_eq!(
        beyond.plan().unwrap_err().refusal(),
        Refusal::RegionBeyondSpace
    );
    let rightless = Region {
        rights: Rights::NONE,
        ..region
    };
    assert_eq!(rightless.plan().unwrap_err().code(), "N3");
}

#[test]
fn a_region_may_need_too_many_items() {
    let region = Region {
        source: 0,
        target: 1,
        count: 1985,
        rights: Rights::ALL,
    };
    let refused = region.plan().unwrap_err();
    assert_eq!(
        refused.to_string(),
        "N4: the region needs more than 1,984 map items, the most that 64 messages can hold"
    );
    let NoPlan::TooLong(pages) = refused else {
        panic!("{refused:?}");
    };
    assert_eq!(pages.len(), TOO_MANY);
    assert_eq!(region.check_too_long(&pages), Ok(()));
    assert_eq!(region.check_too_long(&pages[1..]), Err(Refusal::PageCount));
    assert_eq!(
        Region {
            source: 100,
            ..region
        }
        .check_too_long(&pages),
        Err(Refusal::ForeignPage(0))
    );
}

#[test]
fn sixty_two_calls_end_at_once() {
    let mut kernel = Kernel::boot(1).unwrap();
    for number in 3..=MAX_THREADS as u32 {
        kernel
            .enter(2, &Call::create(id(number), id(number), ThreadId::NIL))
            .unwrap();
        kernel
            .enter(number, &Call::send(id(3), &message(&[0]), Timeout::Never))
            .unwrap();
    }
    assert_eq!(
        kernel.start(2, &Call::create(id(65), ThreadId::ROOT, ThreadId::NIL)),
        Err(Refusal::TooManyThreads)
    );
    let answer = kernel.start(2, &Call::delete(id(3))).unwrap();
    assert_eq!(answer.ended.len(), MAX_THREADS - 2);
    assert_eq!((answer.ended[0], answer.ended[61]), (2, 64));
}

#[test]
fn each_expiry_of_sixty_four_follows_a_call() {
    let mut kernel = Kernel::boot(1).unwrap();
    for number in 3..=MAX_THREADS as u32 {
        kernel
            .enter(2, &Call::create(id(number), id(number), ThreadId::NIL))
            .unwrap();
    }
    for number in 2..=MAX_THREADS as u32 {
        kernel
            .start(number, &Call::receive(ThreadId::ANY, WINDOW, Timeout::Zero))
            .unwrap();
    }
    let entered = kernel
        .enter(1, &Call::receive(ThreadId::ANY, WINDOW, Timeout::Zero))
        .unwrap();
    let threads: Vec<u32> = entered
        .steps
        .iter()
        .flat_map(|done| done.ended.iter().copied())
        .collect();
    assert_eq!(threads, (1..=MAX_THREADS as u32).collect::<Vec<_>>());
}

#[test]
fn a_kernel_goes_from_thread_to_thread() {
    let mut kernel = delivered();
    let kernel = std::thread::spawn(move || {
        kernel.start(2, &Call::delete(id(3))).unwrap();
        kernel
    });
    assert_eq!(kernel.join().unwrap().space_of(3), None);
}

#[test]
fn refusals_are_errors() {
    let refused: Box<dyn std::error::Error + Send + Sync> = Refusal::BadItem(1).into();
    assert_eq!(
        refused.to_string(),
        "M3 1: the item has an unknown kind, or its fpage is invalid"
    );
    assert_eq!(Refusal::NoMemory.code(), "NoMemory");
}

#[test]
fn a_thread_is_absent_or_new_or_runs_or_waits() {
    let mut kernel = Kernel::boot(256).unwrap();
    assert_eq!(kernel.thread(3), None);
    let sigma0 = Thread {
        id: ThreadId::SIGMA0,
        space: 0,
        pager: ThreadId::NIL,
        state: ThreadState::New,
    };
    assert_eq!(kernel.thread(1), Some(sigma0));
    kernel
        .start(2, &Call::create(id(3), id(3), ThreadId::ROOT))
        .unwrap();
    assert_eq!(kernel.thread(2).unwrap().state, ThreadState::Running);
    let own = Thread {
        id: id(3),
        space: 2,
        pager: ThreadId::ROOT,
        state: ThreadState::New,
    };
    assert_eq!(kernel.thread(3), Some(own));
    kernel
        .start(3, &Call::fault(0x20123, 0x1000, Rights::READ))
        .unwrap();
    let wait = Wait {
        partner: ThreadId::ROOT,
        expires: false,
        fault: true,
    };
    assert_eq!(kernel.thread(3).unwrap().state, ThreadState::Sending(wait));
    kernel
        .start(2, &Call::receive(ThreadId::ANY, Fpage::NIL, Timeout::Zero))
        .unwrap();
    let wait = Wait {
        partner: ThreadId::ANY,
        expires: true,
        fault: false,
    };
    assert_eq!(
        kernel.thread(2).unwrap().state,
        ThreadState::Receiving(wait)
    );
}
