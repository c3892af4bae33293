//! A kernel is written to a checkpoint and read back, and other bytes are refused.
use l4::*;

const WINDOW: Fpage = Fpage::complete(Rights::NONE);

fn id(number: u32) -> ThreadId {
    ThreadId::new(number, 1).unwrap()
}

fn send(number: u32, words: &[u32], timeout: Timeout) -> Call {
    Call::send(id(number), &Message::of_words(words).unwrap(), timeout)
}

fn receive(window: Fpage) -> Call {
    Call::receive(ThreadId::ANY, window, Timeout::Never)
}

/// Threads 3 and 4 share space 2, and thread 5 has space 3. sigma0's page at byte 0x10000 was mapped to 0x20000 in space 2. Then thread 3
/// waits for any message, 4 waits to send to root, 5 has a page fault whose message its pager 3 can get, and sigma0's send to root can expire.
fn begun(size: PageSize) -> Kernel {
    let mut kernel = Kernel::boot_sized(128, size).unwrap();
    let says = [2, 7, 9];
    for (thread, call) in [
        (2, Call::create(id(3), id(3), ThreadId::ROOT)),
        (2, Call::create(id(4), id(3), id(3))),
        (2, Call::create(id(5), id(5), id(3))),
        (3, receive(WINDOW)),
        (1, send(3, &[0x80, 0x20008, 0x100c7], Timeout::Never)),
    ] {
        kernel.enter(thread, &call).unwrap();
    }
    for (thread, call) in [
        (3, receive(WINDOW)),
        (4, send(2, &says, Timeout::Never)),
        (5, Call::fault(0x50123, 0x1000, Rights::READ)),
        (1, send(2, &says, Timeout::Zero)),
    ] {
        kernel.start(thread, &call).unwrap();
    }
    kernel
}

/// All that the queries of a kernel return.
fn seen(kernel: &Kernel) -> String {
    let threads: Vec<_> = kernel
        .threads()
        .into_iter()
        .map(|thread| (kernel.thread(thread), kernel.reply(thread)))
        .collect();
    let pages: Vec<_> = kernel
        .spaces()
        .into_iter()
        .map(|space| (space, kernel.mappings(space).collect::<Vec<_>>()))
        .collect();
    let size = kernel.page_size();
    format!("{size:?} {:?} {threads:?} {pages:?}", kernel.enabled())
}

/// Both kernels execute their next steps, with the same answers. Returns how many there were.
fn go_on(one: &mut Kernel, other: &mut Kernel) -> usize {
    let mut count = 0;
    loop {
        let done = one.next();
        assert_eq!(done, other.next());
        assert_eq!(seen(one), seen(other));
        if done.is_none() {
            return count;
        }
        count += 1;
    }
}

#[test]
fn a_kernel_continues_from_its_checkpoint() {
    for size in [PageSize::Kib4, PageSize::Kib1] {
        let mut kernel = begun(size);
        let bytes = kernel.checkpoint(1000).unwrap();
        let (mut again, entries) = Kernel::from_checkpoint(&bytes).unwrap();
        assert_eq!((again.frames(), entries), (128, 1000));
        assert_eq!(again.page_size(), size);
        assert_eq!(seen(&again), seen(&kernel));
        assert_eq!(again.checkpoint(1000).unwrap(), bytes);
        assert_eq!(go_on(&mut kernel, &mut again), 2);
        let call = receive(Fpage::NIL);
        assert_eq!(kernel.enter(2, &call), again.enter(2, &call));
        let call = send(5, &[0x80, 0x50008, 0x200c4], Timeout::Never);
        assert_eq!(kernel.enter(3, &call), again.enter(3, &call));
        assert_eq!(seen(&again), seen(&kernel));
        let page = if size == PageSize::Kib4 { 0x50 } else { 0x140 };
        assert_eq!(again.mapping(3, page).unwrap().rights, Rights::READ);
    }
}

#[test]
fn other_bytes_are_refused() {
    let bytes = begun(PageSize::Kib4).checkpoint(0).unwrap();
    let refused = |bytes: &[u8]| {
        let bad = Kernel::from_checkpoint(bytes).unwrap_err();
        assert_eq!(bad.refusal, Refusal::NotACheckpoint);
        (bad.fault.unwrap(), bad.position)
    };
    for length in 0..bytes.len() {
        assert_eq!(refused(&bytes[..length]).0, CheckpointFault::Cut);
    }
    let longer = [&bytes[..], &[0]].concat();
    assert_eq!(
        refused(&longer),
        (CheckpointFault::Extra, bytes.len() as u64)
    );
    for place in (0..bytes.len()).step_by(7) {
        let mut altered = bytes.clone();
        altered[place] ^= 1 << (place % 8);
        refused(&altered);
    }
    let mut altered = bytes.clone();
    altered[40] ^= 1;
    let bad = Kernel::from_checkpoint(&altered).unwrap_err();
    assert_eq!(bad.position, bytes.len() as u64 - 32);
    assert_eq!(
        bad.to_string(),
        format!(
            "byte {}: the checksum is not that of the checkpoint",
            bytes.len() - 32
        )
    );
}

#[test]
fn a_number_that_no_history_has_is_refused() {
    let kernel = Kernel::boot(1).unwrap();
    assert_eq!(
        kernel.checkpoint((1 << 63) + 1).unwrap_err(),
        Refusal::TooManyEntries
    );
    assert_eq!(
        Kernel::from_checkpoint(&kernel.checkpoint(1 << 63).unwrap())
            .unwrap()
            .1,
        1 << 63
    );
}

#[test]
fn the_state_of_a_shared_kernel_is_written_by_its_copy() {
    let shared = SharedKernel::new(3).unwrap();
    let copy = shared.copy().unwrap();
    let (again, entries) = Kernel::from_checkpoint(&copy.checkpoint(7).unwrap()).unwrap();
    assert_eq!(
        (again.frames(), again.mappings(0).count(), entries),
        (3, 3, 7)
    );
}
