//! The tables of pagers, and sigma0's.
use l4::{
    Call, Fpage, Kernel, Message, Pager, Refusal, Region, Reply, Rights, Sigma0, ThreadId, Timeout,
    MAX_FRAMES, MAX_REGIONS, SPACE_PAGES,
};

const REGION: Region = Region {
    source: 100,
    target: 4,
    count: 4,
    rights: Rights::READ,
};

/// A fault that reads at this address.
fn fault(address: u32) -> Message {
    Message::new(0xffe4, &[address, 0], &[]).unwrap()
}

fn words(words: &[u32]) -> Message {
    Message::of_words(words).unwrap()
}

#[test]
fn regions_are_added_and_found() {
    let mut pager = Pager::new().unwrap();
    assert_eq!(pager.find(4, Rights::NONE), Err(Refusal::NotServed));
    assert_eq!(pager.add(&REGION), Ok(()));
    assert_eq!(
        pager.add(&Region {
            target: 7,
            ..REGION
        }),
        Err(Refusal::RegionsOverlap)
    );
    assert_eq!(
        pager.add(&Region { count: 0, ..REGION }),
        Err(Refusal::BadRegion)
    );
    assert_eq!(
        pager.add(&Region {
            source: SPACE_PAGES,
            ..REGION
        }),
        Err(Refusal::BadRegion)
    );
    assert_eq!(
        (pager.find(7, Rights::READ), pager.find(7, Rights::NONE)),
        (Ok(103), Ok(103))
    );
    assert_eq!(pager.find(7, Rights::ALL), Err(Refusal::NotServed));
    assert_eq!(pager.find(8, Rights::NONE), Err(Refusal::NotServed));
    for place in 1..MAX_REGIONS as u32 {
        pager
            .add(&Region {
                target: 100 * place,
                ..REGION
            })
            .unwrap();
    }
    assert_eq!(
        pager.add(&Region {
            target: 9000,
            ..REGION
        }),
        Err(Refusal::FullTable)
    );
}

#[test]
fn a_pager_answers_messages() {
    let mut pager = Pager::new().unwrap();
    pager.add(&REGION).unwrap();
    assert_eq!(
        pager.answer(&fault(0x5678)),
        Ok(words(&[0x80, 0x5008, 0x650c4]))
    );
    assert_eq!(pager.answer(&fault(0x9000)), Ok(words(&[0x80, 0x8, 0])));
    assert_eq!(pager.answer(&words(&[0])), Ok(words(&[0x80, 0x8, 0])));
    assert_eq!(pager.answer(&words(&[])), Err(Refusal::TooFewWords));
    assert_eq!(
        pager.answer(&words(&[0x100, 8, 0, 14, 0])),
        Err(Refusal::BadItem(1))
    );
}

#[test]
fn sigma0_gives_each_frame_to_one_space() {
    assert_eq!(Sigma0::new(0).unwrap_err(), Refusal::FrameCount);
    assert_eq!(
        Sigma0::new(MAX_FRAMES + 1).unwrap_err(),
        Refusal::FrameCount
    );
    let mut sigma0 = Sigma0::new(8).unwrap();
    let nothing = words(&[0x80, 0x8, 0]);
    assert_eq!(
        sigma0.answer(2, &fault(0x5000)),
        Ok(words(&[0x80, 0x5008, 0x50c7]))
    );
    assert_eq!(
        sigma0.answer(2, &fault(0x5fff)),
        Ok(words(&[0x80, 0x5008, 0x50c7]))
    );
    assert_eq!(sigma0.answer(1 << 63, &fault(0x5000)), Ok(nothing));
    assert_eq!(sigma0.answer(2, &fault(0x8000)), Ok(nothing));
    assert_eq!(
        sigma0.answer(2, &words(&[0x100, 8, 0, 14, 0])),
        Err(Refusal::BadItem(1))
    );
}

#[test]
fn a_fault_is_served_through_a_kernel() {
    let mut kernel = Kernel::boot(256).unwrap();
    let mut sigma0 = Sigma0::new(256).unwrap();
    let client = ThreadId::new(3, 1).unwrap();
    kernel
        .enter(2, &Call::create(client, client, ThreadId::SIGMA0))
        .unwrap();
    kernel
        .enter(1, &Call::receive(ThreadId::ANY, Fpage::NIL, Timeout::Never))
        .unwrap();
    kernel
        .enter(3, &Call::fault(0x5678, 0, Rights::READ))
        .unwrap();
    let reply = kernel.reply(1).unwrap();
    let asked = reply.received().unwrap().unwrap();
    let space = kernel.space_of(asked.from.number()).unwrap();
    let answer = sigma0.answer(space, &asked.message()).unwrap();
    kernel
        .enter(1, &Call::send(asked.from, &answer, Timeout::Zero))
        .unwrap();
    assert_eq!(kernel.reply(3), Some(Reply::Answered));
    assert_eq!(kernel.mapping(space, 5).unwrap().frame, 5);
}

#[test]
fn tables_go_from_thread_to_thread() {
    let (mut pager, mut sigma0) = (Pager::new().unwrap(), Sigma0::new(8).unwrap());
    std::thread::spawn(move || {
        pager.add(&REGION).unwrap();
        sigma0.answer(2, &fault(0x5000)).unwrap();
    })
    .join()
    .unwrap();
}
