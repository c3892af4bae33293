//! A thread faults, and its pager, thread 4, answers with a page of its own.
use l4::{Call, Fpage, Item, Kernel, Message, Rights, ThreadId, Timeout, PAGE_BYTES};
use std::error::Error;

/// The pager's page that it maps.
const PAGE: u32 = 101;

fn main() -> Result<(), Box<dyn Error>> {
    let mut kernel = Kernel::boot(256)?;
    let pager = ThreadId::new(4, 1)?;
    let client = ThreadId::new(5, 1)?;
    kernel.enter(2, &Call::create(pager, pager, ThreadId::NIL))?;
    kernel.enter(2, &Call::create(client, client, pager))?;

    // sigma0 gives the pager its page
    let page = Fpage::page(PAGE, Rights::ALL)?;
    let gift = Message::new(0, &[], &[Item::map(page, PAGE * PAGE_BYTES)])?;
    kernel.enter(4, &Call::receive(ThreadId::SIGMA0, page, Timeout::Never))?;
    kernel.enter(1, &Call::send(pager, &gift, Timeout::Zero))?;

    // the client reads at 0x5678; the fault is a message to its pager
    kernel.enter(4, &Call::receive(ThreadId::ANY, Fpage::NIL, Timeout::Never))?;
    kernel.enter(5, &Call::fault(0x5678, 0x40_0100, Rights::READ))?;
    let reply = kernel.reply(4).ok_or("the pager still waits")?;
    let fault = reply.received().ok_or("the pager made no Ipc")??;
    let [address, instruction] = *fault.untyped() else {
        return Err("a fault has two words".into());
    };
    println!(
        "thread {} faults at {address:#x}, by {instruction:#x}",
        fault.from.number()
    );

    // the answer: the page where the fault was, to be read and executed
    let page = Fpage::page(PAGE, Rights::READ | Rights::EXECUTE)?;
    let answer = Message::new(0, &[], &[Item::map(page, address)])?;
    kernel.enter(4, &Call::send(fault.from, &answer, Timeout::Zero))?;
    println!("{:?}", kernel.reply(5).ok_or("the client still waits")?);

    let space = kernel.space_of(5).ok_or("thread 5 is not there")?;
    let mapping = kernel
        .mapping(space, address / PAGE_BYTES)
        .ok_or("the page is not present")?;
    println!(
        "page {} frame {} {}",
        mapping.place.page, mapping.frame, mapping.rights
    );
    Ok(())
}
