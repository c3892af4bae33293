//! A region of sigma0's pages goes to a new thread by a plan, the plan is checked, and an Unmap takes the pages back.
use l4::{Call, Fpage, Kernel, Region, Rights, ThreadId, Timeout};
use std::error::Error;

/// Prints the pages of a space.
fn show(kernel: &Kernel, space: u64) {
    for mapping in kernel.mappings(space) {
        println!(
            "page {} frame {} {}",
            mapping.place.page, mapping.frame, mapping.rights
        );
    }
    println!("{} pages", kernel.mappings(space).count());
}

fn main() -> Result<(), Box<dyn Error>> {
    let mut kernel = Kernel::boot(256)?;
    let buyer = ThreadId::new(3, 1)?;
    kernel.enter(2, &Call::create(buyer, buyer, ThreadId::NIL))?;
    let space = kernel.space_of(3).ok_or("thread 3 is not there")?;

    let region = Region {
        source: 4,
        target: 12,
        count: 3,
        rights: Rights::READ | Rights::WRITE,
    };
    let plan = region.plan()?;
    region.check(&plan.item_words().collect::<Vec<_>>(), &plan.pages())?;
    println!("{} items", plan.items().count());

    let window = Fpage::complete(Rights::NONE);
    kernel.enter(3, &Call::receive(ThreadId::SIGMA0, window, Timeout::Never))?;
    kernel.enter(1, &Call::send(buyer, &plan.only()?, Timeout::Zero))?;
    show(&kernel, space);

    let all = Call::unmap(&[Fpage::complete(Rights::ALL)], false)?;
    kernel.enter(1, &all)?;
    show(&kernel, space);
    Ok(())
}
