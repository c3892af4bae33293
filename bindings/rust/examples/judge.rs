//! Judges a kernel while it runs. The kernel is a small one with a known bug: of two senders it takes the one that came last, but L4 takes the
//! one that came first. Each of its steps is passed with its answer to the proved kernel, as a step list has them.
use l4::{Kernel, Verdict};
use std::error::Error;

fn main() -> Result<(), Box<dyn Error>> {
    let mut kernel = Kernel::boot(1)?;
    let mut steps = vec![];
    for id in ["0xc001", "0x10001"] {
        let create = format!("start 2 create {id} 0x8001 0");
        steps.push((create, "started\n2 controlled"));
    }
    // the queue of the small kernel
    let mut queue = vec![];
    for (thread, word) in [(3, 33), (4, 44)] {
        let send = format!("start {thread} ipc 0x8001 0 0 0 1 {word}");
        steps.push((send, "started"));
        queue.push(thread);
    }
    steps.push(("start 2 ipc 0 0xffffffff 0 0".to_string(), "started"));

    for (step, found) in &steps {
        assert_eq!(kernel.judge(step, found)?, Verdict::Agrees);
    }
    println!("{} steps agree", steps.len());

    // the bug: the small kernel takes the last sender of its queue
    let sender = queue.pop().ok_or("no thread sends")?;
    let step = format!("transfer {sender} 2");
    if let Verdict::NotEnabled { enabled } = kernel.judge(&step, "done")? {
        println!("{step}: expected refused K1, found done");
        println!("enabled: {enabled:?}");
    }
    Ok(())
}
