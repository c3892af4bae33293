//! Two threads exchange words: root waits for a question, and sigma0 asks one and waits for the answer.
use l4::{Call, Fpage, Kernel, Message, ThreadId, Timeout};
use std::error::Error;

fn main() -> Result<(), Box<dyn Error>> {
    let mut kernel = Kernel::boot(1)?;
    let wait = Call::receive(ThreadId::ANY, Fpage::NIL, Timeout::Never);
    kernel.enter(2, &wait)?;

    let question = Message::new(1, &[6, 7], &[])?;
    kernel.enter(
        1,
        &Call::call(
            ThreadId::ROOT,
            &question,
            Fpage::NIL,
            Timeout::Never,
            Timeout::Never,
        ),
    )?;

    let reply = kernel.reply(2).ok_or("root still waits")?;
    let asked = reply.received().ok_or("root made no Ipc")??;
    println!(
        "root is asked {:?} by thread {}",
        asked.untyped(),
        asked.from.number()
    );

    let answer = Message::new(0, &[asked.untyped().iter().product()], &[])?;
    kernel.enter(2, &Call::send(asked.from, &answer, Timeout::Zero))?;

    let reply = kernel.reply(1).ok_or("sigma0 still waits")?;
    println!(
        "sigma0 is answered {:?}",
        reply.received().ok_or("sigma0 made no Ipc")??.untyped()
    );
    Ok(())
}
