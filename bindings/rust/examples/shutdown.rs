//! A client calls a server that does not receive yet: its call times out, and is made again once the server receives. At the end, the program
//! cancels the receive with which the server waits for its next call, and the server's thread returns.
use l4::{Call, ErrorCode, Fpage, Message, Refusal, Reply, Seat, SharedKernel, ThreadId, Timeout};
use std::error::Error;
use std::thread;
use std::time::Duration;

const SERVER: u32 = 3;

/// Doubles the number in each message, until the receive is canceled. Returns the seat, and how many messages came.
fn serve(mut seat: Seat) -> Result<(Seat, usize), Refusal> {
    let mut answers = 0;
    let mut call = Call::receive(ThreadId::ANY, Fpage::NIL, Timeout::Never);
    loop {
        let reply = seat.call(&call)?;
        let asked = match reply.received() {
            Some(Ok(asked)) => asked,
            Some(Err(ErrorCode::RECEIVE_CANCELED)) => return Ok((seat, answers)),
            _ => panic!("the server's call ended in another way: {reply:?}"),
        };
        answers += 1;
        let doubled = Message::new(0, &[2 * asked.untyped()[0]], &[]).expect("one word");
        // a client that does not receive is not waited for
        let (send, receive) = (Timeout::Zero, Timeout::Never);
        call = Call::reply_and_wait(asked.from, &doubled, Fpage::NIL, send, receive);
    }
}

/// Cancels the wait of a thread. While the thread runs, it has none, and the kernel refuses this with K1: so it is tried again.
fn cancel(kernel: &SharedKernel, thread: u32) -> Result<(), Refusal> {
    loop {
        match kernel.cancel(thread) {
            Err(Refusal::NotEnabled) => thread::yield_now(),
            done => return done,
        }
    }
}

/// The number in the message with which a call was answered.
fn number(reply: &Reply) -> Result<u32, Box<dyn Error>> {
    Ok(reply.received().ok_or("this is no Ipc")??.untyped()[0])
}

fn main() -> Result<(), Box<dyn Error>> {
    let kernel = SharedKernel::new(16)?;
    let (mut client, server) = (kernel.seat(2)?, kernel.seat(SERVER)?);
    let id = ThreadId::new(SERVER, 1)?;
    client.call(&Call::create(id, id, ThreadId::NIL))?;

    let never = Timeout::Never;
    let call = Call::call(id, &Message::new(0, &[21], &[])?, Fpage::NIL, never, never);
    let late = client.call_within(&call, Duration::from_millis(10))?;
    if late.received() == Some(Err(ErrorCode::SEND_TIMEOUT)) {
        println!("the call timed out while it was sending");
    }

    let serving = thread::spawn(move || serve(server));
    println!("made again, it returned {}", number(&client.call(&call)?)?);

    cancel(&kernel, SERVER)?;
    let (server, answers) = serving.join().expect("the server does not panic")?;
    println!("the server shut down after {answers} call");
    kernel.close(vec![client, server])?;
    Ok(())
}
