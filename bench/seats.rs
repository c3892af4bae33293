//! Two threads of the program exchange messages through one shared kernel, while IDLE others wait in a receive. usage: seats IDLE ROUNDS.
//! Prints the round trips per second.
use l4::{Call, Fpage, Message, SharedKernel, ThreadId, Timeout};
use std::error::Error;
use std::thread;
use std::time::{Duration, Instant};

const NEVER: Timeout = Timeout::Never;

fn id(number: u32) -> ThreadId {
    ThreadId::new(number, 1).expect("a thread number")
}

fn main() -> Result<(), Box<dyn Error>> {
    let words: Vec<u32> = std::env::args().skip(1).map(|word| word.parse()).collect::<Result<_, _>>()?;
    let (idle, rounds) = (words[0], words[1]);
    let kernel = SharedKernel::new(16)?;
    let mut root = kernel.seat(2)?;
    for number in 3..5 + idle {
        root.call(&Call::create(id(number), id(number), ThreadId::NIL))?;
    }
    let (mut client, mut server) = (kernel.seat(3)?, kernel.seat(4)?);
    let message = Message::new(0, &[1], &[])?;
    let waiting: Vec<_> = (5..5 + idle)
        .map(|number| kernel.seat(number).map(|mut seat| thread::spawn(move || seat.call(&Call::receive(ThreadId::ROOT, Fpage::NIL, NEVER)))))
        .collect::<Result<_, _>>()?;
    thread::sleep(Duration::from_millis(200));
    let start = Instant::now();
    thread::scope(|threads| {
        threads.spawn(|| {
            server.call(&Call::receive(ThreadId::ANY, Fpage::NIL, NEVER)).expect("a receive");
            for _ in 1..rounds {
                server.call(&Call::reply_and_wait(id(3), &message, Fpage::NIL, NEVER, NEVER)).expect("an answer");
            }
            server.call(&Call::send(id(3), &message, NEVER)).expect("the last answer");
        });
        for _ in 0..rounds {
            client.call(&Call::call(id(4), &message, Fpage::NIL, NEVER, NEVER)).expect("a call");
        }
    });
    println!("{:.0}", f64::from(rounds) / start.elapsed().as_secs_f64());
    for number in 5..5 + idle {
        root.call(&Call::send(id(number), &message, NEVER))?;
    }
    for thread in waiting {
        thread.join().expect("a thread of the program")?;
    }
    Ok(())
}
