//! The calls of threads.
use crate::ffi;
use crate::words::Hexadecimal;
use crate::{Fpage, Message, Rights, ThreadId, TooManyWords, MAX_WORDS};
use std::error::Error;
use std::fmt;

/// How long a phase of an Ipc waits for its partner.
#[derive(Clone, Copy, PartialEq, Eq, Hash, Debug, Default)]
#[non_exhaustive]
pub enum Timeout {
    /// It waits until the partner is ready.
    #[default]
    Never,
    /// It does not wait: [`Kernel::expire`](crate::Kernel::expire) may end the phase if the partner is not ready.
    Zero,
}

impl Timeout {
    /// Returns the timeout as one half of the timeouts word.
    const fn bits(self) -> u32 {
        match self {
            Timeout::Never => 0,
            Timeout::Zero => ffi::L4_ZERO_TIMEOUT,
        }
    }

    /// Returns the timeouts word: the send timeout in bits 31 to 16, and the receive timeout in bits 15 to 0.
    pub const fn word(send: Timeout, receive: Timeout) -> u32 {
        send.bits() << 16 | receive.bits()
    }
}

/// Any Ipc, by its words, which the kernel may refuse (L4 X.2 manual, Ipc).
#[derive(Clone, Copy, PartialEq, Eq, Debug)]
pub struct Ipc {
    /// The partner of the send phase. There is no send phase with [`ThreadId::NIL`].
    pub to: ThreadId,
    /// The partner of the receive phase. There is no receive phase with [`ThreadId::NIL`].
    pub from: ThreadId,
    /// The timeouts, as [`Timeout::word`] makes them.
    pub timeouts: u32,
    /// The receive window: bits 31 to 4 as in an fpage's word.
    pub acceptor: u32,
    /// The message of the send phase.
    pub message: Message,
}

/// The error for an Unmap that does not have 1 to 64 fpages.
#[derive(Clone, Copy, PartialEq, Eq, Debug)]
pub struct FpageCount;

impl fmt::Display for FpageCount {
    fn fmt(&self, out: &mut fmt::Formatter<'_>) -> fmt::Result {
        write!(out, "an Unmap has 1 to {MAX_WORDS} fpages")
    }
}

impl Error for FpageCount {}

/// A call of a thread, which [`Kernel::start`](crate::Kernel::start) and [`Kernel::enter`](crate::Kernel::enter) begin.
///
/// A call is a plain value. It belongs to no kernel, and can be started many times.
///
/// ```
/// use l4::{Call, Rights, ThreadId};
/// let call = Call::fault(0x5678, 0x400100, Rights::READ);
/// assert_eq!(call.to_string(), "fault at 0x5678 by 0x400100, which needs r--");
/// assert_eq!(format!("{:?}", Call::delete(ThreadId::ROOT)), "Call(delete 0x00008001: delete thread 2)");
/// ```
#[derive(Clone, Copy, PartialEq, Eq)]
pub struct Call {
    given: ffi::l4_call,
    words: Message,
}

impl Call {
    /// Returns a call of this kind whose other members are 0.
    fn of_kind(kind: u32) -> Call {
        Call {
            given: ffi::l4_call {
                kind,
                to: 0,
                from: 0,
                timeouts: 0,
                acceptor: 0,
                address: 0,
                ip: 0,
                access: 0,
                control: 0,
                id: 0,
                space: 0,
                pager: 0,
                reserved: [0; 4],
            },
            words: Message::EMPTY,
        }
    }

    /// Returns the call that the library reports in a history or a receipt.
    pub(crate) fn told(given: &ffi::l4_call, words: &[u32]) -> Call {
        Call {
            given: *given,
            words: Message::of_words(words).unwrap_or(Message::EMPTY),
        }
    }

    /// Returns its name and numbers as in a step list.
    pub(crate) fn line(&self) -> String {
        let (name, mut words) = self.members();
        words.extend(self.words.words());
        format!("{name} {}", Hexadecimal(&words))
    }

    /// Returns what the library reads.
    pub(crate) fn given(&self) -> (&ffi::l4_call, &[u32]) {
        (&self.given, self.words.words())
    }

    /// Makes an Ipc from its words.
    ///
    /// The kernel refuses it, in this order, with K4 for its timeouts; M7, M1, M5, M2, M4 or M3 for its message; and M6 for its window. The
    /// timeouts and windows of the functions below are always valid.
    pub fn ipc(ipc: &Ipc) -> Call {
        let mut call = Call::of_kind(ffi::L4_IPC);
        call.given.to = ipc.to.word();
        call.given.from = ipc.from.word();
        call.given.timeouts = ipc.timeouts;
        call.given.acceptor = ipc.acceptor;
        call.words = ipc.message;
        call
    }

    /// Sends a message to a thread, without a receive phase (L4 X.2 manual, Send).
    pub fn send(to: ThreadId, message: &Message, timeout: Timeout) -> Call {
        Call::ipc(&Ipc {
            to,
            from: ThreadId::NIL,
            timeouts: Timeout::word(timeout, Timeout::Never),
            acceptor: 0,
            message: *message,
        })
    }

    /// Receives a message from a thread, or from any thread with [`ThreadId::ANY`] (L4 X.2 manual, Receive and Wait).
    ///
    /// The window says where the caller accepts pages; its rights are ignored.
    pub fn receive(from: ThreadId, window: Fpage, timeout: Timeout) -> Call {
        Call::ipc(&Ipc {
            to: ThreadId::NIL,
            from,
            timeouts: Timeout::word(Timeout::Never, timeout),
            acceptor: window.acceptor(),
            message: Message::EMPTY,
        })
    }

    /// Sends a message to a thread, and then receives that thread's answer (L4 X.2 manual, Call).
    // The name is the manual's.
    #[allow(clippy::self_named_constructors)]
    pub fn call(
        to: ThreadId,
        message: &Message,
        window: Fpage,
        send: Timeout,
        receive: Timeout,
    ) -> Call {
        Call::ipc(&Ipc {
            to,
            from: to,
            timeouts: Timeout::word(send, receive),
            acceptor: window.acceptor(),
            message: *message,
        })
    }

    /// Sends a message to a thread, and then receives a message from any thread (L4 X.2 manual, ReplyWait).
    pub fn reply_and_wait(
        to: ThreadId,
        message: &Message,
        window: Fpage,
        send: Timeout,
        receive: Timeout,
    ) -> Call {
        Call::ipc(&Ipc {
            to,
            from: ThreadId::ANY,
            timeouts: Timeout::word(send, receive),
            acceptor: window.acceptor(),
            message: *message,
        })
    }

    /// Reports a page fault at `address`, by the instruction at `ip`, both in bytes, for an access that needs these rights.
    ///
    /// If the page is not present with these rights, the kernel sends the fault to the thread's pager as a message (L4 X.2 manual, Page
    /// Fault Protocol).
    pub fn fault(address: u32, ip: u32, access: Rights) -> Call {
        let mut call = Call::of_kind(ffi::L4_FAULT);
        call.given.address = address;
        call.given.ip = ip;
        call.given.access = access.bits();
        call
    }

    /// Revokes the rights that the fpages name from every page that was mapped from the caller's pages in them (L4 X.2 manual, Unmap). With
    /// `own`, the caller's pages lose these rights too.
    ///
    /// # Errors
    ///
    /// [`FpageCount`] if there are no fpages, or more than 64.
    pub fn unmap(fpages: &[Fpage], own: bool) -> Result<Call, FpageCount> {
        let last = fpages.len().checked_sub(1).ok_or(FpageCount)? as u32;
        let words: Vec<u32> = fpages.iter().map(|fpage| fpage.word()).collect();
        Call::unmap_words(u32::from(own) << 6 | last & 0x3f, &words).map_err(|_| FpageCount)
    }

    /// Makes an Unmap from its words. Bit 6 of `control` means that the caller's own pages lose the rights too; bits 5 to 0 are k, and the
    /// words 0 to k are fpages. The kernel refuses it, in this order, with U2 and U1.
    ///
    /// # Errors
    ///
    /// [`TooManyWords`] for more than 64 words.
    pub fn unmap_words(control: u32, words: &[u32]) -> Result<Call, TooManyWords> {
        let mut call = Call::of_kind(ffi::L4_UNMAP);
        call.given.control = control;
        call.words = Message::of_words(words)?;
        Ok(call)
    }

    /// Creates a thread with this id, in the space of the thread `space`, or in a new space if `space` is the same id (L4 X.2 manual,
    /// ThreadControl). The kernel refuses it with H1 to H5, and with NoMemory for a new space.
    pub fn create(id: ThreadId, space: ThreadId, pager: ThreadId) -> Call {
        let mut call = Call::of_kind(ffi::L4_CREATE);
        call.given.id = id.word();
        call.given.space = space.word();
        call.given.pager = pager.word();
        call
    }

    /// Sets the pager of a thread (L4 X.2 manual, ThreadControl). The kernel refuses it with H1 and H4.
    pub fn set_pager(id: ThreadId, pager: ThreadId) -> Call {
        let mut call = Call::of_kind(ffi::L4_SET_PAGER);
        call.given.id = id.word();
        call.given.pager = pager.word();
        call
    }

    /// Deletes a thread, and its space if the thread is the last one in it (L4 X.2 manual, ThreadControl). The kernel refuses it with H1,
    /// H4 and H6.
    pub fn delete(id: ThreadId) -> Call {
        let mut call = Call::of_kind(ffi::L4_DELETE);
        call.given.id = id.word();
        call
    }

    /// Returns its name and numbers as in a step list, without its words.
    fn members(&self) -> (&'static str, Vec<u32>) {
        let it = &self.given;
        match it.kind {
            ffi::L4_IPC => ("ipc", vec![it.to, it.from, it.timeouts, it.acceptor]),
            ffi::L4_FAULT => ("fault", vec![it.address, it.ip, it.access]),
            ffi::L4_UNMAP => ("unmap", vec![it.control]),
            ffi::L4_CREATE => ("create", vec![it.id, it.space, it.pager]),
            ffi::L4_SET_PAGER => ("setpager", vec![it.id, it.pager]),
            _ => ("delete", vec![it.id]),
        }
    }

    /// Writes an Ipc as text.
    fn write_ipc(&self, out: &mut fmt::Formatter<'_>) -> fmt::Result {
        let (to, from) = (
            ThreadId::of_word(self.given.to),
            ThreadId::of_word(self.given.from),
        );
        let [send, receive] =
            [self.given.timeouts >> 16, self.given.timeouts & 0xffff].map(|bits| match bits {
                0 => String::new(),
                ffi::L4_ZERO_TIMEOUT => " at once".into(),
                other => format!(" with timeout {other:#06x}"),
            });
        if to != ThreadId::NIL {
            write!(out, "send to {to}{send}: {}", self.words)?;
        }
        if from != ThreadId::NIL {
            let between = if to == ThreadId::NIL { "" } else { ", then " };
            let window = fpage_text(self.given.acceptor & !0xf);
            write!(
                out,
                "{between}receive from {from}{receive}, window {window}"
            )?;
        }
        if to == ThreadId::NIL && from == ThreadId::NIL {
            out.write_str("neither phase")?;
        }
        Ok(())
    }

    /// Writes an Unmap as text.
    fn write_unmap(&self, out: &mut fmt::Formatter<'_>) -> fmt::Result {
        let own = if self.given.control & 0x40 == 0 {
            ""
        } else {
            "own pages too, "
        };
        let count = (self.given.control & 0x3f) as usize + 1;
        let fpages: Vec<String> = self
            .words
            .words()
            .iter()
            .take(count)
            .map(|&word| fpage_text(word))
            .collect();
        write!(out, "unmap {own}{}", fpages.join("; "))
    }
}

/// Returns the fpage of a word as text.
fn fpage_text(word: u32) -> String {
    match Fpage::read(word) {
        Ok(fpage) => fpage.to_string(),
        Err(_) => format!("no fpage in {word:#010x}"),
    }
}

/// Writes the call as text.
impl fmt::Display for Call {
    fn fmt(&self, out: &mut fmt::Formatter<'_>) -> fmt::Result {
        let it = &self.given;
        let [id, space, pager] = [it.id, it.space, it.pager].map(ThreadId::of_word);
        match it.kind {
            ffi::L4_IPC => self.write_ipc(out),
            ffi::L4_FAULT => {
                let access = Rights::of_bits(it.access);
                write!(
                    out,
                    "fault at {:#x} by {:#x}, which needs {access}",
                    it.address, it.ip
                )
            }
            ffi::L4_UNMAP => self.write_unmap(out),
            ffi::L4_CREATE if id == space => {
                write!(out, "create {id} in a new space, pager {pager}")
            }
            ffi::L4_CREATE => write!(out, "create {id} in the space of {space}, pager {pager}"),
            ffi::L4_SET_PAGER => write!(out, "pager of {id} is {pager}"),
            _ => write!(out, "delete {id}"),
        }
    }
}

/// Writes the call as in a step list, with each word in hexadecimal, and then as text.
impl fmt::Debug for Call {
    fn fmt(&self, out: &mut fmt::Formatter<'_>) -> fmt::Result {
        write!(out, "Call({}: {self})", self.line())
    }
}

#[cfg(test)]
mod tests {
    use super::*;

    #[test]
    fn calls_are_the_words_that_c_gives() {
        let message = Message::new(0, &[5], &[]).unwrap();
        let to = ThreadId::of_word(0xc001);
        let call = Call::reply_and_wait(
            to,
            &message,
            Fpage::complete(Rights::NONE),
            Timeout::Zero,
            Timeout::Never,
        );
        let (given, words) = call.given();
        assert_eq!((given.kind, given.to, given.from), (1, 0xc001, 0xFFFF_FFFF));
        assert_eq!((given.timeouts, given.acceptor), (0x400_0000, 0x10));
        assert_eq!(words, [1, 5]);
        let call = Call::call(to, &message, Fpage::NIL, Timeout::Never, Timeout::Zero);
        assert_eq!(
            (call.given.from, call.given.timeouts, call.given.acceptor),
            (0xc001, 0x400, 0)
        );
        let call = Call::receive(to, Fpage::NIL, Timeout::Zero);
        assert_eq!(
            (call.given.to, call.given.from, call.given.timeouts),
            (0, 0xc001, 0x400)
        );
        let call = Call::send(to, &message, Timeout::Zero);
        assert_eq!(
            (call.given.to, call.given.from, call.given.timeouts),
            (0xc001, 0, 0x400_0000)
        );
        let call = Call::fault(0x5678, 0x40, Rights::READ);
        assert_eq!(
            (
                call.given.kind,
                call.given.address,
                call.given.ip,
                call.given.access
            ),
            (2, 0x5678, 0x40, 4)
        );
        let call = Call::create(to, ThreadId::ROOT, ThreadId::SIGMA0);
        assert_eq!(
            (
                call.given.kind,
                call.given.id,
                call.given.space,
                call.given.pager
            ),
            (4, 0xc001, 0x8001, 0x4001)
        );
        let call = Call::set_pager(to, ThreadId::ROOT);
        assert_eq!(
            (call.given.kind, call.given.id, call.given.pager),
            (5, 0xc001, 0x8001)
        );
        assert_eq!(
            (Call::delete(to).given.kind, Call::delete(to).given.id),
            (6, 0xc001)
        );
    }

    #[test]
    fn an_unmap_has_1_to_64_fpages() {
        let fpage = Fpage::page(1, Rights::WRITE).unwrap();
        let call = Call::unmap(&[fpage; 64], true).unwrap();
        assert_eq!((call.given.kind, call.given.control), (3, 0x7f));
        assert_eq!(call.given().1, [0x10c2; 64]);
        assert_eq!(Call::unmap(&[fpage], false).unwrap().given.control, 0);
        assert_eq!(Call::unmap(&[], false), Err(FpageCount));
        assert_eq!(Call::unmap(&[fpage; 65], false), Err(FpageCount));
        assert_eq!(Call::unmap_words(0, &[0; 65]), Err(TooManyWords));
    }

    #[test]
    fn calls_are_shown_in_words() {
        let (three, root) = (ThreadId::of_word(0xc001), ThreadId::ROOT);
        let message = Message::new(7, &[5], &[]).unwrap();
        let window = Fpage::complete(Rights::NONE);
        let (never, zero) = (Timeout::Never, Timeout::Zero);
        let page = Fpage::page(1, Rights::WRITE).unwrap();
        for (call, text) in [
            (Call::send(three, &message, zero), "send to thread 3 at once: label 0x0007; 1 untyped"),
            (Call::receive(ThreadId::ANY, Fpage::NIL, never), "receive from any, window nil"),
            (
                Call::call(three, &message, window, never, zero),
                "send to thread 3: label 0x0007; 1 untyped, then receive from thread 3 at once, window complete ---",
            ),
            (Call::send(ThreadId::NIL, &message, never), "neither phase"),
            (Call::unmap(&[page; 2], true).unwrap(), "unmap own pages too, 4 KiB at 0x1000 -w-; 4 KiB at 0x1000 -w-"),
            (Call::unmap_words(0, &[0x20, 0]).unwrap(), "unmap no fpage in 0x00000020"),
            (Call::create(three, three, root), "create thread 3 in a new space, pager thread 2"),
            (Call::create(three, root, ThreadId::NIL), "create thread 3 in the space of thread 2, pager nil"),
            (Call::set_pager(three, root), "pager of thread 3 is thread 2"),
        ] {
            assert_eq!(call.to_string(), text);
        }
        let shown = format!("{:?}", Call::send(three, &message, zero));
        let words = "0x0000c001 0x00000000 0x04000000 0x00000000 0x00070001 0x00000005";
        assert_eq!(
            shown,
            format!("Call(ipc {words}: send to thread 3 at once: label 0x0007; 1 untyped)")
        );
        let ipc = Ipc {
            to: ThreadId::NIL,
            from: three,
            timeouts: 1,
            acceptor: 0x20,
            message,
        };
        let text = "receive from thread 3 with timeout 0x0001, window no fpage in 0x00000020";
        assert_eq!(Call::ipc(&ipc).to_string(), text);
    }
}
