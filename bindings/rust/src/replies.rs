//! How calls end.
use crate::ffi;
use crate::refusals::unknown;
use crate::words::{items_in, parts_of, write_message, Hexadecimal};
use crate::{Item, Message, Tag, ThreadId, MAX_WORDS};
use std::error::Error;
use std::fmt;

/// The reason for which an Ipc failed (L4 X.2 manual, IPC: ErrorCode).
#[derive(Clone, Copy, PartialEq, Eq, Hash)]
pub struct ErrorCode(u32);

impl ErrorCode {
    /// The timeout of the send phase expired.
    pub const SEND_TIMEOUT: ErrorCode = ErrorCode(2);

    /// The timeout of the receive phase expired.
    pub const RECEIVE_TIMEOUT: ErrorCode = ErrorCode(3);

    /// There is no thread to send to.
    pub const SEND_PARTNER: ErrorCode = ErrorCode(4);

    /// There is no thread to receive from.
    pub const RECEIVE_PARTNER: ErrorCode = ErrorCode(5);

    /// The send phase was canceled, by [`Kernel::cancel`](crate::Kernel::cancel).
    pub const SEND_CANCELED: ErrorCode = ErrorCode(6);

    /// The receive phase was canceled, by [`Kernel::cancel`](crate::Kernel::cancel).
    pub const RECEIVE_CANCELED: ErrorCode = ErrorCode(7);

    /// The message that was sent could not be delivered: the receiver has no window for its items, the items conflict, or there was no
    /// memory.
    pub const SEND_OVERFLOW: ErrorCode = ErrorCode(8);

    /// The message to this thread could not be delivered, for one of the same reasons.
    pub const RECEIVE_OVERFLOW: ErrorCode = ErrorCode(9);

    /// Returns the number.
    pub const fn number(self) -> u32 {
        self.0
    }

    /// Returns a line of text that explains the error.
    pub fn text(self) -> &'static str {
        match self {
            ErrorCode::SEND_TIMEOUT => "the timeout of the send phase expired",
            ErrorCode::RECEIVE_TIMEOUT => "the timeout of the receive phase expired",
            ErrorCode::SEND_PARTNER => "there is no thread to send to",
            ErrorCode::RECEIVE_PARTNER => "there is no thread to receive from",
            ErrorCode::SEND_CANCELED => "the send phase was canceled",
            ErrorCode::RECEIVE_CANCELED => "the receive phase was canceled",
            ErrorCode::SEND_OVERFLOW => "the message that was sent could not be delivered",
            ErrorCode::RECEIVE_OVERFLOW => "the message to this thread could not be delivered",
            _ => "the Ipc failed",
        }
    }
}

impl fmt::Debug for ErrorCode {
    fn fmt(&self, out: &mut fmt::Formatter<'_>) -> fmt::Result {
        write!(out, "ErrorCode({}: {})", self.0, self.text())
    }
}

impl fmt::Display for ErrorCode {
    fn fmt(&self, out: &mut fmt::Formatter<'_>) -> fmt::Result {
        write!(out, "ErrorCode {}: {}", self.0, self.text())
    }
}

impl Error for ErrorCode {}

/// The result of an Ipc: the message that it received, no message if it had no receive phase, or an error.
#[derive(Clone, PartialEq, Eq)]
pub struct Received {
    /// The tag of the message: 0x8000 if the call failed, and 0 if it had no receive phase.
    pub tag: u32,
    /// The error, if the call failed.
    pub error: Option<ErrorCode>,
    /// The sender's thread id, or [`ThreadId::NIL`] if there is no message.
    pub from: ThreadId,
    /// The words after the tag, at most 63.
    pub words: Vec<u32>,
}

impl Received {
    /// Returns the message's label, which is in bits 31 to 16 of the tag.
    pub fn label(&self) -> u16 {
        Tag::of_word(self.tag).label()
    }

    /// Returns the untyped words.
    pub fn untyped(&self) -> &[u32] {
        parts_of(self.tag, &self.words).0
    }

    /// Returns the message, the tag first. Pass it to [`Pager::answer`](crate::Pager::answer) or [`Sigma0::answer`](crate::Sigma0::answer)
    /// to compute the answer.
    pub fn message(&self) -> Message {
        let words: Vec<u32> = std::iter::once(self.tag)
            .chain(self.words.iter().copied())
            .collect();
        Message::of_words(&words).unwrap_or(Message::EMPTY)
    }

    /// Returns an iterator over the items.
    pub fn items(&self) -> impl Iterator<Item = Item> + '_ {
        items_in(parts_of(self.tag, &self.words).1)
    }
}

/// Writes `message of thread 1: label 0x0007; ..`, or why there is no message.
impl fmt::Display for Received {
    fn fmt(&self, out: &mut fmt::Formatter<'_>) -> fmt::Result {
        match (self.error, self.from) {
            (Some(error), _) => write!(out, "{error}"),
            (None, ThreadId::NIL) => out.write_str("no message was received"),
            (None, from) => {
                write!(out, "message of {from}: ")?;
                write_message(out, self.tag, &self.words)
            }
        }
    }
}

impl fmt::Debug for Received {
    fn fmt(&self, out: &mut fmt::Formatter<'_>) -> fmt::Result {
        write!(
            out,
            "Received({}: {self})",
            Hexadecimal(self.message().words())
        )
    }
}

/// The result of a thread's last call.
#[derive(Clone, PartialEq, Eq, Debug)]
#[non_exhaustive]
pub enum Reply {
    /// An Ipc ended with this result.
    Ipc(Received),
    /// A fault: the page is present with the rights that the access needs.
    Hit,
    /// A fault that the pager answered.
    Answered,
    /// A fault that failed with this error.
    Failed(ErrorCode),
    /// An Unmap was executed.
    Unmapped,
    /// A Create, SetPager or Delete was executed.
    Controlled,
    /// The thread was deleted.
    Gone,
}

impl Reply {
    /// Returns the reply that the library reports, or `None` if there is none.
    pub(crate) fn of(told: &ffi::l4_reply) -> Option<Reply> {
        Some(match told.kind {
            ffi::L4_NONE => return None,
            ffi::L4_REPLY_IPC => Reply::Ipc(Received {
                tag: told.tag,
                error: (told.error != 0).then_some(ErrorCode(told.error)),
                from: ThreadId::of_word(told.from),
                words: told.words[..told.word_count as usize].to_vec(),
            }),
            ffi::L4_REPLY_HIT => Reply::Hit,
            ffi::L4_REPLY_ANSWERED => Reply::Answered,
            ffi::L4_REPLY_FAILED => Reply::Failed(ErrorCode(told.error)),
            ffi::L4_REPLY_UNMAPPED => Reply::Unmapped,
            ffi::L4_REPLY_CONTROLLED => Reply::Controlled,
            ffi::L4_REPLY_GONE => Reply::Gone,
            kind => unknown("reply", kind),
        })
    }

    /// Returns the reply as the library has it.
    fn given(&self) -> ffi::l4_reply {
        let mut given = ffi::NO_REPLY;
        match self {
            Reply::Ipc(received) => {
                let count = received.words.len().min(MAX_WORDS);
                given.kind = ffi::L4_REPLY_IPC;
                given.tag = received.tag;
                given.error = received.error.map_or(0, ErrorCode::number);
                given.from = received.from.word();
                given.word_count = count as u32;
                given.words[..count].copy_from_slice(&received.words[..count]);
            }
            Reply::Hit => given.kind = ffi::L4_REPLY_HIT,
            Reply::Answered => given.kind = ffi::L4_REPLY_ANSWERED,
            Reply::Failed(error) => {
                given.kind = ffi::L4_REPLY_FAILED;
                given.error = error.number();
            }
            Reply::Unmapped => given.kind = ffi::L4_REPLY_UNMAPPED,
            Reply::Controlled => given.kind = ffi::L4_REPLY_CONTROLLED,
            Reply::Gone => given.kind = ffi::L4_REPLY_GONE,
        }
        given
    }

    /// Returns the line that `l4 run` prints for this reply of a thread, without its newline.
    ///
    /// ```
    /// use l4::{Call, Fpage, Kernel, ThreadId, Timeout};
    /// let mut kernel = Kernel::boot(1)?;
    /// kernel.enter(1, &Call::receive(ThreadId::ANY, Fpage::NIL, Timeout::Zero))?;
    /// let reply = kernel.reply(1).expect("the wait has ended");
    /// assert_eq!(reply.line(1), "1 ipc 00008000 3 nil");
    /// # Ok::<(), l4::Refusal>(())
    /// ```
    pub fn line(&self, thread: u32) -> String {
        ffi::reply_text(thread, &self.given())
    }

    /// Returns what an Ipc received, or why it failed. Returns `None` for other calls.
    ///
    /// ```
    /// use l4::{Call, ErrorCode, Fpage, Kernel, ThreadId, Timeout};
    /// let mut kernel = Kernel::boot(1)?;
    /// kernel.enter(1, &Call::receive(ThreadId::ANY, Fpage::NIL, Timeout::Zero))?;
    /// let reply = kernel.reply(1).expect("the wait has ended");
    /// assert_eq!(reply.received(), Some(Err(ErrorCode::RECEIVE_TIMEOUT)));
    /// # Ok::<(), l4::Refusal>(())
    /// ```
    pub fn received(&self) -> Option<Result<&Received, ErrorCode>> {
        match self {
            Reply::Ipc(received) => Some(received.error.map_or(Ok(received), Err)),
            _ => None,
        }
    }
}

#[cfg(test)]
mod tests {
    use super::*;

    #[test]
    fn a_message_has_words_and_items() {
        let received = Received {
            tag: 0x70081,
            error: None,
            from: ThreadId::SIGMA0,
            words: vec![5, 0x20008, 0x100c7],
        };
        assert_eq!((received.label(), received.untyped()), (7, &[5][..]));
        assert_eq!(received.message().words(), [0x70081, 5, 0x20008, 0x100c7]);
        let text = "message of thread 1: label 0x0007; 1 untyped; map 4 KiB at 0x10000 rwx, send base 0x20000";
        let words = "0x00070081 0x00000005 0x00020008 0x000100c7";
        assert_eq!(
            format!("{received:?}"),
            format!("Received({words}: {text})")
        );
        let items: Vec<Item> = received.items().collect();
        assert_eq!(
            (items.len(), items[0].base(), items[0].fpage().word()),
            (1, 0x20000, 0x100c7)
        );
    }

    #[test]
    fn each_error_has_its_text() {
        let texts: std::collections::BTreeSet<&str> = [2, 3, 4, 5, 6, 7, 8, 9]
            .map(|number| ErrorCode(number).text())
            .into();
        assert_eq!(texts.len(), 8);
        assert_eq!(
            ErrorCode(4).to_string(),
            "ErrorCode 4: there is no thread to send to"
        );
        assert_eq!(ErrorCode(14).text(), "the Ipc failed");
    }
}
