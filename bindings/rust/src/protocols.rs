//! The messages that a pager and sigma0 receive.
use crate::ffi;
use crate::{Fpage, Message, Refusal, Rights};

/// A page fault, as the kernel sends it to a pager (L4 X.2 manual, page fault protocol).
///
/// ```
/// use l4::{Message, PageFault, Rights};
/// // a fault that reads at 0x5678
/// let message = Message::new(0xffe4, &[0x5678, 0x400100], &[])?;
/// let fault = PageFault { address: 0x5678, ip: 0x400100, access: Rights::READ };
/// assert_eq!(PageFault::read(&message)?, Some(fault));
/// assert_eq!(PageFault::read(&Message::new(7, &[], &[])?)?, None);
/// # Ok::<(), Box<dyn std::error::Error>>(())
/// ```
#[derive(Clone, Copy, PartialEq, Eq, Hash, Debug)]
pub struct PageFault {
    /// The fault address, in bytes.
    pub address: u32,
    /// The address of the instruction that tried the access, in bytes.
    pub ip: u32,
    /// The rights that the access needs.
    pub access: Rights,
}

impl PageFault {
    /// Reads a message as a page fault. Returns `None` if it is not one.
    ///
    /// A page fault has a label of 0xffe0 to 0xffe7, two untyped words and no item.
    ///
    /// # Errors
    ///
    /// M7, M1, M5, M2, M4 or M3 for words that are not a message.
    pub fn read(message: &Message) -> Result<Option<PageFault>, Refusal> {
        let told = ffi::read_fault(message.words());
        if told.refusal != ffi::L4_OK {
            return Err(Refusal::of(told.refusal, told.detail));
        }
        Ok((told.there != 0).then_some(PageFault {
            address: told.address,
            ip: told.ip,
            access: Rights::of_bits(told.access),
        }))
    }
}

/// A request to sigma0 for the frames of an fpage's pages (L4 X.2 manual, sigma0 protocol).
///
/// ```
/// use l4::{Fpage, FrameRequest, Message, Rights};
/// let fpage = Fpage::page(16, Rights::NONE)?;
/// let message = Message::new(0xffa0, &[fpage.word(), 0], &[])?;
/// assert_eq!(FrameRequest::read(&message)?, Some(FrameRequest { fpage, attributes: 0 }));
/// # Ok::<(), Box<dyn std::error::Error>>(())
/// ```
#[derive(Clone, Copy, PartialEq, Eq, Hash, Debug)]
pub struct FrameRequest {
    /// The fpage, without rights.
    pub fpage: Fpage,
    /// The memory attributes; 0 requests the machine's default attributes.
    pub attributes: u32,
}

impl FrameRequest {
    /// Reads a message as a request for frames. Returns `None` if it is not one.
    ///
    /// A request has the label 0xffa0, two untyped words, of which the first is an fpage, and no item.
    ///
    /// # Errors
    ///
    /// M7, M1, M5, M2, M4 or M3 for words that are not a message.
    pub fn read(message: &Message) -> Result<Option<FrameRequest>, Refusal> {
        let told = ffi::read_request(message.words());
        if told.refusal != ffi::L4_OK {
            return Err(Refusal::of(told.refusal, told.detail));
        }
        if told.there == 0 {
            return Ok(None);
        }
        Ok(Some(FrameRequest {
            fpage: Fpage::read(told.fpage).expect("a request's word is an fpage"),
            attributes: told.attributes,
        }))
    }
}
