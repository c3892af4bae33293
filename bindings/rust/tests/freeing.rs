//! A kernel is freed with all its memory as it is dropped. Alone in its process, as it looks at the process's memory.
use l4::{Call, Kernel, Message, Reply, ThreadId, Timeout, MAX_FRAMES};
use std::fs;

/// The pages of memory that the process has in use; None if the system does not say.
fn resident_pages() -> Option<u64> {
    fs::read_to_string("/proc/self/statm")
        .ok()?
        .split(' ')
        .nth(1)?
        .parse()
        .ok()
}

/// Boots a kernel of many frames, uses it, and drops it.
fn use_a_kernel() {
    let mut kernel = Kernel::boot(MAX_FRAMES).unwrap();
    let message = Message::new(0, &[], &[]).unwrap();
    kernel
        .enter(1, &Call::send(ThreadId::NIL, &message, Timeout::Never))
        .unwrap();
    assert!(matches!(kernel.reply(1), Some(Reply::Ipc(_))));
}

#[test]
fn kernels_are_freed() {
    use_a_kernel();
    let before = resident_pages();
    use_a_kernel();
    for _ in 0..400 {
        use_a_kernel();
    }
    if let (Some(before), Some(after)) = (before, resident_pages()) {
        assert!(after < before + 400 * 4, "{before} pages, and then {after}");
    }
}
