//! The functions of the C header, and the only place that calls them. Code of this crate that uses this module cannot break the conditions
//! of the header: a handle has one owner, slices are live, and memory that is written overlaps nothing that is read.
#![allow(unsafe_code, non_camel_case_types)]

use std::cell::UnsafeCell;
use std::ffi::{c_char, c_void};
use std::ptr;

/// Declares structs with C's layout, and lists each member with its offset for the test.
macro_rules! structs {
    ($($(#[$note:meta])* struct $name:ident { $($member:ident: $kind:ty,)* })*) => {
        $(
            $(#[$note])*
            #[repr(C)]
            #[derive(Clone, Copy)]
            #[allow(dead_code)]
            pub(crate) struct $name {
                $(pub(crate) $member: $kind,)*
            }
        )*

        #[cfg(test)]
        fn struct_lines() -> Vec<String> {
            let mut lines = Vec::new();
            $(
                lines.push(format!("size {} {}", stringify!($name), std::mem::size_of::<$name>()));
                $(lines.push(format!(
                    "offset {} {} {}",
                    stringify!($name),
                    stringify!($member),
                    std::mem::offset_of!($name, $member)
                ));)*
            )*
            lines
        }
    };
}

/// Declares constants, and lists them for the test.
macro_rules! constants {
    ($($name:ident = $value:expr;)*) => {
        $(#[allow(dead_code)] pub(crate) const $name: u32 = $value;)*

        #[cfg(test)]
        fn constant_lines() -> Vec<String> {
            vec![$(format!("constant {} {}", stringify!($name), $name),)*]
        }
    };
}

/// Declares functions, and lists them for the test.
macro_rules! functions {
    ($(fn $name:ident($($parameter:ident: $kind:ty),*) -> $result:ty;)*) => {
        extern "C" {
            $(#[allow(dead_code)] fn $name($($parameter: $kind),*) -> $result;)*
        }

        #[cfg(test)]
        const FUNCTIONS: &[(&str, &str, &[(&str, &str)])] = &[
            $((stringify!($name), stringify!($result), &[$((stringify!($kind), stringify!($parameter))),*]),)*
        ];
    };
}

constants! {
    L4_VERSION_MAJOR = 0;
    L4_VERSION_MINOR = 1;
    L4_VERSION_PATCH = 0;
    L4_VERSION = 1000;
    L4_PAGE_LOG = 12;
    L4_PAGE_BYTES = 4096;
    L4_SMALL_PAGE_LOG = 10;
    L4_SMALL_PAGE_BYTES = 1024;
    L4_MAX_THREADS = 64;
    L4_MAX_WORDS = 64;
    L4_MAX_ITEMS = 31;
    L4_MAX_PLAN_ITEMS = 1984;
    L4_MAX_PLAN_MESSAGES = 64;
    L4_TOO_MANY = 1985;
    L4_MAX_FRAMES = 4096;
    L4_SPACE_PAGES = 1_048_576;
    L4_SMALL_SPACE_PAGES = 4_194_304;
    L4_MAX_REGIONS = 64;
    L4_NILTHREAD = 0;
    L4_ANYTHREAD = 0xFFFF_FFFF;
    L4_ZERO_TIMEOUT = 0x400;
    L4_READ = 4;
    L4_WRITE = 2;
    L4_EXECUTE = 1;
    L4_OK = 0;
    L4_B1 = 0x4231;
    L4_B2 = 0x4232;
    L4_B3 = 0x4233;
    L4_B4 = 0x4234;
    L4_B5 = 0x4235;
    L4_B6 = 0x4236;
    L4_B7 = 0x4237;
    L4_K1 = 0x4B31;
    L4_K2 = 0x4B32;
    L4_K3 = 0x4B33;
    L4_K4 = 0x4B34;
    L4_K6 = 0x4B36;
    L4_M1 = 0x4D31;
    L4_M2 = 0x4D32;
    L4_M3 = 0x4D33;
    L4_M4 = 0x4D34;
    L4_M5 = 0x4D35;
    L4_M6 = 0x4D36;
    L4_M7 = 0x4D37;
    L4_H1 = 0x4831;
    L4_H2 = 0x4832;
    L4_H3 = 0x4833;
    L4_H4 = 0x4834;
    L4_H5 = 0x4835;
    L4_H6 = 0x4836;
    L4_U1 = 0x5531;
    L4_U2 = 0x5532;
    L4_N1 = 0x4E31;
    L4_N2 = 0x4E32;
    L4_N3 = 0x4E33;
    L4_N4 = 0x4E34;
    L4_N5 = 0x4E35;
    L4_N6 = 0x4E36;
    L4_C1 = 0x4331;
    L4_C2 = 0x4332;
    L4_C3 = 0x4333;
    L4_C4 = 0x4334;
    L4_C5 = 0x4335;
    L4_C6 = 0x4336;
    L4_P1 = 0x5031;
    L4_P2 = 0x5032;
    L4_P3 = 0x5033;
    L4_P4 = 0x5034;
    L4_L1 = 0x4C31;
    L4_L3 = 0x4C33;
    L4_L4 = 0x4C34;
    L4_L6 = 0x4C36;
    L4_L7 = 0x4C37;
    L4_L8 = 0x4C38;
    L4_X1 = 0x5831;
    L4_X2 = 0x5832;
    L4_X3 = 0x5833;
    L4_S1 = 0x5331;
    L4_S2 = 0x5332;
    L4_S3 = 0x5333;
    L4_S4 = 0x5334;
    L4_S5 = 0x5335;
    L4_O1 = 0x4F31;
    L4_O2 = 0x4F32;
    L4_O3 = 0x4F33;
    L4_O4 = 0x4F34;
    L4_O5 = 0x4F35;
    L4_O6 = 0x4F36;
    L4_O7 = 0x4F37;
    L4_O8 = 0x4F38;
    L4_NO_MEMORY = 0x4E6F;
    L4_IPC = 1;
    L4_FAULT = 2;
    L4_UNMAP = 3;
    L4_CREATE = 4;
    L4_SET_PAGER = 5;
    L4_DELETE = 6;
    L4_STARTED = 1;
    L4_DELIVERED = 2;
    L4_NO_WINDOW = 3;
    L4_ENTANGLED = 4;
    L4_WANTS_MEMORY = 5;
    L4_EXPIRED = 6;
    L4_WAIT_ENDED = 7;
    L4_NONE = 0;
    L4_TRANSFER = 1;
    L4_EXPIRE = 2;
    L4_REPLY_IPC = 1;
    L4_REPLY_HIT = 2;
    L4_REPLY_ANSWERED = 3;
    L4_REPLY_FAILED = 4;
    L4_REPLY_UNMAPPED = 5;
    L4_REPLY_CONTROLLED = 6;
    L4_REPLY_GONE = 7;
    L4_STATE_ABSENT = 0;
    L4_STATE_NEW = 1;
    L4_STATE_RUNNING = 2;
    L4_STATE_SENDING = 3;
    L4_STATE_RECEIVING = 4;
    L4_AGREES = 1;
    L4_DIFFERS = 2;
    L4_NOT_ENABLED = 3;
    L4_START = 3;
    L4_TIMEOUT = 4;
    L4_CANCEL = 5;
    L4_ALL_ORDERS = 1;
    L4_MOST_STATES = 2;
    L4_LACKED_MEMORY = 3;
    L4_LACKED_HISTORY = 4;
    L4_CHECKPOINT_MAGIC = 1;
    L4_CHECKPOINT_VERSION = 2;
    L4_CHECKPOINT_FRAMES = 3;
    L4_CHECKPOINT_PAGE_SIZE = 4;
    L4_CHECKPOINT_ENTRIES = 5;
    L4_CHECKPOINT_CUT = 6;
    L4_CHECKPOINT_CHECKSUM = 7;
    L4_CHECKPOINT_EXTRA = 8;
    L4_CHECKPOINT_STATE = 9;
    L4_SIGMA0_ID = 0x4001;
    L4_ROOT_ID = 0x8001;
    L4_NIL_FPAGE = 0;
    L4_COMPLETE_FPAGE = 0x10;
}

structs! {
    struct l4_kernel {
        hidden: *mut c_void,
    }

    #[derive(Debug, PartialEq, Eq, Hash)]
    struct l4_call {
        kind: u32,
        to: u32,
        from: u32,
        timeouts: u32,
        acceptor: u32,
        address: u32,
        ip: u32,
        access: u32,
        control: u32,
        id: u32,
        space: u32,
        pager: u32,
        reserved: [u32; 4],
    }

    struct l4_answer {
        refusal: u32,
        detail: u32,
        outcome: u32,
        ended_count: u32,
        ended: [u32; L4_MAX_THREADS as usize],
        reserved: [u32; 2],
    }

    struct l4_step {
        refusal: u32,
        kind: u32,
        thread: u32,
        receiver: u32,
        outcome: u32,
        ended_count: u32,
        ended: [u32; 2],
        reserved: [u32; 2],
    }

    struct l4_entered {
        start: l4_answer,
        step_count: u32,
    }

    struct l4_reply {
        refusal: u32,
        kind: u32,
        tag: u32,
        error: u32,
        from: u32,
        word_count: u32,
        words: [u32; L4_MAX_WORDS as usize],
        reserved: [u32; 2],
    }

    struct l4_judgement {
        refusal: u32,
        verdict: u32,
        place: u64,
        length: u64,
        enabled: l4_step,
        reserved: [u32; 2],
    }

    struct l4_space {
        refusal: u32,
        there: u32,
        space: u64,
    }

    struct l4_thread {
        refusal: u32,
        there: u32,
        thread: u32,
    }

    struct l4_state {
        refusal: u32,
        state: u32,
        space: u64,
        id: u32,
        pager: u32,
        partner: u32,
        expires: u32,
        fault: u32,
        reserved: [u32; 3],
    }

    struct l4_page_size {
        refusal: u32,
        page_bytes: u32,
    }

    struct l4_mapping {
        refusal: u32,
        there: u32,
        frame: u32,
        rights: u32,
        has_parent: u32,
        parent_page: u32,
        parent_space: u64,
        reserved: [u32; 2],
    }

    struct l4_page {
        refusal: u32,
        there: u32,
        page: u32,
    }

    struct l4_count {
        refusal: u32,
        count: u64,
    }

    struct l4_mapped {
        page: u32,
        frame: u32,
        rights: u32,
        has_parent: u32,
        parent_space: u64,
        parent_page: u32,
        reserved: u32,
    }

    struct l4_place {
        space: u64,
        page: u32,
        reserved: u32,
    }

    struct l4_fault {
        refusal: u32,
        detail: u32,
        there: u32,
        address: u32,
        ip: u32,
        access: u32,
    }

    struct l4_request {
        refusal: u32,
        detail: u32,
        there: u32,
        fpage: u32,
        attributes: u32,
    }

    struct l4_region {
        source: u32,
        target: u32,
        count: u32,
        rights: u32,
    }

    struct l4_pager {
        hidden: *mut c_void,
    }

    struct l4_message {
        refusal: u32,
        detail: u32,
        word_count: u32,
        words: [u32; L4_MAX_WORDS as usize],
    }

    struct l4_sigma0 {
        hidden: *mut c_void,
    }

    struct l4_plan {
        refusal: u32,
        items: u32,
        messages: u32,
    }

    struct l4_part {
        refusal: u32,
        messages: u32,
        word_count: u32,
        page_count: u32,
        words: [u32; L4_MAX_WORDS as usize],
        pages: [u32; L4_MAX_ITEMS as usize],
    }

    struct l4_verdict {
        refusal: u32,
        detail: u32,
    }

    struct l4_lock {
        hidden: *mut c_void,
    }

    struct l4_seated {
        refusal: u32,
        detail: u32,
        reply: l4_reply,
    }

    struct l4_entry {
        refusal: u32,
        seat: u32,
        kind: u32,
        thread: u32,
        receiver: u32,
        outcome: u32,
        ended_count: u32,
        word_count: u32,
        ended: [u32; L4_MAX_THREADS as usize],
        words: [u32; L4_MAX_WORDS as usize],
        call: l4_call,
    }

    struct l4_segment {
        hidden: *mut c_void,
    }

    struct l4_seat {
        refusal: u32,
        there: u32,
        starts: u64,
        receipts: u64,
        kept_from: u64,
    }

    struct l4_receipt {
        refusal: u32,
        there: u32,
        start: u64,
        end: u64,
        word_count: u32,
        words: [u32; L4_MAX_WORDS as usize],
        call: l4_call,
        reply: l4_reply,
    }

    struct l4_link {
        entry: u64,
        source_space: u64,
        target_space: u64,
        source_page: u32,
        target_page: u32,
        grant: u32,
        source_rights: u32,
        item_rights: u32,
        reserved: u32,
    }

    struct l4_chain {
        refusal: u32,
        detail: u32,
        there: u32,
        count: u64,
    }

    struct l4_orders {
        hidden: *mut c_void,
    }

    struct l4_searched {
        refusal: u32,
        detail: u32,
        line: u64,
    }

    struct l4_found {
        refusal: u32,
        ended: u32,
        outcomes: u64,
        orders: u64,
        states: u64,
    }

    struct l4_checkpoint {
        refusal: u32,
        fault: u32,
        position: u64,
        entries: u64,
        frames: u32,
        reserved: u32,
    }
}

functions! {
    fn l4_version() -> u32;
    fn l4_refusal_code(refusal: u32, out: *mut c_char, room: usize) -> usize;
    fn l4_refusal_text(refusal: u32, out: *mut c_char, room: usize) -> usize;
    fn l4_reply_text(thread: u32, reply: *const l4_reply, out: *mut c_char, room: usize) -> usize;
    fn l4_step_text(step: *const l4_step, out: *mut c_char, room: usize) -> usize;
    fn l4_boot(kernel: *mut l4_kernel, frames: u32) -> u32;
    fn l4_boot_sized(kernel: *mut l4_kernel, frames: u32, page_bytes: u32) -> u32;
    fn l4_copy(kernel: *mut l4_kernel, copy: *mut l4_kernel) -> u32;
    fn l4_free(kernel: *mut l4_kernel) -> ();
    fn l4_start(kernel: *mut l4_kernel, thread: u32, call: *const l4_call, words: *const u32, count: usize) -> l4_answer;
    fn l4_transfer(kernel: *mut l4_kernel, sender: u32, receiver: u32) -> l4_answer;
    fn l4_expire(kernel: *mut l4_kernel, thread: u32) -> l4_answer;
    fn l4_timeout(kernel: *mut l4_kernel, thread: u32) -> l4_answer;
    fn l4_cancel(kernel: *mut l4_kernel, thread: u32) -> l4_answer;
    fn l4_enabled(kernel: *mut l4_kernel) -> l4_step;
    fn l4_next(kernel: *mut l4_kernel) -> l4_step;
    fn l4_enter(kernel: *mut l4_kernel, thread: u32, call: *const l4_call, words: *const u32, count: usize, steps: *mut l4_step, room: usize) -> l4_entered;
    fn l4_reply_of(kernel: *mut l4_kernel, thread: u32) -> l4_reply;
    fn l4_execute(kernel: *mut l4_kernel, step: *const c_char, step_length: usize, out: *mut c_char, room: usize) -> l4_count;
    fn l4_judge(kernel: *mut l4_kernel, step: *const c_char, step_length: usize, found: *const c_char, found_length: usize, expected: *mut c_char, room: usize) -> l4_judgement;
    fn l4_space_of(kernel: *mut l4_kernel, thread: u32) -> l4_space;
    fn l4_next_space(kernel: *mut l4_kernel, space: u64) -> l4_space;
    fn l4_next_thread(kernel: *mut l4_kernel, thread: u32) -> l4_thread;
    fn l4_state_of(kernel: *mut l4_kernel, thread: u32) -> l4_state;
    fn l4_page_size_of(kernel: *mut l4_kernel) -> l4_page_size;
    fn l4_mapping_of(kernel: *mut l4_kernel, space: u64, page: u32) -> l4_mapping;
    fn l4_next_page(kernel: *mut l4_kernel, space: u64, page: u32) -> l4_page;
    fn l4_mappings(kernel: *mut l4_kernel, space: u64, page: u32, pages: *mut l4_mapped, room: usize) -> l4_count;
    fn l4_descendants(kernel: *mut l4_kernel, space: u64, page: u32, places: *mut l4_place, room: usize) -> l4_count;
    fn l4_read_fault(words: *const u32, count: usize) -> l4_fault;
    fn l4_read_request(words: *const u32, count: usize) -> l4_request;
    fn l4_pager_new(pager: *mut l4_pager) -> u32;
    fn l4_pager_new_sized(pager: *mut l4_pager, page_bytes: u32) -> u32;
    fn l4_pager_free(pager: *mut l4_pager) -> ();
    fn l4_pager_add(pager: *mut l4_pager, region: *const l4_region) -> u32;
    fn l4_pager_find(pager: *mut l4_pager, page: u32, access: u32) -> l4_page;
    fn l4_pager_answer(pager: *mut l4_pager, words: *const u32, count: usize) -> l4_message;
    fn l4_sigma0_new(sigma0: *mut l4_sigma0, frames: u32) -> u32;
    fn l4_sigma0_new_sized(sigma0: *mut l4_sigma0, frames: u32, page_bytes: u32) -> u32;
    fn l4_sigma0_free(sigma0: *mut l4_sigma0) -> ();
    fn l4_sigma0_answer(sigma0: *mut l4_sigma0, space: u64, words: *const u32, count: usize) -> l4_message;
    fn l4_plan_region(region: *const l4_region) -> l4_plan;
    fn l4_plan_region_sized(region: *const l4_region, page_bytes: u32) -> l4_plan;
    fn l4_plan_message(region: *const l4_region, number: u32) -> l4_part;
    fn l4_plan_message_sized(region: *const l4_region, number: u32, page_bytes: u32) -> l4_part;
    fn l4_plan_pages(region: *const l4_region, pages: *mut u32, room: usize) -> u32;
    fn l4_plan_pages_sized(region: *const l4_region, pages: *mut u32, room: usize, page_bytes: u32) -> u32;
    fn l4_check_plan(region: *const l4_region, words: *const u32, count: usize, pages: *const u32, page_count: usize) -> l4_verdict;
    fn l4_check_plan_sized(region: *const l4_region, words: *const u32, count: usize, pages: *const u32, page_count: usize, page_bytes: u32) -> l4_verdict;
    fn l4_check_too_long(region: *const l4_region, pages: *const u32, page_count: usize) -> l4_verdict;
    fn l4_check_too_long_sized(region: *const l4_region, pages: *const u32, page_count: usize, page_bytes: u32) -> l4_verdict;
    fn l4_lock_new(lock: *mut l4_lock, frames: u32) -> u32;
    fn l4_lock_new_sized(lock: *mut l4_lock, frames: u32, page_bytes: u32) -> u32;
    fn l4_lock_free(lock: *mut l4_lock) -> ();
    fn l4_lock_give(lock: *mut l4_lock, seat: u32) -> u32;
    fn l4_lock_enter(lock: *mut l4_lock, seat: u32, call: *const l4_call, words: *const u32, count: usize) -> l4_seated;
    fn l4_lock_timeout(lock: *mut l4_lock, thread: u32) -> u32;
    fn l4_lock_cancel(lock: *mut l4_lock, thread: u32) -> u32;
    fn l4_lock_take(lock: *mut l4_lock, seat: u32) -> l4_reply;
    fn l4_lock_length(lock: *mut l4_lock) -> l4_count;
    fn l4_lock_kept_from(lock: *mut l4_lock) -> l4_count;
    fn l4_lock_entry(lock: *mut l4_lock, number: usize) -> l4_entry;
    fn l4_lock_ended(lock: *mut l4_lock, number: usize, threads: *mut u32, room: usize) -> l4_count;
    fn l4_lock_frames_of(lock: *mut l4_lock) -> l4_count;
    fn l4_lock_hand_out(lock: *mut l4_lock, segment: *mut l4_segment) -> u32;
    fn l4_segment_free(segment: *mut l4_segment) -> ();
    fn l4_segment_first(segment: *mut l4_segment) -> l4_count;
    fn l4_segment_length(segment: *mut l4_segment) -> l4_count;
    fn l4_segment_entry(segment: *mut l4_segment, number: usize) -> l4_entry;
    fn l4_segment_bytes(segment: *mut l4_segment, out: *mut u8, room: usize) -> l4_count;
    fn l4_lock_seat_of(lock: *mut l4_lock, seat: u32) -> l4_seat;
    fn l4_lock_receipt(lock: *mut l4_lock, seat: u32, number: usize) -> l4_receipt;
    fn l4_lock_provenance(lock: *mut l4_lock, space: u64, page: u32, links: *mut l4_link, room: usize) -> l4_chain;
    fn l4_lock_check_provenance(lock: *mut l4_lock, space: u64, page: u32, links: *const l4_link, count: usize) -> l4_verdict;
    fn l4_lock_space_of(lock: *mut l4_lock, thread: u32) -> l4_space;
    fn l4_lock_next_space(lock: *mut l4_lock, space: u64) -> l4_space;
    fn l4_lock_next_thread(lock: *mut l4_lock, thread: u32) -> l4_thread;
    fn l4_lock_state_of(lock: *mut l4_lock, thread: u32) -> l4_state;
    fn l4_lock_reply_of(lock: *mut l4_lock, thread: u32) -> l4_reply;
    fn l4_lock_page_size_of(lock: *mut l4_lock) -> l4_page_size;
    fn l4_lock_mapping_of(lock: *mut l4_lock, space: u64, page: u32) -> l4_mapping;
    fn l4_lock_next_page(lock: *mut l4_lock, space: u64, page: u32) -> l4_page;
    fn l4_lock_mappings(lock: *mut l4_lock, space: u64, page: u32, pages: *mut l4_mapped, room: usize) -> l4_count;
    fn l4_lock_descendants(lock: *mut l4_lock, space: u64, page: u32, places: *mut l4_place, room: usize) -> l4_count;
    fn l4_lock_copy(lock: *mut l4_lock, copy: *mut l4_kernel) -> u32;
    fn l4_lock_close(lock: *mut l4_lock, seats: *const u32, count: usize) -> l4_verdict;
    fn l4_orders_search(orders: *mut l4_orders, frames: u32, plan: *const c_char, length: usize, most: u64) -> l4_searched;
    fn l4_orders_search_sized(orders: *mut l4_orders, frames: u32, plan: *const c_char, length: usize, most: u64, page_bytes: u32) -> l4_searched;
    fn l4_orders_found(orders: *mut l4_orders) -> l4_found;
    fn l4_orders_number(orders: *mut l4_orders, out: *mut c_char, room: usize) -> l4_count;
    fn l4_orders_answers(orders: *mut l4_orders, outcome: usize, out: *mut c_char, room: usize) -> l4_count;
    fn l4_orders_witness(orders: *mut l4_orders, outcome: usize, out: *mut c_char, room: usize) -> l4_count;
    fn l4_orders_lines(orders: *mut l4_orders, outcome: usize, lines: *mut u64, room: usize) -> l4_count;
    fn l4_orders_broken(orders: *mut l4_orders, outcome: usize, out: *mut c_char, room: usize) -> l4_count;
    fn l4_orders_free(orders: *mut l4_orders) -> ();
    fn l4_checkpoint_write(kernel: *mut l4_kernel, frames: u32, entries: usize, out: *mut u8, room: usize) -> l4_count;
    fn l4_checkpoint_read(kernel: *mut l4_kernel, bytes: *const u8, length: usize) -> l4_checkpoint;
}

/// No step.
pub(crate) const NO_STEP: l4_step = l4_step {
    refusal: L4_OK,
    kind: L4_NONE,
    thread: 0,
    receiver: 0,
    outcome: 0,
    ended_count: 0,
    ended: [0; 2],
    reserved: [0; 2],
};

/// No reply.
pub(crate) const NO_REPLY: l4_reply = l4_reply {
    refusal: L4_OK,
    kind: L4_NONE,
    tag: 0,
    error: 0,
    from: 0,
    word_count: 0,
    words: [0; L4_MAX_WORDS as usize],
    reserved: [0; 2],
};

/// No link.
const NO_LINK: l4_link = l4_link {
    entry: 0,
    source_space: 0,
    target_space: 0,
    source_page: 0,
    target_page: 0,
    grant: 0,
    source_rights: 0,
    item_rights: 0,
    reserved: 0,
};

/// No page with a mapping.
const NOT_MAPPED: l4_mapped = l4_mapped {
    page: 0,
    frame: 0,
    rights: 0,
    has_parent: 0,
    parent_space: 0,
    parent_page: 0,
    reserved: 0,
};

/// Room for as many pages as most spaces have.
const MAPPED_ROOM: usize = 64;

/// No page.
const NO_PLACE: l4_place = l4_place {
    space: 0,
    page: 0,
    reserved: 0,
};

/// Room for as many pages as descend from most pages.
const PLACE_ROOM: usize = 16;

/// Room for as many links as most pages have.
const LINK_ROOM: usize = 16;

/// Whether a library of this version has the functions and structs that this crate declares.
fn fits(version: u32) -> bool {
    let line = |number: u32| number - number % if number < 1_000_000 { 1_000 } else { 1_000_000 };
    line(version) == line(L4_VERSION) && version >= L4_VERSION
}

/// Panics if the archive has a version that does not fit this crate, since its structs may have another layout.
fn check_version() {
    let version = version();
    let text = |number: u32| {
        format!(
            "{}.{}.{}",
            number / 1_000_000,
            number / 1_000 % 1_000,
            number % 1_000
        )
    };
    assert!(
        fits(version),
        "this crate needs libl4 {}, but the archive is libl4 {}",
        text(L4_VERSION),
        text(version)
    );
}

/// A handle as the header declares it: one private pointer, or none.
pub(crate) trait Hidden {
    /// The handle before its object is made, and after the object is freed.
    const EMPTY: Self;

    /// Frees the handle's object, and leaves the handle empty.
    ///
    /// # Safety
    ///
    /// The handle must be live, and no call on it may be in progress.
    unsafe fn free(handle: *mut Self);
}

/// Names the functions that free the objects of handles.
macro_rules! hidden {
    ($($handle:ident $free:ident;)*) => {
        $(impl Hidden for $handle {
            const EMPTY: $handle = $handle {
                hidden: ptr::null_mut(),
            };

            unsafe fn free(handle: *mut $handle) {
                // SAFETY: what this function asks is what the header asks.
                unsafe { $free(handle) }
            }
        })*
    };
}

hidden! {
    l4_kernel l4_free;
    l4_pager l4_pager_free;
    l4_sigma0 l4_sigma0_free;
    l4_lock l4_lock_free;
    l4_segment l4_segment_free;
    l4_orders l4_orders_free;
}

/// A handle that owns an object from its creation to its drop. The library may write to the handle in every call, including queries. So the
/// handle is in a cell, and no two threads share it.
pub(crate) struct Handle<T: Hidden> {
    cell: UnsafeCell<T>,
}

// SAFETY: the header allows handing a handle from thread to thread, and its object belongs to no thread: its memory comes from malloc, and
// the library has no global state. It is not Sync (UnsafeCell, and a raw pointer in it): a handle takes one call at a time.
unsafe impl<T: Hidden> Send for Handle<T> {}

impl<T: Hidden> Handle<T> {
    /// Makes an object in an empty handle, or returns the number of the refusal.
    fn made(make: impl FnOnce(*mut T) -> u32) -> Result<Handle<T>, u32> {
        check_version();
        let handle = Handle {
            cell: UnsafeCell::new(T::EMPTY),
        };
        match make(handle.cell.get()) {
            L4_OK => Ok(handle),
            refusal => Err(refusal),
        }
    }
}

impl<T: Hidden> Drop for Handle<T> {
    fn drop(&mut self) {
        // SAFETY: the handle is live and borrowed exclusively, and freeing leaves it empty; nothing refers to it after its drop.
        unsafe { T::free(self.cell.get()) }
    }
}

impl Handle<l4_kernel> {
    /// Boots a kernel with pages of this many bytes, or returns the number of the refusal.
    pub(crate) fn boot(frames: u32, page_bytes: u32) -> Result<Handle<l4_kernel>, u32> {
        // SAFETY: the handle that `made` passes is empty, live and not shared.
        Handle::made(|handle| unsafe { l4_boot_sized(handle, frames, page_bytes) })
    }

    /// Copies the kernel into a handle of its own, or returns the number of the refusal.
    pub(crate) fn copy(&self) -> Result<Handle<l4_kernel>, u32> {
        // SAFETY: as in `enabled`; the handle that `made` passes is empty, live and not shared, so it is not this one.
        Handle::made(|copy| unsafe { l4_copy(self.cell.get(), copy) })
    }

    /// Returns the checkpoint of the kernel, or the number of the refusal.
    pub(crate) fn checkpoint(&self, frames: u32, entries: usize) -> Result<Vec<u8>, u32> {
        // SAFETY: as in `enabled`; the room is that of the place, which belongs to `all`.
        all(|out, room| unsafe { l4_checkpoint_write(self.cell.get(), frames, entries, out, room) })
    }

    /// Reads a checkpoint into a handle of its own, with the numbers that stand in it, or returns what is wrong with the bytes.
    pub(crate) fn read(bytes: &[u8]) -> Result<(Handle<l4_kernel>, l4_checkpoint), l4_checkpoint> {
        let mut told = l4_checkpoint {
            refusal: L4_OK,
            fault: 0,
            position: 0,
            entries: 0,
            frames: 0,
            reserved: 0,
        };
        let made = Handle::made(|handle| {
            // SAFETY: as in `boot`; the bytes live as long as their borrow, and a slice's pointer is aligned and never null.
            told = unsafe { l4_checkpoint_read(handle, bytes.as_ptr(), bytes.len()) };
            told.refusal
        });
        match made {
            Ok(handle) => Ok((handle, told)),
            Err(_) => Err(told),
        }
    }

    pub(crate) fn start(&mut self, thread: u32, call: &l4_call, words: &[u32]) -> l4_answer {
        // SAFETY: the handle is live and borrowed alone, so it overlaps neither the call nor the words, which live as long as their
        // borrows; a slice's pointer is aligned and never null, also where it has no words.
        unsafe { l4_start(self.cell.get(), thread, call, words.as_ptr(), words.len()) }
    }

    pub(crate) fn transfer(&mut self, sender: u32, receiver: u32) -> l4_answer {
        // SAFETY: the handle is live and borrowed alone.
        unsafe { l4_transfer(self.cell.get(), sender, receiver) }
    }

    pub(crate) fn expire(&mut self, thread: u32) -> l4_answer {
        // SAFETY: the handle is live and borrowed alone.
        unsafe { l4_expire(self.cell.get(), thread) }
    }

    pub(crate) fn timeout(&mut self, thread: u32) -> l4_answer {
        // SAFETY: the handle is live and borrowed alone.
        unsafe { l4_timeout(self.cell.get(), thread) }
    }

    pub(crate) fn cancel(&mut self, thread: u32) -> l4_answer {
        // SAFETY: the handle is live and borrowed alone.
        unsafe { l4_cancel(self.cell.get(), thread) }
    }

    pub(crate) fn enabled(&self) -> l4_step {
        // SAFETY: the handle is live, and no other call is in progress: only this thread has it, since it is not Sync, and calls do not
        // nest.
        unsafe { l4_enabled(self.cell.get()) }
    }

    pub(crate) fn next(&mut self) -> l4_step {
        // SAFETY: the handle is live and borrowed alone.
        unsafe { l4_next(self.cell.get()) }
    }

    /// Writes the executed steps to the array, as many as the result counts. There are at most 64, and the array has room for 64.
    pub(crate) fn enter(
        &mut self,
        thread: u32,
        call: &l4_call,
        words: &[u32],
    ) -> (l4_entered, [l4_step; L4_MAX_THREADS as usize]) {
        let mut steps = [NO_STEP; L4_MAX_THREADS as usize];
        let (count, room) = (words.len(), steps.len());
        // SAFETY: as in `start`; the steps belong to this function, and their room is their length.
        let entered = unsafe {
            l4_enter(
                self.cell.get(),
                thread,
                call,
                words.as_ptr(),
                count,
                steps.as_mut_ptr(),
                room,
            )
        };
        (entered, steps)
    }

    /// Executes a line, and returns the lines of its answer too.
    pub(crate) fn execute(&mut self, step: &str) -> (l4_count, String) {
        let mut out = vec![0u8; ANSWER_ROOM];
        let (kernel, room) = (self.cell.get(), out.len());
        // SAFETY: the handle is live and borrowed alone, so it does not overlap the step, which lives as long as its borrow; the array belongs
        // to this function, and its room is its length.
        let told = unsafe {
            l4_execute(
                kernel,
                step.as_ptr().cast(),
                step.len(),
                out.as_mut_ptr().cast(),
                room,
            )
        };
        out.truncate(told.count as usize);
        (told, String::from_utf8_lossy(&out).into_owned())
    }

    /// Compares an answer, and returns the line that was expected too.
    pub(crate) fn judge(&mut self, step: &str, found: &str) -> (l4_judgement, String) {
        let mut line = [0u8; TEXT_ROOM];
        let (kernel, room) = (self.cell.get(), line.len());
        // SAFETY: the handle is live and borrowed alone, so it overlaps neither text, which live as long as their borrows; the line belongs
        // to this function, and its room is its length.
        let judgement = unsafe {
            l4_judge(
                kernel,
                step.as_ptr().cast(),
                step.len(),
                found.as_ptr().cast(),
                found.len(),
                line.as_mut_ptr().cast(),
                room,
            )
        };
        let length = room.min(judgement.length as usize);
        let expected = String::from_utf8_lossy(&line[..length]).into_owned();
        (judgement, expected)
    }
}

/// The queries that a kernel and a locked kernel answer.
pub(crate) trait Asked {
    fn space_of(&self, thread: u32) -> l4_space;
    fn next_space(&self, space: u64) -> l4_space;
    fn next_thread(&self, thread: u32) -> l4_thread;
    fn state_of(&self, thread: u32) -> l4_state;
    fn reply_of(&self, thread: u32) -> l4_reply;
    fn page_size(&self) -> l4_page_size;
    fn mapping_of(&self, space: u64, page: u32) -> l4_mapping;
    fn next_page(&self, space: u64, page: u32) -> l4_page;
    /// Returns the present pages of a space from this one on.
    fn mappings(&self, space: u64, page: u32) -> Vec<l4_mapped>;
    /// Returns the pages that descend from a page, as many as the result counts.
    fn descendants(&self, space: u64, page: u32) -> (l4_count, Vec<l4_place>);
}

/// Implements the queries by these functions of the header.
macro_rules! asked {
    (
        $handle:ident,
        $space_of:ident,
        $next_space:ident,
        $next_thread:ident,
        $state_of:ident,
        $reply_of:ident,
        $page_size_of:ident,
        $mapping_of:ident,
        $next_page:ident,
        $mappings:ident,
        $descendants:ident
    ) => {
        impl Asked for Handle<$handle> {
            fn space_of(&self, thread: u32) -> l4_space {
                // SAFETY: as in `enabled`.
                unsafe { $space_of(self.cell.get(), thread) }
            }

            fn next_space(&self, space: u64) -> l4_space {
                // SAFETY: as in `enabled`.
                unsafe { $next_space(self.cell.get(), space) }
            }

            fn next_thread(&self, thread: u32) -> l4_thread {
                // SAFETY: as in `enabled`.
                unsafe { $next_thread(self.cell.get(), thread) }
            }

            fn state_of(&self, thread: u32) -> l4_state {
                // SAFETY: as in `enabled`.
                unsafe { $state_of(self.cell.get(), thread) }
            }

            fn reply_of(&self, thread: u32) -> l4_reply {
                // SAFETY: as in `enabled`.
                unsafe { $reply_of(self.cell.get(), thread) }
            }

            fn page_size(&self) -> l4_page_size {
                // SAFETY: as in `enabled`.
                unsafe { $page_size_of(self.cell.get()) }
            }

            fn mapping_of(&self, space: u64, page: u32) -> l4_mapping {
                // SAFETY: as in `enabled`.
                unsafe { $mapping_of(self.cell.get(), space, page) }
            }

            fn next_page(&self, space: u64, page: u32) -> l4_page {
                // SAFETY: as in `enabled`.
                unsafe { $next_page(self.cell.get(), space, page) }
            }

            fn mappings(&self, space: u64, page: u32) -> Vec<l4_mapped> {
                let mut pages = vec![NOT_MAPPED; MAPPED_ROOM];
                loop {
                    let (room, first) = (pages.len(), pages.as_mut_ptr());
                    // SAFETY: as in `enabled`; the pages belong to this function, and their room is their length.
                    let told = unsafe { $mappings(self.cell.get(), space, page, first, room) };
                    let count = told.count as usize;
                    pages.resize(count, NOT_MAPPED);
                    if count <= room {
                        return pages;
                    }
                }
            }

            fn descendants(&self, space: u64, page: u32) -> (l4_count, Vec<l4_place>) {
                let mut places = vec![NO_PLACE; PLACE_ROOM];
                loop {
                    let (room, first) = (places.len(), places.as_mut_ptr());
                    // SAFETY: as in `enabled`; the places belong to this function, and their room is their length.
                    let told = unsafe { $descendants(self.cell.get(), space, page, first, room) };
                    let count = told.count as usize;
                    places.resize(count, NO_PLACE);
                    if count <= room {
                        return (told, places);
                    }
                }
            }
        }
    };
}

asked!(
    l4_kernel,
    l4_space_of,
    l4_next_space,
    l4_next_thread,
    l4_state_of,
    l4_reply_of,
    l4_page_size_of,
    l4_mapping_of,
    l4_next_page,
    l4_mappings,
    l4_descendants
);

asked!(
    l4_lock,
    l4_lock_space_of,
    l4_lock_next_space,
    l4_lock_next_thread,
    l4_lock_state_of,
    l4_lock_reply_of,
    l4_lock_page_size_of,
    l4_lock_mapping_of,
    l4_lock_next_page,
    l4_lock_mappings,
    l4_lock_descendants
);

impl Handle<l4_lock> {
    /// Boots a locked kernel with pages of this many bytes, or returns the number of the refusal.
    pub(crate) fn lock(frames: u32, page_bytes: u32) -> Result<Handle<l4_lock>, u32> {
        // SAFETY: as in `boot`.
        Handle::made(|handle| unsafe { l4_lock_new_sized(handle, frames, page_bytes) })
    }

    pub(crate) fn give(&mut self, seat: u32) -> u32 {
        // SAFETY: the handle is live and borrowed alone.
        unsafe { l4_lock_give(self.cell.get(), seat) }
    }

    pub(crate) fn enter(&mut self, seat: u32, call: &l4_call, words: &[u32]) -> l4_seated {
        // SAFETY: as in `start`.
        unsafe { l4_lock_enter(self.cell.get(), seat, call, words.as_ptr(), words.len()) }
    }

    pub(crate) fn timeout(&mut self, thread: u32) -> u32 {
        // SAFETY: the handle is live and borrowed alone.
        unsafe { l4_lock_timeout(self.cell.get(), thread) }
    }

    pub(crate) fn cancel(&mut self, thread: u32) -> u32 {
        // SAFETY: the handle is live and borrowed alone.
        unsafe { l4_lock_cancel(self.cell.get(), thread) }
    }

    pub(crate) fn take(&mut self, seat: u32) -> l4_reply {
        // SAFETY: the handle is live and borrowed alone.
        unsafe { l4_lock_take(self.cell.get(), seat) }
    }

    pub(crate) fn length(&self) -> l4_count {
        // SAFETY: as in `enabled`.
        unsafe { l4_lock_length(self.cell.get()) }
    }

    pub(crate) fn kept_from(&self) -> l4_count {
        // SAFETY: as in `enabled`.
        unsafe { l4_lock_kept_from(self.cell.get()) }
    }

    pub(crate) fn entry(&self, number: usize) -> l4_entry {
        // SAFETY: as in `enabled`.
        unsafe { l4_lock_entry(self.cell.get(), number) }
    }

    /// Returns the threads whose calls ended in the entries from this number on, and how many they are: at most as many as threads exist.
    pub(crate) fn ended(&self, number: usize) -> ([u32; L4_MAX_THREADS as usize], usize) {
        let mut threads = [0; L4_MAX_THREADS as usize];
        // SAFETY: as in `enabled`; the array has room for that many numbers, and is borrowed alone.
        let told =
            unsafe { l4_lock_ended(self.cell.get(), number, threads.as_mut_ptr(), threads.len()) };
        (threads, threads.len().min(told.count as usize))
    }

    pub(crate) fn frames(&self) -> u32 {
        // SAFETY: as in `enabled`.
        unsafe { l4_lock_frames_of(self.cell.get()) }.count as u32
    }

    /// Hands out the entries that are kept, into a handle of their own, or returns the number of the refusal.
    pub(crate) fn hand_out(&mut self) -> Result<Handle<l4_segment>, u32> {
        // SAFETY: the handle is live and borrowed alone; the one that `made` passes is empty, live and not shared, so it is not this one.
        Handle::made(|segment| unsafe { l4_lock_hand_out(self.cell.get(), segment) })
    }

    /// Copies the kernel into a handle of its own, or returns the number of the refusal.
    pub(crate) fn copy(&self) -> Result<Handle<l4_kernel>, u32> {
        // SAFETY: as in `enabled`; the handle that `made` passes is empty, live and not shared.
        Handle::made(|copy| unsafe { l4_lock_copy(self.cell.get(), copy) })
    }

    pub(crate) fn seat_of(&self, seat: u32) -> l4_seat {
        // SAFETY: as in `enabled`.
        unsafe { l4_lock_seat_of(self.cell.get(), seat) }
    }

    pub(crate) fn receipt(&self, seat: u32, number: usize) -> l4_receipt {
        // SAFETY: as in `enabled`.
        unsafe { l4_lock_receipt(self.cell.get(), seat, number) }
    }

    /// Returns the links of a page, as many as the result counts.
    pub(crate) fn provenance(&self, space: u64, page: u32) -> (l4_chain, Vec<l4_link>) {
        let mut links = vec![NO_LINK; LINK_ROOM];
        loop {
            let room = links.len();
            // SAFETY: as in `enabled`; the links belong to this function, and their room is their length.
            let told = unsafe {
                l4_lock_provenance(self.cell.get(), space, page, links.as_mut_ptr(), room)
            };
            let count = told.count as usize;
            links.resize(count, NO_LINK);
            if count <= room {
                return (told, links);
            }
        }
    }

    pub(crate) fn check_provenance(&self, space: u64, page: u32, links: &[l4_link]) -> l4_verdict {
        let (first, count) = (links.as_ptr(), links.len());
        // SAFETY: as in `enabled`; the links live as long as their borrow, and a slice's pointer is aligned and never null.
        unsafe { l4_lock_check_provenance(self.cell.get(), space, page, first, count) }
    }

    pub(crate) fn close(&mut self, seats: &[u32]) -> l4_verdict {
        // SAFETY: the handle is live and borrowed alone, so it doesn't overlap the seats; a slice's pointer is aligned and never null.
        unsafe { l4_lock_close(self.cell.get(), seats.as_ptr(), seats.len()) }
    }
}

impl Handle<l4_segment> {
    pub(crate) fn first(&self) -> l4_count {
        // SAFETY: as in `enabled`.
        unsafe { l4_segment_first(self.cell.get()) }
    }

    pub(crate) fn length(&self) -> l4_count {
        // SAFETY: as in `enabled`.
        unsafe { l4_segment_length(self.cell.get()) }
    }

    pub(crate) fn entry(&self, number: usize) -> l4_entry {
        // SAFETY: as in `enabled`.
        unsafe { l4_segment_entry(self.cell.get(), number) }
    }

    /// Returns the file of the segment, or the number of the refusal.
    pub(crate) fn bytes(&self) -> Result<Vec<u8>, u32> {
        // SAFETY: as in `enabled`; the room is that of the place, which belongs to `all`.
        all(|out, room| unsafe { l4_segment_bytes(self.cell.get(), out, room) })
    }
}

impl Handle<l4_orders> {
    /// Searches the orders of a plan for pages of this many bytes, or returns the refusal.
    pub(crate) fn search(
        frames: u32,
        plan: &str,
        most: u64,
        page_bytes: u32,
    ) -> Result<Handle<l4_orders>, l4_searched> {
        let mut told = l4_searched {
            refusal: L4_OK,
            detail: 0,
            line: 0,
        };
        let (first, length) = (plan.as_ptr().cast(), plan.len());
        let made = Handle::made(|handle| {
            // SAFETY: as in `boot`; the plan lives as long as its borrow, and a slice's pointer is aligned and never null.
            told =
                unsafe { l4_orders_search_sized(handle, frames, first, length, most, page_bytes) };
            told.refusal
        });
        made.map_err(|_| told)
    }

    pub(crate) fn found(&self) -> l4_found {
        // SAFETY: as in `enabled`.
        unsafe { l4_orders_found(self.cell.get()) }
    }

    /// Returns the number of orders in decimal, which is empty if the search ended early, or the number of the refusal.
    pub(crate) fn orders(&self) -> Result<String, u32> {
        // SAFETY: as in `answers`.
        whole(|out, room| unsafe { l4_orders_number(self.cell.get(), out, room) })
    }

    pub(crate) fn answers(&self, outcome: usize) -> String {
        // SAFETY: as in `enabled`; the room is that of the place, which belongs to `whole`.
        whole(|out, room| unsafe { l4_orders_answers(self.cell.get(), outcome, out, room) })
            .unwrap_or_default()
    }

    /// Returns the script of an outcome, or the number of the refusal.
    pub(crate) fn witness(&self, outcome: usize) -> Result<String, u32> {
        // SAFETY: as in `answers`.
        whole(|out, room| unsafe { l4_orders_witness(self.cell.get(), outcome, out, room) })
    }

    /// Returns the rules that an outcome breaks, or the number of the refusal.
    pub(crate) fn broken(&self, outcome: usize) -> Result<String, u32> {
        // SAFETY: as in `answers`.
        whole(|out, room| unsafe { l4_orders_broken(self.cell.get(), outcome, out, room) })
    }

    /// Returns the numbers of the lines of an outcome's order, or the number of the refusal.
    pub(crate) fn lines(&self, outcome: usize) -> Result<Vec<u64>, u32> {
        // SAFETY: as in `enabled`; the room is that of the place, which belongs to `all`.
        all(|out, room| unsafe { l4_orders_lines(self.cell.get(), outcome, out, room) })
    }
}

impl Handle<l4_pager> {
    /// Makes a pager's table without regions, for pages of this many bytes, or returns the number of the refusal.
    pub(crate) fn pager(page_bytes: u32) -> Result<Handle<l4_pager>, u32> {
        // SAFETY: as in `boot`.
        Handle::made(|handle| unsafe { l4_pager_new_sized(handle, page_bytes) })
    }

    pub(crate) fn add(&mut self, region: &l4_region) -> u32 {
        // SAFETY: the handle is live and borrowed alone, and the region lives as long as its borrow.
        unsafe { l4_pager_add(self.cell.get(), region) }
    }

    pub(crate) fn find(&self, page: u32, access: u32) -> l4_page {
        // SAFETY: as in `enabled`.
        unsafe { l4_pager_find(self.cell.get(), page, access) }
    }

    pub(crate) fn answer(&self, words: &[u32]) -> l4_message {
        // SAFETY: as in `enabled`; the words live as long as their borrow, and a slice's pointer is aligned and never null.
        unsafe { l4_pager_answer(self.cell.get(), words.as_ptr(), words.len()) }
    }
}

impl Handle<l4_sigma0> {
    /// Makes a table of frames of this many bytes without owners, or returns the number of the refusal.
    pub(crate) fn sigma0(frames: u32, page_bytes: u32) -> Result<Handle<l4_sigma0>, u32> {
        // SAFETY: as in `boot`.
        Handle::made(|handle| unsafe { l4_sigma0_new_sized(handle, frames, page_bytes) })
    }

    pub(crate) fn answer(&mut self, space: u64, words: &[u32]) -> l4_message {
        // SAFETY: the handle is live and borrowed alone, so it doesn't overlap the words, which live as long as their borrow.
        unsafe { l4_sigma0_answer(self.cell.get(), space, words.as_ptr(), words.len()) }
    }
}

pub(crate) fn read_fault(words: &[u32]) -> l4_fault {
    check_version();
    // SAFETY: the words live as long as their borrow, a slice's pointer is aligned and never null, and no handle is needed.
    unsafe { l4_read_fault(words.as_ptr(), words.len()) }
}

pub(crate) fn read_request(words: &[u32]) -> l4_request {
    check_version();
    // SAFETY: as in `read_fault`.
    unsafe { l4_read_request(words.as_ptr(), words.len()) }
}

pub(crate) fn plan_region(region: &l4_region, page_bytes: u32) -> l4_plan {
    check_version();
    // SAFETY: the region lives as long as its borrow, and no handle is needed.
    unsafe { l4_plan_region_sized(region, page_bytes) }
}

pub(crate) fn plan_message(region: &l4_region, number: u32, page_bytes: u32) -> l4_part {
    check_version();
    // SAFETY: as in `plan_region`.
    unsafe { l4_plan_message_sized(region, number, page_bytes) }
}

/// Returns the pages of a plan's items, or those that prove that the plan is too long; none if the region is refused for another reason.
pub(crate) fn plan_pages(region: &l4_region, page_bytes: u32) -> Vec<u32> {
    check_version();
    let mut pages = vec![0; L4_TOO_MANY as usize];
    let room = pages.len();
    // SAFETY: the region lives as long as its borrow, and the room is that of the pages, which are borrowed alone.
    let count = unsafe { l4_plan_pages_sized(region, pages.as_mut_ptr(), room, page_bytes) };
    pages.truncate(count as usize);
    pages
}

pub(crate) fn check_plan(
    region: &l4_region,
    words: &[u32],
    pages: &[u32],
    page_bytes: u32,
) -> l4_verdict {
    check_version();
    // SAFETY: the region and the slices live as long as their borrows; a slice's pointer is aligned and never null.
    unsafe {
        l4_check_plan_sized(
            region,
            words.as_ptr(),
            words.len(),
            pages.as_ptr(),
            pages.len(),
            page_bytes,
        )
    }
}

pub(crate) fn check_too_long(region: &l4_region, pages: &[u32], page_bytes: u32) -> l4_verdict {
    check_version();
    // SAFETY: as in `check_plan`.
    unsafe { l4_check_too_long_sized(region, pages.as_ptr(), pages.len(), page_bytes) }
}

/// Returns the version of the library, as one number.
pub(crate) fn version() -> u32 {
    // SAFETY: the function has no parameters, and the header states no condition for it.
    unsafe { l4_version() }
}

/// The room for a text of the library and its 0: the longest text is the line of a reply, of 656 bytes.
const TEXT_ROOM: usize = 657;

/// Room for the lines of an answer: the first one and one for each thread, of 656 bytes and a newline each, and a 0.
const ANSWER_ROOM: usize = (1 + L4_MAX_THREADS as usize) * TEXT_ROOM + 1;

/// Returns the text that a function of the library writes to a place with this room.
fn text(write: impl FnOnce(*mut c_char, usize) -> usize) -> String {
    let mut bytes = [0u8; TEXT_ROOM];
    let length = write(bytes.as_mut_ptr().cast(), bytes.len());
    String::from_utf8_lossy(&bytes[..length]).into_owned()
}

/// Returns all items that a function of the library writes, or the number of the refusal. With a room of 0, the function counts them and
/// writes nothing.
fn all<T: Clone + Default>(write: impl Fn(*mut T, usize) -> l4_count) -> Result<Vec<T>, u32> {
    let counted = write(ptr::null_mut(), 0);
    if counted.refusal != L4_OK {
        return Err(counted.refusal);
    }
    let mut items = vec![T::default(); counted.count as usize];
    let told = write(items.as_mut_ptr(), items.len());
    if told.refusal == L4_OK {
        Ok(items)
    } else {
        Err(told.refusal)
    }
}

/// Returns a text of any length that a function of the library writes to a place with this room, or the number of the refusal.
fn whole(write: impl Fn(*mut c_char, usize) -> l4_count) -> Result<String, u32> {
    let mut bytes = vec![0u8; TEXT_ROOM];
    loop {
        let room = bytes.len();
        let told = write(bytes.as_mut_ptr().cast(), room);
        if told.refusal != L4_OK {
            return Err(told.refusal);
        }
        let length = told.count as usize;
        if length < room {
            return Ok(String::from_utf8_lossy(&bytes[..length]).into_owned());
        }
        bytes.resize(length + 1, 0);
    }
}

pub(crate) fn reply_text(thread: u32, reply: &l4_reply) -> String {
    check_version();
    // SAFETY: the reply lives as long as its borrow, and the room is that of the place, which belongs to `text`.
    text(|out, room| unsafe { l4_reply_text(thread, reply, out, room) })
}

pub(crate) fn step_text(step: &l4_step) -> String {
    check_version();
    // SAFETY: as in `reply_text`.
    text(|out, room| unsafe { l4_step_text(step, out, room) })
}

#[cfg(test)]
pub(crate) use tests::{refusal_code, refusal_text};

#[cfg(test)]
mod tests {
    use super::*;
    use std::cell::Cell;
    use std::collections::BTreeSet;
    use std::path::Path;
    use std::{env, fs};

    /// Returns the printed code of a refusal, or an empty text for a number that is not a refusal.
    pub(crate) fn refusal_code(refusal: u32) -> String {
        // SAFETY: as in `reply_text`.
        text(|out, room| unsafe { l4_refusal_code(refusal, out, room) })
    }

    /// Returns the text of a refusal, or an empty text for a number that is not a refusal.
    pub(crate) fn refusal_text(refusal: u32) -> String {
        // SAFETY: as in `reply_text`.
        text(|out, room| unsafe { l4_refusal_text(refusal, out, room) })
    }

    #[test]
    fn memory_may_run_out_for_a_count_alone() {
        let refusal = Cell::new(L4_NO_MEMORY);
        let told = all::<u8>(|_, _| l4_count {
            refusal: refusal.replace(L4_OK),
            count: 9,
        });
        assert_eq!(told, Err(L4_NO_MEMORY));
    }

    /// The type as C writes it.
    fn in_c(kind: &str) -> String {
        let kind = kind.trim();
        if let Some(target) = kind.strip_prefix('*') {
            let target = target.trim();
            return match target.strip_prefix("const ") {
                Some(target) => format!("const {} *", in_c(target)),
                None => format!("{} *", in_c(target.strip_prefix("mut ").unwrap_or(target))),
            };
        }
        match kind {
            "u8" => "uint8_t",
            "u32" => "uint32_t",
            "u64" => "uint64_t",
            "usize" => "size_t",
            "c_char" => "char",
            "()" => "void",
            other => other,
        }
        .to_owned()
    }

    /// The function as the header declares it.
    fn prototype(name: &str, result: &str, parameters: &[(&str, &str)]) -> String {
        let all = parameters
            .iter()
            .map(|(kind, parameter)| format!("{} {parameter}", in_c(kind)).replace("* ", "*"));
        let all = all.collect::<Vec<_>>().join(", ");
        let all = if all.is_empty() { "void" } else { &all };
        format!("{} {name}({all});", in_c(result))
    }

    /// The header's lines that declare functions.
    fn declared() -> BTreeSet<String> {
        let header = Path::new(env!("CARGO_MANIFEST_DIR")).join("../../include/l4.h");
        let text = fs::read_to_string(header).expect("the header can be read");
        let starts = |line: &&str| {
            line.contains(" l4_") && line.ends_with(");") && !line.starts_with([' ', '/'])
        };
        text.lines().filter(starts).map(str::to_owned).collect()
    }

    #[test]
    fn versions_fit_from_this_one_on() {
        let versions = [999, 1_000, 1_001, 1_999, 2_000, 1_000_000, 1_001_000];
        assert_eq!(
            versions.map(fits),
            [false, true, true, true, false, false, false]
        );
        check_version();
    }

    #[test]
    fn functions_are_the_headers() {
        let here: BTreeSet<String> = FUNCTIONS
            .iter()
            .map(|(name, result, all)| prototype(name, result, all))
            .collect();
        assert_eq!(here, declared());
    }

    #[test]
    #[ignore = "tests/embedding/bindings runs it, with the layout that a C compiler gives in L4_LAYOUT"]
    fn structs_and_constants_are_the_headers() {
        let file = env::var_os("L4_LAYOUT").expect("L4_LAYOUT names a file");
        let text = fs::read_to_string(file).expect("the layout can be read");
        let there: BTreeSet<String> = text.lines().map(str::to_owned).collect();
        let here: BTreeSet<String> = struct_lines().into_iter().chain(constant_lines()).collect();
        let (missing, wrong): (Vec<_>, Vec<_>) = (
            there.difference(&here).collect(),
            here.difference(&there).collect(),
        );
        assert!(
            missing.is_empty() && wrong.is_empty(),
            "missing {missing:?}, wrong {wrong:?}"
        );
    }
}
