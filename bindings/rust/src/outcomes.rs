//! The outcomes that a litmus test has over all orders of its threads' calls.
use crate::ffi::{self, Handle};
use crate::refusals::{unknown, Refusal};
use crate::words::PageSize;
use std::error::Error;
use std::fmt;

/// How a search ended.
#[derive(Clone, Copy, Debug, PartialEq, Eq, Hash)]
#[non_exhaustive]
pub enum SearchEnd {
    /// It followed every order: the test has no other outcomes.
    AllOrders,
    /// It ended early, because it had visited as many states as it may.
    MostStates,
    /// It ended early, because memory ran out.
    Memory,
    /// It ended early, because the history of an order was full.
    History,
}

impl SearchEnd {
    fn of(number: u32) -> SearchEnd {
        match number {
            ffi::L4_ALL_ORDERS => SearchEnd::AllOrders,
            ffi::L4_MOST_STATES => SearchEnd::MostStates,
            ffi::L4_LACKED_MEMORY => SearchEnd::Memory,
            ffi::L4_LACKED_HISTORY => SearchEnd::History,
            other => unknown("end of a search", other),
        }
    }
}

/// An outcome that some order of the calls has.
#[derive(Clone, Debug, PartialEq, Eq, Hash)]
pub struct PlanOutcome {
    /// The lines of the answers to the queries, and then a line `stuck N L` for each thread N that is left before its line L of the plan.
    pub answers: Vec<String>,
    /// The script of an order that produces this outcome: `l4 run` answers its queries so.
    pub witness: String,
    /// The numbers of the test's lines in that order, from 1, without those before `unordered` and after `finally`.
    pub order: Vec<u64>,
    /// The rules of the test that this outcome breaks: their lines `never ..` and `always ..`.
    pub broken: Vec<String>,
}

/// What a search found.
#[derive(Clone, Debug, PartialEq, Eq)]
pub struct Orders {
    /// The outcomes, each once.
    pub outcomes: Vec<PlanOutcome>,
    /// How the search ended.
    pub end: SearchEnd,
    /// The number of orders, if every order was followed. If there are more than 2^64 - 1 orders, this is 2^64 - 1, and `order_digits` has
    /// the number.
    pub order_count: Option<u64>,
    /// The number of orders in decimal, whatever its size, if every order was followed.
    pub order_digits: Option<String>,
    /// The number of states that were visited.
    pub state_count: u64,
}

/// A litmus test that is refused.
#[derive(Clone, Copy, Debug, PartialEq, Eq, Hash)]
pub struct BadPlan {
    /// Why it is refused.
    pub refusal: Refusal,
    /// The number of the line that is refused, from 1, if it is one line.
    pub line: Option<u64>,
}

impl fmt::Display for BadPlan {
    fn fmt(&self, out: &mut fmt::Formatter<'_>) -> fmt::Result {
        match self.line {
            Some(line) => write!(out, "line {line}: {}", self.refusal),
            None => self.refusal.fmt(out),
        }
    }
}

impl Error for BadPlan {}

impl From<Refusal> for BadPlan {
    fn from(refusal: Refusal) -> BadPlan {
        BadPlan {
            refusal,
            line: None,
        }
    }
}

/// Executes a litmus test in all orders of its threads' calls, and returns its outcomes, each with the script of an order that produces it.
///
/// A litmus test is a script with a line `unordered`. The lines after it may be executed in any order, but the lines of one thread keep
/// theirs. The queries after a line `finally` are the outcome. Each order is executed on a new kernel with this number of frames, of 4 KiB
/// each. The search is faster with few frames. It visits at most `most` states.
///
/// ```
/// let plan = "unordered\nsend 1 2 0x10000\nrecv 2 any 0\nfinally\nreply 2\nnever 2 waits\nalways 2 none\n";
/// let found = l4::orders(plan, 1, 1_000)?;
/// assert_eq!(found.order_count, Some(2));
/// assert_eq!(found.order_digits.as_deref(), Some("2"));
/// assert_eq!(found.outcomes.len(), 1);
/// assert_eq!(found.outcomes[0].answers, ["2 ipc 00010000 0 1"]);
/// assert_eq!(found.outcomes[0].order.len(), 2);
/// assert_eq!(found.outcomes[0].broken, ["always 2 none"]);
/// # Ok::<(), l4::BadPlan>(())
/// ```
///
/// # Errors
///
/// In this order: [`Refusal::FrameCount`]; a line that cannot be part of a litmus test, which the error names; [`Refusal::NoUnordered`];
/// [`Refusal::NeverCreated`]; and [`Refusal::NoMemory`], or [`Refusal::HistoryFull`] if a history is full before the search has begun. Memory
/// may also run out earlier.
pub fn orders(plan: &str, frames: u32, most: u64) -> Result<Orders, BadPlan> {
    orders_sized(plan, frames, most, PageSize::Kib4)
}

/// Returns the lines of a text in which each line ends with a newline.
fn lines_of(text: &str) -> Vec<String> {
    text.split_terminator('\n').map(str::to_owned).collect()
}

/// Does the same as [`orders`] for pages and frames of this size.
///
/// # Errors
///
/// As [`orders`].
pub fn orders_sized(plan: &str, frames: u32, most: u64, size: PageSize) -> Result<Orders, BadPlan> {
    let search = Handle::search(frames, plan, most, size.bytes()).map_err(|told| BadPlan {
        refusal: Refusal::of(told.refusal, told.detail),
        line: (told.line != 0).then_some(told.line),
    })?;
    let told = search.found();
    let end = SearchEnd::of(told.ended);
    let mut outcomes = Vec::new();
    for place in 0..told.outcomes as usize {
        let broken = search
            .broken(place)
            .map_err(|number| Refusal::of(number, 0))?;
        outcomes.push(PlanOutcome {
            answers: lines_of(&search.answers(place)),
            witness: search
                .witness(place)
                .map_err(|number| Refusal::of(number, 0))?,
            order: search
                .lines(place)
                .map_err(|number| Refusal::of(number, 0))?,
            broken: lines_of(&broken),
        });
    }
    let all = end == SearchEnd::AllOrders;
    let digits = search.orders().map_err(|number| Refusal::of(number, 0))?;
    Ok(Orders {
        outcomes,
        end,
        order_count: all.then_some(told.orders),
        order_digits: all.then_some(digits),
        state_count: told.states,
    })
}
