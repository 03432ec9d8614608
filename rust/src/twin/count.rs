//! The nodes of a search. A node is one call of `explore`; it is cut where the
//! test at its beginning fails, so that no block is decided below it. One that is not
//! followed for a rival has passed that test, and does not count as cut.

use std::panic::{self, AssertUnwindSafe};
use std::sync::atomic::{AtomicU64, Ordering::Relaxed};

static NODES: AtomicU64 = AtomicU64::new(0);
static CUT: AtomicU64 = AtomicU64::new(0);

/// Calls of `explore`, and how many of them failed the test.
#[derive(Clone, Copy, Debug, Default, PartialEq, Eq)]
pub struct Nodes {
    pub all: u64,
    pub cut: u64,
}

/// One node more. The searches run on one thread, so that a plain sum is enough.
#[inline(always)]
pub fn node() {
    match NODES.load(Relaxed).checked_add(1) {
        Some(nodes) => NODES.store(nodes, Relaxed),
        None => panic::resume_unwind(Box::new(TooMany)),
    }
}

/// The node is cut.
#[inline(always)]
pub fn cut() {
    CUT.store(CUT.load(Relaxed) + 1, Relaxed);
}

/// The nodes since the last call of this function.
pub fn taken() -> Nodes {
    Nodes { all: NODES.swap(0, Relaxed), cut: CUT.swap(0, Relaxed) }
}

/// How a search is ended that has no more nodes left.
struct TooMany;

/// The nodes of a search, or none where it was ended after so many: the counter begins so
/// far from its end.
pub fn within(most: u64, search: impl FnOnce()) -> Option<Nodes> {
    taken();
    NODES.store(u64::MAX - most, Relaxed);
    let ended = panic::catch_unwind(AssertUnwindSafe(search));
    let Nodes { all, cut } = taken();
    match ended {
        Ok(()) => Some(Nodes { all: all - (u64::MAX - most), cut }),
        Err(cause) if cause.is::<TooMany>() => None,
        Err(cause) => panic::resume_unwind(cause),
    }
}
