//! On what stack a comparison runs.

/// The by-value twin keeps its tables on the stack, and moves them.
const STACK: usize = 64 << 20;

/// The comparison on a stack that is large enough.
pub fn with_stack(compare: fn()) {
    let thread = std::thread::Builder::new().stack_size(STACK).spawn(compare);
    thread.expect("a thread").join().expect("both sides agree");
}
