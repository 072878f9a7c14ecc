//! How many basic blocks of the proved planner a call goes through. They are counted where peer is
//! built with the feature `counted`, which links an archive that calls what is here.

use std::cell::Cell;

thread_local! {
    /// Each thread has its own, for the sake of tests.
    static BLOCKS: Cell<u64> = const { Cell::new(0) };
}

/// What clang has each basic block call, for `-fsanitize-coverage=trace-pc-guard`.
#[no_mangle]
extern "C" fn __sanitizer_cov_trace_pc_guard(_guard: *mut u32) {
    BLOCKS.set(BLOCKS.get() + 1);
}

/// What is called once as the program begins. The guards stay as they are.
#[no_mangle]
extern "C" fn __sanitizer_cov_trace_pc_guard_init(_start: *mut u32, _end: *mut u32) {}

/// The blocks that are gone through during the call; 0 where they are not counted.
pub fn blocks(call: impl FnOnce()) -> u64 {
    BLOCKS.set(0);
    call();
    BLOCKS.get()
}

#[cfg(test)]
mod tests {
    use super::*;

    #[test]
    fn each_block_counts_one() {
        let block = || __sanitizer_cov_trace_pc_guard(std::ptr::null_mut());
        assert_eq!(blocks(|| (0..7).for_each(|_| block())), 7);
    }
}
