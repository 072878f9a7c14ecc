//! How much heap and stack a call takes, and how many instructions.

use std::alloc::{GlobalAlloc, Layout, System};
use std::path::Path;
use std::process::Command;
use std::sync::atomic::{AtomicUsize, Ordering::Relaxed};

/// The system's allocator, with a count of the bytes in use and of the most that were. This program
/// has one thread, so plain loads and stores do.
struct Counting;

static IN_USE: AtomicUsize = AtomicUsize::new(0);
static PEAK: AtomicUsize = AtomicUsize::new(0);

fn count(more: usize, fewer: usize) {
    // Tests have several threads, and then the count is off; it must not stop them.
    let now = IN_USE.load(Relaxed).wrapping_add(more).wrapping_sub(fewer);
    IN_USE.store(now, Relaxed);
    if now > PEAK.load(Relaxed) {
        PEAK.store(now, Relaxed);
    }
}

// Sound: every call goes on to the system's allocator as it came.
unsafe impl GlobalAlloc for Counting {
    unsafe fn alloc(&self, layout: Layout) -> *mut u8 {
        count(layout.size(), 0);
        System.alloc(layout)
    }

    unsafe fn alloc_zeroed(&self, layout: Layout) -> *mut u8 {
        count(layout.size(), 0);
        System.alloc_zeroed(layout)
    }

    unsafe fn realloc(&self, memory: *mut u8, layout: Layout, size: usize) -> *mut u8 {
        count(size, layout.size());
        System.realloc(memory, layout, size)
    }

    unsafe fn dealloc(&self, memory: *mut u8, layout: Layout) {
        count(0, layout.size());
        System.dealloc(memory, layout)
    }
}

#[global_allocator]
static ALLOCATOR: Counting = Counting;

/// The most heap bytes in use at once during the call, beyond those in use before it.
pub fn heap_bytes(call: impl FnOnce()) -> usize {
    let before = IN_USE.load(Relaxed);
    PEAK.store(before, Relaxed);
    call();
    PEAK.load(Relaxed) - before
}

/// The stack bytes that the call takes, beyond those of a call that does nothing.
pub fn stack_bytes(mut call: impl FnMut()) -> usize {
    depth(&mut call) - depth(&mut || ())
}

const PATTERN: u64 = 0x5ac3_96e1_78d2_b40f;
const STACK_WORDS: usize = 1 << 17;

/// Runs the call on a stack of its own and tells how many bytes of it were changed, from its top
/// to the deepest change. For x86-64 only.
fn depth(mut call: &mut dyn FnMut()) -> usize {
    let mut stack = vec![PATTERN; STACK_WORDS];
    let stack_ends = stack.as_mut_ptr_range();
    let top = stack_ends.end as usize & !15; // A call needs it at a multiple of 16.
                                             // Sound: the new stack has 1 MiB, far more than any call here takes. r12 holds the old stack
                                             // pointer, and an extern "C" function keeps r12. A panic in one ends the program.
    unsafe {
        std::arch::asm!(
            "mov r12, rsp",
            "mov rsp, {top}",
            "call {trampoline}",
            "mov rsp, r12",
            top = in(reg) top,
            trampoline = sym trampoline,
            in("rdi") &mut call,
            out("r12") _,
            clobber_abi("C"),
        );
    }
    let untouched = stack.iter().take_while(|&&word| word == PATTERN).count();
    top - (stack_ends.start as usize + untouched * size_of::<u64>())
}

extern "C" fn trampoline(call: &mut &mut dyn FnMut()) {
    call();
}

/// The instructions that a program, run with these arguments, executes inside the function of this
/// name, as valgrind counts them. None if there is no valgrind.
pub fn instructions(program: &Path, function: &str, arguments: &[&str]) -> Option<u64> {
    let output = Command::new("valgrind")
        .args(["--tool=callgrind", "--collect-atstart=no", "--callgrind-out-file=/dev/null"])
        .arg(format!("--toggle-collect={function}"))
        .arg(program)
        .args(arguments)
        .output()
        .ok()?;
    let text = String::from_utf8_lossy(&output.stderr);
    text.split("Collected :").nth(1)?.split_whitespace().next()?.parse().ok()
}

#[cfg(test)]
mod tests {
    use super::*;
    use std::hint::black_box;

    #[test]
    fn an_array_on_the_stack_is_counted() {
        let bytes = stack_bytes(|| {
            black_box([7u8; 10_000]);
        });
        assert!((10_000..40_000).contains(&bytes), "{bytes}");
    }
}
