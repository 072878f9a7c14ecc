//! The proved planner, called through its C interface.

use crate::c_form::Form;

/// What the calls return for a route or timetable, and for what else was asked for. Refusals return
/// their number, 1 to 12.
pub const ROUTE: u8 = 0;
pub const OK: u8 = 0;
/// What planning and the timetable return if no run comes into the goal.
pub const NO_ROUTE: u8 = 255;

extern "C" {
    fn planner_plan(
        table: *const u8,
        table_len: usize,
        words: *mut u32,
        words_len: usize,
        route: *mut u8,
        route_len: usize,
        charge: *mut u32,
        steps: *mut usize,
    ) -> u8;

    fn planner_timetable(
        table: *const u8,
        table_len: usize,
        words: *mut u32,
        words_len: usize,
        route: *mut u8,
        route_len: usize,
        charge: *mut u32,
        pairs: *mut usize,
    ) -> u8;

    fn planner_lend(
        table: *const u8,
        table_len: usize,
        words_needed: *mut usize,
        route_needed: *mut usize,
    ) -> u8;

    fn planner_write(
        form: *const Form,
        table: *mut u8,
        table_len: usize,
        written: *mut usize,
    ) -> u8;

    fn planner_read(table: *const u8, table_len: usize, form: *mut Form) -> u8;
}

/// Plans the table with the words and route bytes lent. `charge` and `steps` are written if the
/// answer is `ROUTE`, and only then.
pub fn plan(
    table: &[u8],
    words: &mut [u32],
    route: &mut [u8],
    charge: &mut u32,
    steps: &mut usize,
) -> u8 {
    // Sound: each pointer comes from a reference that lives for the whole call, so it is aligned
    // and never null (an empty slice's is not either) and its length is that of memory that is
    // there. What is written is borrowed mutably, so it overlaps nothing else. The call keeps no
    // pointer.
    unsafe {
        planner_plan(
            table.as_ptr(),
            table.len(),
            words.as_mut_ptr(),
            words.len(),
            route.as_mut_ptr(),
            route.len(),
            charge,
            steps,
        )
    }
}

/// The timetable of the table with the words and route bytes lent. `charge` and `pairs` are written if
/// the answer is `ROUTE`, and only then.
pub fn timetable(
    table: &[u8],
    words: &mut [u32],
    route: &mut [u8],
    charge: &mut u32,
    pairs: &mut usize,
) -> u8 {
    // Sound: as above.
    unsafe {
        planner_timetable(
            table.as_ptr(),
            table.len(),
            words.as_mut_ptr(),
            words.len(),
            route.as_mut_ptr(),
            route.len(),
            charge,
            pairs,
        )
    }
}

/// Says how much to lend for planning the table. The two numbers are written if the answer is `OK`,
/// and only then.
pub fn lend(table: &[u8], words_needed: &mut usize, route_needed: &mut usize) -> u8 {
    // Sound: as above.
    unsafe { planner_lend(table.as_ptr(), table.len(), words_needed, route_needed) }
}

/// Writes the table of a form. `table` and `written` are written if the answer is `OK`, and only then.
pub fn write(form: &Form, table: &mut [u8], written: &mut usize) -> u8 {
    // Sound: as above; and the form is laid out as C has it.
    unsafe { planner_write(form, table.as_mut_ptr(), table.len(), written) }
}

/// Reads a table into the form, which is written if the answer is `OK`, and only then.
pub fn read(table: &[u8], form: &mut Form) -> u8 {
    // Sound: as above; and every form of bytes is one.
    unsafe { planner_read(table.as_ptr(), table.len(), form) }
}
