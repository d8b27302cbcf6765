// crate::plain; `../before` has it once more, on an older library whose functions have other names.

#[repr(C)]
struct Verdict {
    number: u32,
    place: usize,
}

#[repr(C)]
struct Verdicts {
    number1: u32,
    place1: usize,
    number2: u32,
    place2: usize,
}

extern "C" {
    fn cuddystove_check(program: *const u8, program_length: usize) -> Verdict;
    fn cuddystove_fresh(network: *mut i32, network_length: usize) -> Verdict;
    fn cuddystove_event(
        program: *const u8,
        program_length: usize,
        network: *mut i32,
        network_length: usize,
        list: *const u8,
        list_length: usize,
        space: *mut i32,
        space_length: usize,
    ) -> Verdict;
    fn cuddystove_run(
        program: *const u8,
        program_length: usize,
        network: *mut i32,
        network_length: usize,
        list: *const u8,
        list_length: usize,
        space: *mut i32,
        space_length: usize,
    ) -> Verdict;
    fn cuddystove_run_both(
        program: *const u8,
        program_length: usize,
        network1: *mut i32,
        network1_length: usize,
        network2: *mut i32,
        network2_length: usize,
        list1: *const u8,
        list1_length: usize,
        list2: *const u8,
        list2_length: usize,
        space1: *mut i32,
        space1_length: usize,
        space2: *mut i32,
        space2_length: usize,
    ) -> Verdicts;
}

fn pair(returned: Verdict) -> (u32, usize) {
    (returned.number, returned.place)
}

/// [`check`](crate::check).
pub fn check(program: &[u8]) -> (u32, usize) {
    // SAFETY: pointer and length are those of one slice, read during the call only.
    pair(unsafe { cuddystove_check(program.as_ptr(), program.len()) })
}

/// [`fresh`](crate::fresh).
pub fn fresh(network: &mut [i32]) -> (u32, usize) {
    // SAFETY: pointer and length are those of one slice, lent to nobody else.
    pair(unsafe { cuddystove_fresh(network.as_mut_ptr(), network.len()) })
}

/// [`event`](crate::event).
pub fn event(program: &[u8], network: &mut [i32], list: &[u8], space: &mut [i32]) -> (u32, usize) {
    // SAFETY: each pointer and length are those of one slice; the two that are written are lent to nobody else.
    pair(unsafe {
        cuddystove_event(
            program.as_ptr(),
            program.len(),
            network.as_mut_ptr(),
            network.len(),
            list.as_ptr(),
            list.len(),
            space.as_mut_ptr(),
            space.len(),
        )
    })
}

/// [`run`](crate::run).
pub fn run(program: &[u8], network: &mut [i32], list: &[u8], space: &mut [i32]) -> (u32, usize) {
    // SAFETY: each pointer and length are those of one slice; the two that are written are lent to nobody else.
    pair(unsafe {
        cuddystove_run(
            program.as_ptr(),
            program.len(),
            network.as_mut_ptr(),
            network.len(),
            list.as_ptr(),
            list.len(),
            space.as_mut_ptr(),
            space.len(),
        )
    })
}

/// [`run_both`](crate::run_both).
pub fn run_both(
    program: &[u8],
    [network1, network2]: [&mut [i32]; 2],
    [list1, list2]: [&[u8]; 2],
    [space1, space2]: [&mut [i32]; 2],
) -> [(u32, usize); 2] {
    // SAFETY: each pointer and length are those of one slice; the four that are written are lent to nobody else.
    let returned = unsafe {
        cuddystove_run_both(
            program.as_ptr(),
            program.len(),
            network1.as_mut_ptr(),
            network1.len(),
            network2.as_mut_ptr(),
            network2.len(),
            list1.as_ptr(),
            list1.len(),
            list2.as_ptr(),
            list2.len(),
            space1.as_mut_ptr(),
            space1.len(),
            space2.as_mut_ptr(),
            space2.len(),
        )
    };
    [(returned.number1, returned.place1), (returned.number2, returned.place2)]
}

// ---- Since 0.4.0: from here on `../before` leaves out what its library does not have.

extern "C" {
    fn cuddystove_read_text(text: *const u8, text_length: usize, table: *mut u8, table_length: usize) -> Verdict;
}

/// [`read_text`](crate::read_text); with number 0 the place is the table's length.
pub fn read_text(text: &[u8], table: &mut [u8]) -> (u32, usize) {
    // SAFETY: each pointer and length are those of one slice; the one that is written is lent to nobody else.
    pair(unsafe { cuddystove_read_text(text.as_ptr(), text.len(), table.as_mut_ptr(), table.len()) })
}
