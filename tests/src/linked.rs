//! The exported functions of the proved lister, behind safe wrappers that lend
//! them slices. A slice passes as a pointer and then a length.

/// Whether there is a library to compare with.
pub const LINKED: bool = cfg!(linked);
/// Whether that library lists.
pub const LISTS: bool = cfg!(all(linked, feature = "list"));

#[cfg(linked)]
mod exports {
    extern "C" {
        pub fn plans_check(text: *const u8, text_len: usize, answer: *mut u32, answer_len: usize);
        pub fn plans_remarks(
            text: *const u8,
            text_len: usize,
            offsets: *mut u16,
            offsets_len: usize,
            answer: *mut u32,
            answer_len: usize,
        );
        #[cfg(feature = "list")]
        pub fn plans_list(
            text: *const u8,
            text_len: usize,
            low: i32,
            high: i32,
            steps: u32,
            skip: u32,
            budget: u32,
            rows: *mut i32,
            rows_len: usize,
            scratch: *mut u32,
            scratch_len: usize,
            answer: *mut u32,
            answer_len: usize,
        );
        #[cfg(feature = "list")]
        pub fn plans_page(
            rows: *const i32,
            rows_len: usize,
            page: u32,
            ending: u32,
            out: *mut u8,
            out_len: usize,
        );
        pub fn plans_write(
            text: *const u8,
            text_len: usize,
            out: *mut u8,
            out_len: usize,
            answer: *mut u32,
            answer_len: usize,
        );
    }
}

#[cfg(linked)]
pub fn check(text: &[u8], answer: &mut [u32]) {
    // SAFETY: the pointers and lengths are those of slices that outlive the call.
    unsafe {
        exports::plans_check(text.as_ptr(), text.len(), answer.as_mut_ptr(), answer.len());
    }
}

#[cfg(linked)]
pub fn remarks(text: &[u8], offsets: &mut [u16], answer: &mut [u32]) {
    // SAFETY: as above; the two lent slices are apart.
    unsafe {
        exports::plans_remarks(
            text.as_ptr(),
            text.len(),
            offsets.as_mut_ptr(),
            offsets.len(),
            answer.as_mut_ptr(),
            answer.len(),
        );
    }
}

#[cfg(linked)]
pub fn write(text: &[u8], out: &mut [u8], answer: &mut [u32]) {
    // SAFETY: as above.
    unsafe {
        exports::plans_write(
            text.as_ptr(),
            text.len(),
            out.as_mut_ptr(),
            out.len(),
            answer.as_mut_ptr(),
            answer.len(),
        );
    }
}

/// The lengths of the lent slices are those of the slices, not the job's.
#[cfg(all(linked, feature = "list"))]
pub fn list(
    text: &[u8],
    job: &crate::Job,
    rows: &mut [i32],
    scratch: &mut [u32],
    answer: &mut [u32],
) {
    // SAFETY: as above; the three lent slices are apart.
    unsafe {
        exports::plans_list(
            text.as_ptr(),
            text.len(),
            job.low,
            job.high,
            job.steps,
            job.skip,
            job.budget,
            rows.as_mut_ptr(),
            rows.len(),
            scratch.as_mut_ptr(),
            scratch.len(),
            answer.as_mut_ptr(),
            answer.len(),
        );
    }
}

#[cfg(all(linked, feature = "list"))]
pub fn page(rows: &[i32], page: u32, ending: u32, out: &mut [u8]) {
    // SAFETY: as above; the rows are only read.
    unsafe {
        exports::plans_page(
            rows.as_ptr(),
            rows.len(),
            page,
            ending,
            out.as_mut_ptr(),
            out.len(),
        );
    }
}

#[cfg(not(all(linked, feature = "list")))]
fn missing() -> ! {
    eprintln!("There is nothing to compare with: build with PLANS_LIB, and with the feature list.");
    std::process::exit(2)
}

#[cfg(not(linked))]
pub fn check(_: &[u8], _: &mut [u32]) {
    missing()
}

#[cfg(not(linked))]
pub fn remarks(_: &[u8], _: &mut [u16], _: &mut [u32]) {
    missing()
}

#[cfg(not(linked))]
pub fn write(_: &[u8], _: &mut [u8], _: &mut [u32]) {
    missing()
}

#[cfg(not(all(linked, feature = "list")))]
pub fn list(_: &[u8], _: &crate::Job, _: &mut [i32], _: &mut [u32], _: &mut [u32]) {
    missing()
}

#[cfg(not(all(linked, feature = "list")))]
pub fn page(_: &[i32], _: u32, _: u32, _: &mut [u8]) {
    missing()
}
