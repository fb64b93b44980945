//! The library under its C names, and safe wrappers that lend slices to it.
//! A buffer is a pointer and then a length in elements; every function returns the answer's number.

mod c {
    #[link(name = "shelf", kind = "static")]
    unsafe extern "C" {
        pub fn shelf_start(
            plan: usize,
            stripe: *const u8,
            stripe_length: usize,
            marks: *const u64,
            marks_length: usize,
            bench: *mut u8,
            bench_length: usize,
        ) -> usize;
        pub fn shelf_row_step(bench: *mut u8, bench_length: usize, row: usize) -> usize;
        pub fn shelf_level_step(bench: *mut u8, bench_length: usize) -> usize;
        pub fn shelf_mend(
            plan: usize,
            stripe: *mut u8,
            stripe_length: usize,
            marks: *mut u64,
            marks_length: usize,
            report: *mut u8,
            report_length: usize,
        ) -> usize;
        pub fn shelf_is_codeword(plan: usize, stripe: *const u8, stripe_length: usize) -> usize;
        pub fn shelf_is_interleaved(stripe: *const u8, stripe_length: usize) -> usize;
        pub fn shelf_encode(
            plan: usize,
            data: *const u8,
            data_length: usize,
            stripe: *mut u8,
            stripe_length: usize,
        ) -> usize;
        pub fn shelf_extract(
            plan: usize,
            stripe: *const u8,
            stripe_length: usize,
            data: *mut u8,
            data_length: usize,
        ) -> usize;
        pub fn shelf_read_file(
            file: *const u8,
            file_length: usize,
            stripe: *mut u8,
            stripe_length: usize,
            marks: *mut u64,
            marks_length: usize,
        ) -> usize;
        pub fn shelf_write_file(
            plan: usize,
            stripe: *const u8,
            stripe_length: usize,
            marks: *const u64,
            marks_length: usize,
            file: *mut u8,
            file_length: usize,
        ) -> usize;
        pub fn shelf_text(
            file: *const u8,
            file_length: usize,
            text: *mut u8,
            text_length: usize,
            length: *mut u8,
            length_length: usize,
        ) -> usize;
    }
}

// Each call below is safe: the pointer and the length of one slice are handed over together, and no two of the slices
// overlap, since Rust lends none of them twice.

pub fn start(plan: usize, stripe: &[u8], marks: &[u64], bench: &mut [u8]) -> usize {
    unsafe {
        c::shelf_start(plan, stripe.as_ptr(), stripe.len(), marks.as_ptr(), marks.len(), bench.as_mut_ptr(), bench.len())
    }
}

pub fn row_step(bench: &mut [u8], row: usize) -> usize {
    unsafe { c::shelf_row_step(bench.as_mut_ptr(), bench.len(), row) }
}

pub fn level_step(bench: &mut [u8]) -> usize {
    unsafe { c::shelf_level_step(bench.as_mut_ptr(), bench.len()) }
}

pub fn mend(plan: usize, stripe: &mut [u8], marks: &mut [u64], report: &mut [u8]) -> usize {
    let (stripe_length, marks_length, report_length) = (stripe.len(), marks.len(), report.len());
    let (stripe, marks, report) = (stripe.as_mut_ptr(), marks.as_mut_ptr(), report.as_mut_ptr());
    unsafe { c::shelf_mend(plan, stripe, stripe_length, marks, marks_length, report, report_length) }
}

pub fn is_codeword(plan: usize, stripe: &[u8]) -> usize {
    unsafe { c::shelf_is_codeword(plan, stripe.as_ptr(), stripe.len()) }
}

pub fn is_interleaved(stripe: &[u8]) -> usize {
    unsafe { c::shelf_is_interleaved(stripe.as_ptr(), stripe.len()) }
}

pub fn encode(plan: usize, data: &[u8], stripe: &mut [u8]) -> usize {
    unsafe { c::shelf_encode(plan, data.as_ptr(), data.len(), stripe.as_mut_ptr(), stripe.len()) }
}

pub fn extract(plan: usize, stripe: &[u8], data: &mut [u8]) -> usize {
    unsafe { c::shelf_extract(plan, stripe.as_ptr(), stripe.len(), data.as_mut_ptr(), data.len()) }
}

pub fn read_file(file: &[u8], stripe: &mut [u8], marks: &mut [u64]) -> usize {
    let (stripe_length, marks_length) = (stripe.len(), marks.len());
    let (stripe, marks) = (stripe.as_mut_ptr(), marks.as_mut_ptr());
    unsafe { c::shelf_read_file(file.as_ptr(), file.len(), stripe, stripe_length, marks, marks_length) }
}

pub fn write_file(plan: usize, stripe: &[u8], marks: &[u64], file: &mut [u8]) -> usize {
    unsafe {
        c::shelf_write_file(plan, stripe.as_ptr(), stripe.len(), marks.as_ptr(), marks.len(), file.as_mut_ptr(), file.len())
    }
}

pub fn text(file: &[u8], text: &mut [u8], length: &mut [u8]) -> usize {
    let (text_length, length_length) = (text.len(), length.len());
    let (text, length) = (text.as_mut_ptr(), length.as_mut_ptr());
    unsafe { c::shelf_text(file.as_ptr(), file.len(), text, text_length, length, length_length) }
}
