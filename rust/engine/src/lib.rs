//! The proved engine's exports, behind safe functions. `c/tpal.h` is their documentation.
//!
//! Nothing compares these declarations with the engine's source: the differential tests are what
//! shows that they agree.

mod exports {
    extern "C" {
        pub fn tpal_image_check(image: *const u8, image_len: usize) -> u8;
        pub fn tpal_image_rewrite(
            image: *const u8,
            image_len: usize,
            out: *mut u8,
            out_len: usize,
        ) -> u8;
        pub fn tpal_replay(
            job: *const u8,
            job_len: usize,
            order: *const u8,
            order_len: usize,
            state: *mut u8,
            state_len: usize,
        ) -> u8;
        pub fn tpal_job_run(
            job: *const u8,
            job_len: usize,
            budget: u64,
            report: *mut u8,
            report_len: usize,
        ) -> u8;
        pub fn tpal_job_dispatch(
            job: *const u8,
            job_len: usize,
            lanes: u64,
            rounds: u64,
            report: *mut u8,
            report_len: usize,
        ) -> u8;
        pub fn tpal_job_text(
            job: *const u8,
            job_len: usize,
            budget: u64,
            text: *mut u8,
            text_len: usize,
        ) -> u64;
        pub fn tpal_program_read(
            image: *const u8,
            image_len: usize,
            program: *mut u8,
            program_len: usize,
        ) -> u8;
        pub fn tpal_program_write(
            program: *const u8,
            program_len: usize,
            image: *mut u8,
            image_len: usize,
        ) -> u8;
        pub fn tpal_start(
            program: *const u8,
            program_len: usize,
            places: u64,
            interval: u64,
            registers: *const u8,
            registers_len: usize,
            words: *const u8,
            words_len: usize,
            state: *mut u8,
            state_len: usize,
        ) -> u8;
        pub fn tpal_pick(
            program: *const u8,
            program_len: usize,
            words: *const u8,
            words_len: usize,
            slot: u64,
            state: *mut u8,
            state_len: usize,
        ) -> u8;
        pub fn tpal_run(
            program: *const u8,
            program_len: usize,
            words: *const u8,
            words_len: usize,
            budget: u64,
            state: *mut u8,
            state_len: usize,
            report: *mut u8,
            report_len: usize,
        ) -> u8;
    }
}

/// Length of a program buffer: 5,891 cells of 64 bits.
pub const PROGRAM_BYTES: usize = 47_128;
/// Length of the start registers: 16 of 64 bits.
pub const REGISTERS_BYTES: usize = 128;
/// Length of a state: 10,499 numbers of 64 bits.
pub const STATE_BYTES: usize = 83_992;
/// Length of a report: 53 numbers of 64 bits.
pub const REPORT_BYTES: usize = 424;
/// Length of a dispatch's report: those, and the rounds.
pub const DISPATCH_BYTES: usize = 432;
/// Length of a buffer for a text.
pub const TEXT_BYTES: usize = 1_024;

fn answer(number: u8) -> Result<(), u8> {
    match number {
        0 => Ok(()),
        refusal => Err(refusal),
    }
}

/// Puts the questions of 'Reading an image'.
pub fn image_check(image: &[u8]) -> Result<(), u8> {
    // SAFETY: a slice is readable over its length, and its pointer is never null.
    answer(unsafe { exports::tpal_image_check(image.as_ptr(), image.len()) })
}

/// Reads an image and writes its program over `out`, which has the image's length. A refusal
/// leaves `out` as it was.
pub fn image_rewrite(image: &[u8], out: &mut [u8]) -> Result<(), u8> {
    // SAFETY: as above, and a `&mut` slice overlaps no other.
    answer(unsafe {
        exports::tpal_image_rewrite(image.as_ptr(), image.len(), out.as_mut_ptr(), out.len())
    })
}

/// Starts a job, carries out a pick for each byte of `order`, refused ones passed over, and writes
/// the whole state over `state`, which has `STATE_BYTES`. Answers 0, or the number of the first
/// question that was answered with no; a refusal leaves `state` as it was.
pub fn replay(job: &[u8], order: &[u8], state: &mut [u8]) -> u8 {
    // SAFETY: as above.
    unsafe {
        exports::tpal_replay(
            job.as_ptr(),
            job.len(),
            order.as_ptr(),
            order.len(),
            state.as_mut_ptr(),
            state.len(),
        )
    }
}

/// Runs a job from a fresh start within this budget of picks and writes its report over `report`,
/// which has `REPORT_BYTES`. A refusal leaves `report` as it was.
pub fn job_run(job: &[u8], budget: u64, report: &mut [u8]) -> Result<(), u8> {
    // SAFETY: as above.
    answer(unsafe {
        exports::tpal_job_run(
            job.as_ptr(),
            job.len(),
            budget,
            report.as_mut_ptr(),
            report.len(),
        )
    })
}

/// Dispatches a job from a fresh start over so many lanes, within this budget of rounds, and writes
/// its report over `report`, which has `DISPATCH_BYTES`. A refusal leaves `report` as it was.
pub fn job_dispatch(job: &[u8], lanes: u64, rounds: u64, report: &mut [u8]) -> Result<(), u8> {
    // SAFETY: as above.
    answer(unsafe {
        exports::tpal_job_dispatch(
            job.as_ptr(),
            job.len(),
            lanes,
            rounds,
            report.as_mut_ptr(),
            report.len(),
        )
    })
}

/// Writes over the start of `text`, which has `TEXT_BYTES`, what the run program would print for
/// this job with this budget, and answers the text's length. With a `text` of another length it
/// answers 0 and writes nothing.
pub fn job_text(job: &[u8], budget: u64, text: &mut [u8]) -> u64 {
    // SAFETY: as above.
    unsafe {
        exports::tpal_job_text(
            job.as_ptr(),
            job.len(),
            budget,
            text.as_mut_ptr(),
            text.len(),
        )
    }
}

/// Reads an image into `program`, which has `PROGRAM_BYTES`. A refusal leaves `program` as it was.
pub fn program_read(image: &[u8], program: &mut [u8]) -> Result<(), u8> {
    // SAFETY: as above.
    answer(unsafe {
        exports::tpal_program_read(
            image.as_ptr(),
            image.len(),
            program.as_mut_ptr(),
            program.len(),
        )
    })
}

/// Writes a program's image over `image`, which has the image's length. A refusal leaves `image` as
/// it was.
pub fn program_write(program: &[u8], image: &mut [u8]) -> Result<(), u8> {
    // SAFETY: as above.
    answer(unsafe {
        exports::tpal_program_write(
            program.as_ptr(),
            program.len(),
            image.as_mut_ptr(),
            image.len(),
        )
    })
}

/// Starts a job and writes its first state over `state`, which has `STATE_BYTES`. A refusal leaves
/// `state` as it was.
pub fn start(
    program: &[u8],
    places: u64,
    interval: u64,
    registers: &[u8],
    words: &[u8],
    state: &mut [u8],
) -> Result<(), u8> {
    // SAFETY: as above.
    answer(unsafe {
        exports::tpal_start(
            program.as_ptr(),
            program.len(),
            places,
            interval,
            registers.as_ptr(),
            registers.len(),
            words.as_ptr(),
            words.len(),
            state.as_mut_ptr(),
            state.len(),
        )
    })
}

/// Carries out a pick of this slot and writes the new state over `state`. A refusal leaves `state`
/// as it was.
pub fn pick(program: &[u8], words: &[u8], slot: u64, state: &mut [u8]) -> Result<(), u8> {
    // SAFETY: as above.
    answer(unsafe {
        exports::tpal_pick(
            program.as_ptr(),
            program.len(),
            words.as_ptr(),
            words.len(),
            slot,
            state.as_mut_ptr(),
            state.len(),
        )
    })
}

/// Goes on from a state within this budget of picks, writes the new state over `state` and the
/// report over `report`, which has `REPORT_BYTES`. A refusal leaves both as they were.
pub fn run(
    program: &[u8],
    words: &[u8],
    budget: u64,
    state: &mut [u8],
    report: &mut [u8],
) -> Result<(), u8> {
    // SAFETY: as above.
    answer(unsafe {
        exports::tpal_run(
            program.as_ptr(),
            program.len(),
            words.as_ptr(),
            words.len(),
            budget,
            state.as_mut_ptr(),
            state.len(),
            report.as_mut_ptr(),
            report.len(),
        )
    })
}
