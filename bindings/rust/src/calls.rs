//! The calls of `include/gravitar.h`, as it has them.

#[repr(C)]
#[derive(Default)]
pub struct Report {
    pub clock: u64,
    pub used: u64,
    pub place: u64,
}

/// `gravitar_advance`, `gravitar_records` and `gravitar_pcm`. The number before `timers` is `boundary` or `per`.
pub type StretchCall = unsafe extern "C" fn(
    image: *const u8,
    image_len: usize,
    board: *mut u8,
    board_len: usize,
    tape: *const u8,
    tape_len: usize,
    clock: u64,
    number: u32,
    timers: u32,
    output: *mut u8,
    output_len: usize,
    report: *mut Report,
) -> u32;

unsafe extern "C" {
    pub fn gravitar_version() -> u32;
    pub fn gravitar_power_on(board: *mut u8, len: usize) -> u32;
    pub fn gravitar_advance(
        image: *const u8,
        image_len: usize,
        board: *mut u8,
        board_len: usize,
        tape: *const u8,
        tape_len: usize,
        clock: u64,
        boundary: u32,
        timers: u32,
        text: *mut u8,
        text_len: usize,
        report: *mut Report,
    ) -> u32;
    pub fn gravitar_records(
        image: *const u8,
        image_len: usize,
        board: *mut u8,
        board_len: usize,
        tape: *const u8,
        tape_len: usize,
        clock: u64,
        boundary: u32,
        timers: u32,
        array: *mut u8,
        array_len: usize,
        report: *mut Report,
    ) -> u32;
    pub fn gravitar_pcm(
        image: *const u8,
        image_len: usize,
        board: *mut u8,
        board_len: usize,
        tape: *const u8,
        tape_len: usize,
        clock: u64,
        per: u32,
        timers: u32,
        samples: *mut u8,
        samples_len: usize,
        report: *mut Report,
    ) -> u32;
    pub fn gravitar_assemble(
        processor: *const u8,
        processor_len: usize,
        generator: *const u8,
        generator_len: usize,
        image: *mut u8,
        image_len: usize,
        note: *mut u8,
        note_len: usize,
        report: *mut Report,
    ) -> u32;
    pub fn gravitar_command(
        request: *const u8,
        request_len: usize,
        answer: *mut u8,
        answer_len: usize,
        report: *mut Report,
    ) -> u32;
}
