//! Safe functions over the proved library. `include/xalevinda.h` has the same declarations for C and C++.

/// The registers of document 001 whose words have fields.
#[derive(Clone, Copy)]
pub enum Register {
    Capabilities,
    PartitionStatus,
    VpStatus,
    PartitionConfig,
    SecureConfig,
    CodePageOffsets,
}

mod exported {
    extern "C" {
        pub fn xalevinda_listing(
            script: *const u8,
            script_length: usize,
            out: *mut u8,
            out_length: usize,
        ) -> usize;
        pub fn xalevinda_save(
            script: *const u8,
            script_length: usize,
            out: *mut u8,
            out_length: usize,
        ) -> usize;
        pub fn xalevinda_resume(
            input: *const u8,
            input_length: usize,
            out: *mut u8,
            out_length: usize,
        ) -> usize;
        pub fn xalevinda_explain(
            input: *const u8,
            input_length: usize,
            out: *mut u8,
            out_length: usize,
        ) -> usize;
        pub fn xalevinda_why(
            script: *const u8,
            script_length: usize,
            out: *mut u8,
            out_length: usize,
        ) -> usize;
        pub fn xalevinda_open(
            line: *const u8,
            line_length: usize,
            machine: *mut u64,
            machine_words: usize,
        ) -> u64;
        pub fn xalevinda_step(
            machine: *mut u64,
            machine_words: usize,
            line: *const u8,
            line_length: usize,
            shown: *mut u64,
            shown_words: usize,
        ) -> u64;
        pub fn xalevinda_field(register: u64, field: u64, word: u64) -> u64;
        pub fn xalevinda_with_field(register: u64, field: u64, word: u64, value: u64) -> u64;
    }
}

/// Writes the listing of a script at the start of `out`, all of it or nothing, and returns how many bytes it has: it was written
/// exactly if that is at most the length of `out`. The script is run twice, to count and to write, unless `out` is as long as in `listing`.
pub fn listing_into(script: &[u8], out: &mut [u8]) -> usize {
    // SAFETY: both pointers are those of slices, and the borrow rules keep the two apart.
    unsafe {
        exported::xalevinda_listing(script.as_ptr(), script.len(), out.as_mut_ptr(), out.len())
    }
}

/// Writes the records of the state after a script in the same way, or the refusal line where its first line is bad. The script is run once.
pub fn save_into(script: &[u8], out: &mut [u8]) -> usize {
    // SAFETY: as in `listing_into`.
    unsafe { exported::xalevinda_save(script.as_ptr(), script.len(), out.as_mut_ptr(), out.len()) }
}

/// Writes the listing of an input that begins with records in the same way: they are line 0, and the script without first line that follows
/// them goes on from line 1. It is run as often as in `listing_into`.
pub fn resume_into(input: &[u8], out: &mut [u8]) -> usize {
    // SAFETY: as in `listing_into`.
    unsafe { exported::xalevinda_resume(input.as_ptr(), input.len(), out.as_mut_ptr(), out.len()) }
}

/// Writes the sheet of the access line that follows records in the same way, or the verdict on the sheet that follows it.
pub fn explain_into(input: &[u8], out: &mut [u8]) -> usize {
    // SAFETY: as in `listing_into`.
    unsafe { exported::xalevinda_explain(input.as_ptr(), input.len(), out.as_mut_ptr(), out.len()) }
}

/// Writes the listing of a script with the reason for every answer in the same way. The script is run twice, to count and to write.
pub fn why_into(script: &[u8], out: &mut [u8]) -> usize {
    // SAFETY: as in `listing_into`.
    unsafe { exported::xalevinda_why(script.as_ptr(), script.len(), out.as_mut_ptr(), out.len()) }
}

/// What a function writes that needs no more room than this.
fn written(into: fn(&[u8], &mut [u8]) -> usize, input: &[u8], room: usize) -> Vec<u8> {
    let mut out = vec![0; room];
    let size = into(input, &mut out);
    out.truncate(size);
    out
}

/// The room for any listing of an input. A record has at most 84 bytes. With so many for every line the input is run once only.
fn listing_room(input: &[u8]) -> usize {
    84 * (input.iter().filter(|&&byte| byte == b'\n').count() + 1)
}

/// The listing of a script.
pub fn listing(script: &[u8]) -> Vec<u8> {
    written(listing_into, script, listing_room(script))
}

/// The records of the state after a script, which have at most 64 KB.
pub fn save(script: &[u8]) -> Vec<u8> {
    written(save_into, script, 65536)
}

/// The listing of an input that begins with records.
pub fn resume(input: &[u8]) -> Vec<u8> {
    written(resume_into, input, listing_room(input))
}

/// Why an access is allowed or denied: at most 261 bytes.
pub fn explain(input: &[u8]) -> Vec<u8> {
    written(explain_into, input, 261)
}

/// The listing of a script with the reason for every answer. A line has at most 255 bytes.
pub fn why(script: &[u8]) -> Vec<u8> {
    let lines = script.iter().filter(|&&byte| byte == b'\n').count() + 1;
    written(why_into, script, 255 * lines)
}

/// The value of a field, numbered from 0 in the order of 001 with reserved fields left out; 0 where the register has no such field.
pub fn field(register: Register, field: u64, word: u64) -> u64 {
    // SAFETY: the function takes numbers only.
    unsafe { exported::xalevinda_field(register as u64, field, word) }
}

/// The word with a field replaced by the low bits of `value`; the word itself where the register has no such field.
pub fn with_field(register: Register, field: u64, word: u64, value: u64) -> u64 {
    // SAFETY: the function takes numbers only.
    unsafe { exported::xalevinda_with_field(register as u64, field, word, value) }
}

/// How many words a machine takes in lockstep, and how many a step shows.
pub const MACHINE_WORDS: usize = 884;
pub const SHOWN_WORDS: usize = 3;

/// Makes the fresh machine of a first line in words, and returns 0; or returns the number of the reason why there is none, and no word changes.
pub fn open_in(line: &[u8], machine: &mut [u64]) -> u64 {
    // SAFETY: as in `listing_into`.
    unsafe {
        exported::xalevinda_open(
            line.as_ptr(),
            line.len(),
            machine.as_mut_ptr(),
            machine.len(),
        )
    }
}

/// Answers a line after the first on the words of a machine. `shown` gets value, level and the number of the reason.
pub fn step_in(machine: &mut [u64], line: &[u8], shown: &mut [u64]) -> u64 {
    // SAFETY: as in `listing_into`, for three slices.
    unsafe {
        exported::xalevinda_step(
            machine.as_mut_ptr(),
            machine.len(),
            line.as_ptr(),
            line.len(),
            shown.as_mut_ptr(),
            shown.len(),
        )
    }
}

/// What a line is answered: number, value and level as a listing shows them, and the number of the reason.
#[derive(Clone, Copy, Debug, PartialEq, Eq)]
pub struct Reply {
    pub answer: u64,
    pub value: u64,
    pub level: u64,
    pub reason: u64,
}

/// A machine in lockstep with other code. A copy is a second machine.
#[derive(Clone, PartialEq, Eq)]
pub struct Machine {
    words: [u64; MACHINE_WORDS],
}

impl Machine {
    /// The fresh machine of a first line, or the number of the reason why there is none.
    pub fn open(line: &[u8]) -> Result<Machine, u64> {
        let mut words = [0; MACHINE_WORDS];
        match open_in(line, &mut words) {
            0 => Ok(Machine { words }),
            reason => Err(reason),
        }
    }

    /// Answers a line after the first, given without its line feed.
    pub fn step(&mut self, line: &[u8]) -> Reply {
        let mut shown = [0; SHOWN_WORDS];
        let answer = step_in(&mut self.words, line, &mut shown);
        let [value, level, reason] = shown;
        Reply {
            answer,
            value,
            level,
            reason,
        }
    }
}
