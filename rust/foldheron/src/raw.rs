//! The C names, and one call of each with an answer of its length: the only unsafe code.
//!
//! Nothing compares these declarations with the library's source: they are those of `include/foldheron.h`.
//! A slice's pointer is never null, and its bytes are all there, so each call gets what it is promised.

extern "C" {
    fn foldheron_check(block: *const u8, block_len: usize, answer: *mut u8, answer_len: usize) -> u16;
    fn foldheron_fresh(
        block: *const u8, block_len: usize, state: *mut u8, state_len: usize, answer: *mut u8, answer_len: usize,
    ) -> u16;
    fn foldheron_instant(
        block: *const u8, block_len: usize, state: *mut u8, state_len: usize, inputs: u64, answer: *mut u8, answer_len: usize,
    ) -> u16;
    fn foldheron_instant_logged(
        block: *const u8, block_len: usize, state: *mut u8, state_len: usize, inputs: u64, log: *mut u8, log_len: usize,
        end: usize, answer: *mut u8, answer_len: usize,
    ) -> u16;
    fn foldheron_instant_heard(
        block: *const u8, block_len: usize, state: *mut u8, state_len: usize, present: u64, absent: u64, answer: *mut u8,
        answer_len: usize,
    ) -> u16;
    fn foldheron_instant_heard_logged(
        block: *const u8, block_len: usize, state: *mut u8, state_len: usize, present: u64, absent: u64, log: *mut u8,
        log_len: usize, end: usize, answer: *mut u8, answer_len: usize,
    ) -> u16;
    fn foldheron_excerpt(block: *const u8, block_len: usize, n: usize, answer: *mut u8, answer_len: usize) -> u16;
    fn foldheron_reason(
        block: *const u8, block_len: usize, state: *const u8, state_len: usize, present: u64, absent: u64, asked: u16, about: usize,
        answer: *mut u8, answer_len: usize,
    ) -> u16;
    fn foldheron_install(
        shelf: *mut u8, shelf_len: usize, party: u16, name: u16, block: *const u8, block_len: usize, answer: *mut u8, answer_len: usize,
    ) -> u16;
    fn foldheron_fetch(
        shelf: *const u8, shelf_len: usize, party: u16, name: u16, block: *mut u8, block_len: usize, answer: *mut u8, answer_len: usize,
    ) -> u16;
    fn foldheron_withdraw(shelf: *mut u8, shelf_len: usize, party: u16, name: u16, answer: *mut u8, answer_len: usize) -> u16;
    fn foldheron_alike(
        first: *const u8, first_len: usize, second: *const u8, second_len: usize, run: *mut u8, run_len: usize, answer: *mut u8,
        answer_len: usize,
    ) -> u16;
    fn foldheron_double_loops(
        block: *const u8, block_len: usize, out: *mut u8, out_len: usize, answer: *mut u8, answer_len: usize,
    ) -> u16;
    fn foldheron_convert(
        block: *const u8, block_len: usize, out: *mut u8, out_len: usize, answer: *mut u8, answer_len: usize,
    ) -> u16;
    fn foldheron_write_text(
        block: *const u8, block_len: usize, text: *mut u8, text_len: usize, answer: *mut u8, answer_len: usize,
    ) -> u16;
    fn foldheron_read_text(
        text: *const u8, text_len: usize, block: *mut u8, block_len: usize, answer: *mut u8, answer_len: usize,
    ) -> u16;
    fn foldheron_maze(block: *const u8, block_len: usize, inputs: u64, answer: *mut u8, answer_len: usize) -> u16;
    fn foldheron_corridor(
        block: *const u8, block_len: usize, inputs: u64, room: u16, first: usize, second: usize, n: usize, answer: *mut u8,
        answer_len: usize,
    ) -> u16;
}

/// The answer, which begins with the number that was given back. It does not where the archive asks for answers of another length.
fn told<const N: usize>(number: u16, answer: [u8; N]) -> [u8; N] {
    assert_eq!([answer[0], answer[1]], number.to_le_bytes(), "libfoldheron.a is not the archive that this wrapper is for");
    answer
}

pub fn check(block: &[u8]) -> [u8; 64] {
    let mut answer = [0; 64];
    let number = unsafe { foldheron_check(block.as_ptr(), block.len(), answer.as_mut_ptr(), answer.len()) };
    told(number, answer)
}

pub fn fresh(block: &[u8], state: &mut [u8]) -> [u8; 16] {
    let mut answer = [0; 16];
    let (lent, size) = (state.as_mut_ptr(), state.len());
    let number = unsafe { foldheron_fresh(block.as_ptr(), block.len(), lent, size, answer.as_mut_ptr(), answer.len()) };
    told(number, answer)
}

pub fn instant(block: &[u8], state: &mut [u8], inputs: u64) -> [u8; 80] {
    let mut answer = [0; 80];
    let (lent, size) = (state.as_mut_ptr(), state.len());
    let number = unsafe { foldheron_instant(block.as_ptr(), block.len(), lent, size, inputs, answer.as_mut_ptr(), answer.len()) };
    told(number, answer)
}

pub fn instant_logged(block: &[u8], state: &mut [u8], inputs: u64, log: &mut [u8], end: usize) -> [u8; 88] {
    let mut answer = [0; 88];
    let (lent, size) = (state.as_mut_ptr(), state.len());
    let (kept, room) = (log.as_mut_ptr(), log.len());
    let (into, length) = (answer.as_mut_ptr(), answer.len());
    let number = unsafe { foldheron_instant_logged(block.as_ptr(), block.len(), lent, size, inputs, kept, room, end, into, length) };
    told(number, answer)
}

pub fn instant_heard(block: &[u8], state: &mut [u8], present: u64, absent: u64) -> [u8; 80] {
    let mut answer = [0; 80];
    let (lent, size) = (state.as_mut_ptr(), state.len());
    let (into, length) = (answer.as_mut_ptr(), answer.len());
    let number = unsafe { foldheron_instant_heard(block.as_ptr(), block.len(), lent, size, present, absent, into, length) };
    told(number, answer)
}

pub fn instant_heard_logged(block: &[u8], state: &mut [u8], present: u64, absent: u64, log: &mut [u8], end: usize) -> [u8; 88] {
    let mut answer = [0; 88];
    let (lent, size) = (state.as_mut_ptr(), state.len());
    let (kept, room) = (log.as_mut_ptr(), log.len());
    let (into, length) = (answer.as_mut_ptr(), answer.len());
    let number = unsafe {
        foldheron_instant_heard_logged(block.as_ptr(), block.len(), lent, size, present, absent, kept, room, end, into, length)
    };
    told(number, answer)
}

pub fn excerpt(block: &[u8], n: usize) -> [u8; 32] {
    let mut answer = [0; 32];
    let number = unsafe { foldheron_excerpt(block.as_ptr(), block.len(), n, answer.as_mut_ptr(), answer.len()) };
    told(number, answer)
}

pub fn reason(block: &[u8], state: &[u8], present: u64, absent: u64, asked: u16, about: usize) -> [u8; 40] {
    let mut answer = [0; 40];
    let (held, size) = (state.as_ptr(), state.len());
    let (into, length) = (answer.as_mut_ptr(), answer.len());
    let number = unsafe { foldheron_reason(block.as_ptr(), block.len(), held, size, present, absent, asked, about, into, length) };
    told(number, answer)
}

pub fn install(shelf: &mut [u8], party: u16, name: u16, block: &[u8]) -> [u8; 16] {
    let mut answer = [0; 16];
    let (lent, size) = (shelf.as_mut_ptr(), shelf.len());
    let (into, length) = (answer.as_mut_ptr(), answer.len());
    let number = unsafe { foldheron_install(lent, size, party, name, block.as_ptr(), block.len(), into, length) };
    told(number, answer)
}

pub fn fetch(shelf: &[u8], party: u16, name: u16, block: &mut [u8]) -> [u8; 24] {
    let mut answer = [0; 24];
    let (lent, size) = (block.as_mut_ptr(), block.len());
    let (into, length) = (answer.as_mut_ptr(), answer.len());
    let number = unsafe { foldheron_fetch(shelf.as_ptr(), shelf.len(), party, name, lent, size, into, length) };
    told(number, answer)
}

pub fn withdraw(shelf: &mut [u8], party: u16, name: u16) -> [u8; 16] {
    let mut answer = [0; 16];
    let (lent, size) = (shelf.as_mut_ptr(), shelf.len());
    let number = unsafe { foldheron_withdraw(lent, size, party, name, answer.as_mut_ptr(), answer.len()) };
    told(number, answer)
}

pub fn alike(first: &[u8], second: &[u8], run: &mut [u8]) -> [u8; 32] {
    let mut answer = [0; 32];
    let (lent, size) = (run.as_mut_ptr(), run.len());
    let (into, length) = (answer.as_mut_ptr(), answer.len());
    let number = unsafe { foldheron_alike(first.as_ptr(), first.len(), second.as_ptr(), second.len(), lent, size, into, length) };
    told(number, answer)
}

pub fn double_loops(block: &[u8], out: &mut [u8]) -> [u8; 24] {
    let mut answer = [0; 24];
    let (lent, size) = (out.as_mut_ptr(), out.len());
    let number = unsafe { foldheron_double_loops(block.as_ptr(), block.len(), lent, size, answer.as_mut_ptr(), answer.len()) };
    told(number, answer)
}

pub fn convert(block: &[u8], out: &mut [u8]) -> [u8; 24] {
    let mut answer = [0; 24];
    let (lent, size) = (out.as_mut_ptr(), out.len());
    let number = unsafe { foldheron_convert(block.as_ptr(), block.len(), lent, size, answer.as_mut_ptr(), answer.len()) };
    told(number, answer)
}

pub fn write_text(block: &[u8], text: &mut [u8]) -> [u8; 24] {
    let mut answer = [0; 24];
    let (lent, size) = (text.as_mut_ptr(), text.len());
    let number = unsafe { foldheron_write_text(block.as_ptr(), block.len(), lent, size, answer.as_mut_ptr(), answer.len()) };
    told(number, answer)
}

pub fn read_text(text: &[u8], block: &mut [u8]) -> [u8; 24] {
    let mut answer = [0; 24];
    let (lent, size) = (block.as_mut_ptr(), block.len());
    let number = unsafe { foldheron_read_text(text.as_ptr(), text.len(), lent, size, answer.as_mut_ptr(), answer.len()) };
    told(number, answer)
}

pub fn maze(block: &[u8], inputs: u64) -> [u8; 40] {
    let mut answer = [0; 40];
    let number = unsafe { foldheron_maze(block.as_ptr(), block.len(), inputs, answer.as_mut_ptr(), answer.len()) };
    told(number, answer)
}

pub fn corridor(block: &[u8], inputs: u64, room: u16, first: usize, second: usize, n: usize) -> [u8; 48] {
    let mut answer = [0; 48];
    let (into, length) = (answer.as_mut_ptr(), answer.len());
    let number = unsafe { foldheron_corridor(block.as_ptr(), block.len(), inputs, room, first, second, n, into, length) };
    told(number, answer)
}
