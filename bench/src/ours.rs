//! The functions of the static library.

// A slice goes as its address and its length.
#[link(name = "surymoa_c", kind = "static")]
extern "C" {
    fn surymoa_answers(
        kind: u8,
        script: *const u8,
        script_length: usize,
        words: *mut u64,
        words_length: usize,
    ) -> usize;
    fn surymoa_rounds(kind: u8, round: u8, turns: usize, task: *const u8, length: usize) -> u64;
    fn surymoa_trials(kind: u8, turns: usize, task: *const u8, length: usize) -> u64;
}

/// The answers of a script, as many of them as there is room for.
pub fn answers(kind: u8, script: &[u8], room: usize) -> Vec<u64> {
    let mut words = vec![0; room];
    let count = unsafe {
        surymoa_answers(
            kind,
            script.as_ptr(),
            script.len(),
            words.as_mut_ptr(),
            room,
        )
    };
    words.truncate(count);
    words
}

/// Rounds 0 to 3, which are A to D, added up.
pub fn rounds(kind: u8, round: u8, turns: usize, task: &[u8]) -> u64 {
    let (start, length) = (task.as_ptr(), task.len());
    match round {
        2 => unsafe { surymoa_trials(kind, turns, start, length) },
        3 => unsafe { surymoa_rounds(kind, 2, turns, start, length) },
        _ => unsafe { surymoa_rounds(kind, round, turns, start, length) },
    }
}
