//! crates/pair_words_core: a pair that enters the history.

/// Brings each of the bytes of a part 512 bytes down to its place.
pub fn move_part(history: &mut [u8; 5120], from: usize, to: usize) {
    for i in from..to {
        history[i] = history[i + 512];
    }
}

/// Copies a buffer into one of the same length.
pub fn copy(from: &[u8], to: &mut [u8]) {
    for i in 0..from.len() {
        to[i] = from[i];
    }
}

/// The oldest pair goes, and the newest comes in behind the others.
pub fn shift_in(history: &mut [u8; 5120], newest: &[u8; 512]) {
    let n = history.len() - 512;
    move_part(history, 0, n);
    copy(newest, &mut history[n..]);
}
