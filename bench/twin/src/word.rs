//! The meta word: acquires (bits 0 to 29), releases (30 to 59), hit (60), state (61 to 63).

pub const RELEASE: u64 = 1 << 30;
pub const COUNTER: u64 = (1 << 30) - 1;
pub const HIT: u64 = 1 << 60;
pub const SHAREABLE_BIT: u64 = 1 << 62;
pub const OCCUPIED_BIT: u64 = 1 << 63;

pub const EMPTY: u64 = 0b000;
pub const INVISIBLE: u64 = 0b110;
pub const VISIBLE: u64 = 0b111;

/// The word of a slot that one client has taken.
pub const TAKEN: u64 = OCCUPIED_BIT;
/// From this count of releases on an acquire doesn't count, and tries one correction.
pub const NEAR: u64 = (1 << 29) + 4;
/// So many uses are as good as more: the clock leaves one fewer of them.
pub const MOST_USES: u64 = 3;
/// What a correction subtracts from both counters.
const CORRECTION: u64 = (1 << 29) | (1 << 59);

#[inline(always)]
pub fn acquires(word: u64) -> u64 {
    word & COUNTER
}

#[inline(always)]
pub fn releases(word: u64) -> u64 {
    (word >> 30) & COUNTER
}

#[inline(always)]
pub fn references(word: u64) -> u64 {
    word.wrapping_sub(word >> 30) & COUNTER
}

#[inline(always)]
pub fn state(word: u64) -> u64 {
    word >> 61
}

#[inline(always)]
pub fn is_shareable(word: u64) -> bool {
    word & SHAREABLE_BIT != 0
}

/// The word of a new entry, of which its maker keeps a reference or not.
#[inline(always)]
pub fn started(countdown: u64, keep: bool) -> u64 {
    (VISIBLE << 61) | countdown | ((countdown - keep as u64) << 30)
}

/// What the clock puts in place of this word; none where it doesn't count down.
#[inline(always)]
pub fn clocked(word: u64) -> Option<u64> {
    let uses = acquires(word);
    if state(word) != VISIBLE || references(word) != 0 || uses == 0 {
        return None;
    }
    let left = uses.min(MOST_USES) - 1;
    Some((word & !((COUNTER << 30) | COUNTER)) | left | (left << 30))
}

/// What a correction puts in place of this word, where one is due.
pub fn corrected(word: u64) -> Option<u64> {
    (releases(word) >= NEAR && acquires(word) >= 1 << 29).then(|| word - CORRECTION)
}
