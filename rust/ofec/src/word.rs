//! The check word: 256 bits, bit 0 first. Two code words differ in at least 6 of them.

use crate::{Refusal, capi};

/// Bytes of a word.
pub const WORD_BYTES: usize = 32;

/// Where the flips of a repair may fall.
#[derive(Debug, Clone, Copy, PartialEq, Eq, Hash)]
pub enum Reach {
    /// Bits 128 to 255 only.
    BackHalf,
    /// All 256 bits.
    WholeWord,
}

/// What repair found in a word.
#[derive(Debug, Clone, Copy, PartialEq, Eq, Hash)]
pub enum Mark {
    /// 0: a code word.
    Sound = 0,
    /// 1: one bit was flipped.
    OneFlip = 1,
    /// 2: two bits were flipped.
    TwoFlips = 2,
    /// 3: no code word is within two flips; the word is unaltered.
    Lost = 3,
}

impl Mark {
    /// The number, 0 to 3.
    pub fn number(self) -> u8 {
        self as u8
    }

    /// The number of flips, or `None` for a lost word.
    ///
    /// ```
    /// use ofec::Mark;
    ///
    /// let marks = [Mark::Sound, Mark::TwoFlips, Mark::Lost, Mark::OneFlip];
    /// assert_eq!(marks.iter().filter_map(|mark| mark.flips()).sum::<u32>(), 3);
    /// ```
    pub fn flips(self) -> Option<u32> {
        (self != Mark::Lost).then_some(u32::from(self.number()))
    }

    pub(crate) fn of(number: u8) -> Mark {
        match number {
            0 => Mark::Sound,
            1 => Mark::OneFlip,
            2 => Mark::TwoFlips,
            3 => Mark::Lost,
            _ => unreachable!("the library has no mark {number}"),
        }
    }
}

/// Repairs a word of [`WORD_BYTES`] in place, to the only code word within two flips.
///
/// Refusals: [`Refusal::Misfit`].
///
/// ```
/// use ofec::Mark;
/// use ofec::word::{Reach, repair};
///
/// // The code word of the single free bit 238; its check bits are 240, 241, 243 to 246, 248, 249,
/// // 253, 254 and 255.
/// let mut code_word = [0; 32];
/// code_word[29..].copy_from_slice(&[0b10, 0b1101_1110, 0b1100_0111]);
/// assert_eq!(repair(&mut code_word.clone(), Reach::WholeWord)?, Mark::Sound);
///
/// let mut word = code_word;
/// word[0] ^= 0x80; // bit 0
/// word[31] ^= 0x01; // bit 255
/// assert_eq!(repair(&mut word.clone(), Reach::BackHalf)?, Mark::Lost);
/// assert_eq!(repair(&mut word, Reach::WholeWord)?, Mark::TwoFlips);
/// assert_eq!(word, code_word);
///
/// word[0] ^= 0xe0; // bits 0, 1 and 2
/// let three_wrong = word;
/// assert_eq!(repair(&mut word, Reach::WholeWord)?, Mark::Lost);
/// assert_eq!(word, three_wrong);
/// # Ok::<(), ofec::Refusal>(())
/// ```
pub fn repair(word: &mut [u8], reach: Reach) -> Result<Mark, Refusal> {
    let front = u32::from(reach == Reach::WholeWord);
    let done = capi::repair_word(word, front).done()?;
    Ok(Mark::of(done.value as u8))
}
