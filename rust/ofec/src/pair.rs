//! Encoding and receiving, pair by pair: a pair is two rows of 16 words each.

use crate::{Mark, Refusal, capi};

/// Bytes of a pair's payload.
pub const PAYLOAD_BYTES: usize = 444;
/// Bytes of a coded pair.
pub const CODED_BYTES: usize = 512;
/// Words of a pair, each with its mark.
pub const WORDS: usize = 32;
/// Bytes of a [`History`]: two numbers of 32 bits and ten coded pairs.
pub const HISTORY_BYTES: usize = FRONT_BYTES + 10 * CODED_BYTES;

/// Bytes in front of the pairs of a history.
const FRONT_BYTES: usize = 8;

/// What an encoder or a receiver carries from one pair to the next: the encoder's number, the number
/// of the next pair, and the ten coded pairs before. Nothing tells an encoder's history from a
/// receiver's.
///
/// ```
/// use ofec::pair::{History, HISTORY_BYTES};
///
/// let fresh = History::fresh(1);
/// assert_eq!((fresh.encoder(), fresh.next_pair()), (1, 0));
/// assert!(fresh.pairs().iter().all(|&byte| byte == 0));
///
/// // From the bytes of a file, for instance: both numbers with the most significant byte first.
/// let mut bytes = [0; HISTORY_BYTES];
/// bytes[..8].copy_from_slice(&[0, 0, 0, 1, 0, 0, 1, 2]);
/// let history = History::from(bytes);
/// assert_eq!((history.encoder(), history.next_pair()), (1, 258));
/// assert_eq!(history.as_bytes(), &bytes);
/// ```
#[derive(Debug, Clone, PartialEq, Eq)]
pub struct History([u8; HISTORY_BYTES]);

impl History {
    /// No pair before, and pair 0 of this encoder next.
    pub fn fresh(encoder: u32) -> Self {
        let mut bytes = [0; HISTORY_BYTES];
        bytes[..4].copy_from_slice(&encoder.to_be_bytes());
        History(bytes)
    }

    /// The number of the encoder, 0 or 1; a history with any other is refused by every call.
    pub fn encoder(&self) -> u32 {
        let [a, b, c, d, ..] = self.0;
        u32::from_be_bytes([a, b, c, d])
    }

    /// The number of the next pair.
    pub fn next_pair(&self) -> u32 {
        let [_, _, _, _, a, b, c, d, ..] = self.0;
        u32::from_be_bytes([a, b, c, d])
    }

    /// The ten pairs before, oldest first, [`CODED_BYTES`] each.
    pub fn pairs(&self) -> &[u8] {
        &self.0[FRONT_BYTES..]
    }

    /// All bytes: the encoder's number, that of the next pair, and the pairs.
    pub fn as_bytes(&self) -> &[u8; HISTORY_BYTES] {
        &self.0
    }
}

impl From<[u8; HISTORY_BYTES]> for History {
    fn from(bytes: [u8; HISTORY_BYTES]) -> Self {
        History(bytes)
    }
}

/// Encodes the pairs of one stream, in order.
///
/// ```
/// use ofec::pair::{CODED_BYTES, PAYLOAD_BYTES};
/// use ofec::{Encoder, Refusal};
///
/// let mut encoder = Encoder::new(1);
/// let mut coded = [0; 21 * CODED_BYTES]; // an interleaver buffer's pairs
/// for (number, place) in (0..).zip(coded.chunks_mut(CODED_BYTES)) {
///     encoder.encode(&[number; PAYLOAD_BYTES], place)?;
/// }
/// assert_eq!(encoder.history().next_pair(), 21);
/// assert_eq!(encoder.history().pairs(), &coded[11 * CODED_BYTES..]);
///
/// // A refused call changes nothing.
/// let before = encoder.clone();
/// let refused = encoder.encode(&[0; PAYLOAD_BYTES - 1], &mut coded[..CODED_BYTES]);
/// assert_eq!(refused, Err(Refusal::Misfit));
/// assert_eq!(encoder, before);
/// # Ok::<(), ofec::Refusal>(())
/// ```
#[derive(Debug, Clone, PartialEq, Eq)]
pub struct Encoder {
    number: u32,
    history: History,
}

impl Encoder {
    /// A fresh encoder with this number, 0 or 1. One with any other number refuses every call with
    /// [`Refusal::StrayHistory`].
    ///
    /// ```
    /// use ofec::pair::{CODED_BYTES, PAYLOAD_BYTES};
    /// use ofec::{Encoder, Refusal};
    ///
    /// let (payload, mut coded) = ([0x5a; PAYLOAD_BYTES], [0; CODED_BYTES]);
    /// assert_eq!(Encoder::new(0).encode(&payload, &mut coded), Ok(()));
    /// let refused = Encoder::new(2).encode(&payload, &mut coded);
    /// assert_eq!(refused, Err(Refusal::StrayHistory));
    /// ```
    pub fn new(number: u32) -> Self {
        Encoder::resume(number, History::fresh(number))
    }

    /// An encoder with this number that continues from a history. One of another encoder is refused
    /// by every call with [`Refusal::StrayHistory`].
    ///
    /// ```
    /// use ofec::pair::{CODED_BYTES, PAYLOAD_BYTES};
    /// use ofec::{Encoder, Refusal};
    ///
    /// let (payload, mut coded) = ([0x5a; PAYLOAD_BYTES], [0; CODED_BYTES]);
    /// let mut encoder = Encoder::new(0);
    /// encoder.encode(&payload, &mut coded)?;
    /// let history = encoder.history().clone();
    ///
    /// // Encoder 1 was given the history of encoder 0.
    /// let mut stray = Encoder::resume(1, history.clone());
    /// let mut untouched = [7; CODED_BYTES];
    /// let refused = stray.encode(&payload, &mut untouched);
    /// assert_eq!(refused, Err(Refusal::StrayHistory));
    /// assert_eq!(stray.history(), &history);
    /// assert_eq!(untouched, [7; CODED_BYTES]);
    ///
    /// // Encoder 0 goes on with pair 1.
    /// let mut encoder = Encoder::resume(0, history);
    /// encoder.encode(&payload, &mut coded)?;
    /// assert_eq!(encoder.history().next_pair(), 2);
    /// # Ok::<(), ofec::Refusal>(())
    /// ```
    pub fn resume(number: u32, history: History) -> Self {
        Encoder { number, history }
    }

    /// The encoder's number.
    pub fn number(&self) -> u32 {
        self.number
    }

    /// The history before the next pair.
    pub fn history(&self) -> &History {
        &self.history
    }

    /// Encodes the next pair: `payload` of [`PAYLOAD_BYTES`] to `coded` of [`CODED_BYTES`].
    ///
    /// Refusals: [`Refusal::Misfit`], [`Refusal::StrayHistory`], [`Refusal::CountSpent`].
    pub fn encode(&mut self, payload: &[u8], coded: &mut [u8]) -> Result<(), Refusal> {
        let Encoder { number, history } = self;
        let pair = history.next_pair();
        capi::encode_pair(payload, coded, &mut history.0, *number, pair).done()?;
        Ok(())
    }
}

/// Receives the pairs of one stream, in order, and repairs their words.
///
/// As long as no word has more than three wrong received bits, a word not marked lost comes out
/// as it was sent.
///
/// ```
/// use ofec::pair::{CODED_BYTES, PAYLOAD_BYTES};
/// use ofec::{Encoder, Mark, Receiver};
///
/// let (mut encoder, mut receiver) = (Encoder::new(0), Receiver::new(0));
/// let mut flips = 0;
/// for number in 0..12 {
///     let payload = [17 * number; PAYLOAD_BYTES];
///     let mut line = [0; CODED_BYTES];
///     encoder.encode(&payload, &mut line)?;
///     line[16] ^= 0x10; // one wrong bit in word 1
///
///     let mut received = [0; PAYLOAD_BYTES];
///     let marks = receiver.receive(&line, &mut received)?;
///     assert_eq!(received, payload);
///     flips += marks.iter().filter_map(|mark| mark.flips()).sum::<u32>();
/// }
/// assert_eq!(flips, 12);
/// assert_eq!(receiver.history(), encoder.history());
/// # Ok::<(), ofec::Refusal>(())
/// ```
#[derive(Debug, Clone, PartialEq, Eq)]
pub struct Receiver {
    number: u32,
    history: History,
}

impl Receiver {
    /// A fresh receiver for the encoder with this number, 0 or 1. One with any other number refuses
    /// every call with [`Refusal::StrayHistory`].
    ///
    /// ```
    /// use ofec::pair::{CODED_BYTES, PAYLOAD_BYTES};
    /// use ofec::{Receiver, Refusal};
    ///
    /// let (line, mut received) = ([0; CODED_BYTES], [0; PAYLOAD_BYTES]);
    /// assert!(Receiver::new(1).receive(&line, &mut received).is_ok());
    /// let refused = Receiver::new(2).receive(&line, &mut received);
    /// assert_eq!(refused, Err(Refusal::StrayHistory));
    /// ```
    pub fn new(number: u32) -> Self {
        Receiver::resume(number, History::fresh(number))
    }

    /// A receiver with this number that continues from a history. One of another receiver is refused
    /// by every call with [`Refusal::StrayHistory`].
    ///
    /// ```
    /// use ofec::pair::{CODED_BYTES, PAYLOAD_BYTES};
    /// use ofec::{Receiver, Refusal};
    ///
    /// let (line, mut received) = ([0; CODED_BYTES], [0; PAYLOAD_BYTES]);
    /// let mut receiver = Receiver::new(0);
    /// receiver.receive(&line, &mut received)?;
    ///
    /// // Receiver 1 was given the history of receiver 0.
    /// let mut stray = Receiver::resume(1, receiver.history().clone());
    /// let refused = stray.receive(&line, &mut received);
    /// assert_eq!(refused, Err(Refusal::StrayHistory));
    /// assert_eq!(stray.history(), receiver.history());
    /// # Ok::<(), ofec::Refusal>(())
    /// ```
    pub fn resume(number: u32, history: History) -> Self {
        Receiver { number, history }
    }

    /// The number of the encoder whose pairs are received.
    pub fn number(&self) -> u32 {
        self.number
    }

    /// The history before the next pair.
    pub fn history(&self) -> &History {
        &self.history
    }

    /// Receives the next pair: `coded` of [`CODED_BYTES`] to `payload` of [`PAYLOAD_BYTES`]. Returns
    /// the marks of the pair's words, the 16 of its first row first.
    ///
    /// Refusals: [`Refusal::Misfit`], [`Refusal::StrayHistory`], [`Refusal::CountSpent`].
    pub fn receive(&mut self, coded: &[u8], payload: &mut [u8]) -> Result<[Mark; WORDS], Refusal> {
        let Receiver { number, history } = self;
        let pair = history.next_pair();
        let mut marks = [0; WORDS];
        capi::receive_pair(coded, payload, &mut marks, &mut history.0, *number, pair).done()?;
        Ok(marks.map(Mark::of))
    }
}
