//! The oFEC line reference (16-QAM and QPSK) for Rust: safe functions and types over the verified library.
//!
//! Every function of that library is proved to meet its contract. This crate has slices where the
//! library has pointers, and a [`Refusal`] where it has a number; its types carry a [`History`] or an
//! open file. It has no dependencies, needs no standard library, and allocates nothing.
//!
//! | module | holds |
//! |---|---|
//! | [`word`] | repair of a check word |
//! | [`pair`] | [`Encoder`] and [`Receiver`]: pairs of rows over a [`History`] of the ten pairs before |
//! | [`interleaver`] | 21 pairs of each of two encoders to the bits of a buffer, and back |
//! | [`profile`] | [`Profile`]: 16-QAM or QPSK, and the sizes that depend on it |
//! | [`cells`] | a buffer's bits to cells, and back |
//! | [`frame`] | payload and overhead cells to the sub-frames of a super-frame, and back |
//! | [`superframe`] | all of these for a super-frame: payload to frames, and back |
//! | [`line_file`] | [`LineFile`] and the header of a line file |
//! | [`refusal`] | why a call is refused |
//! | [`capi`] | the C interface, call by call, on which the others stand |
//!
//! A function that depends on the profile is there twice: `frame` is for 16-QAM and `frame_qpsk` for
//! QPSK, and so on.
//!
//! Each module has constants for the lengths of its buffers, and [`Profile`] has those that depend on
//! the profile. A buffer of any other length is refused with [`Refusal::Misfit`] (except the payload
//! of a sub-frame number of 48 or more, which is not measured). A refused call leaves every buffer and
//! every history as it was. The library has no state of its own, so calls may run on several threads at
//! once.
//!
//! A pair over a line that flips two bits of one word:
//!
//! ```
//! use ofec::pair::{CODED_BYTES, PAYLOAD_BYTES};
//! use ofec::{Encoder, Mark, Receiver};
//!
//! let payload: Vec<u8> = (0..PAYLOAD_BYTES).map(|i| (i * i) as u8).collect();
//! let mut line = [0; CODED_BYTES];
//! Encoder::new(0).encode(&payload, &mut line)?;
//!
//! line[0] ^= 0b0110_0000; // two bits of word 0
//!
//! let mut received = [0; PAYLOAD_BYTES];
//! let marks = Receiver::new(0).receive(&line, &mut received)?;
//! assert_eq!(marks[0], Mark::TwoFlips);
//! assert!(marks[1..].iter().all(|&mark| mark == Mark::Sound));
//! assert_eq!(received[..], payload[..]);
//! # Ok::<(), ofec::Refusal>(())
//! ```
//!
//! The build links `libcapi.a` from the folder that the environment variable `OFEC_LIB_DIR` names, or
//! otherwise from `target/staticlib` of the repository that the crate is part of. `examples/line.rs`
//! is a complete program.

#![no_std]
#![deny(missing_docs)]
#![deny(unsafe_code)]

pub mod capi;
pub mod cells;
pub mod frame;
pub mod interleaver;
pub mod line_file;
pub mod pair;
pub mod profile;
pub mod refusal;
pub mod superframe;
pub mod word;

pub use line_file::LineFile;
pub use pair::{Encoder, History, Receiver};
pub use profile::Profile;
pub use refusal::Refusal;
pub use word::Mark;
