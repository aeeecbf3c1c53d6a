//! Jeqlluna, a proved audio renderer, as safe Rust over its C functions.
//!
//! A title hands its renderer voice records and samples; the renderer decodes PCM and ADPCM, resamples, mixes to one stereo sink and
//! tells the title how far each voice has played. Any bytes and numbers are allowed: a call gives a result or a [`Refusal`], and a
//! refusal has changed nothing.
//!
//! ```
//! use jeqlluna::{Parameters, Range, Renderer, revision};
//!
//! let parameters = Parameters { samples: 2, revision: revision(5), ..Parameters::default() };
//! let mut renderer = Renderer::open(&parameters)?;
//! let (memory, mut frames) = ([0; 16], [0.0; 4]);
//! renderer.render(&[Range::whole(0x10000, &memory)], &memory, &mut frames)?;
//! let reply = renderer.update(272, &[], 4096)?;
//! assert_eq!(reply.len(), 272);
//! # Ok::<(), jeqlluna::Refusal>(())
//! ```
//!
//! An update without input, as here, changes nothing and tells how far the voices have played; [`Renderer::positions`] reads its reply.
//!
//! Sample memory is one slice in up to 16 ranges, each a [`Range`]; [`Range::whole`] is all of it. [`Renderer::render_section`] makes many
//! renders in one call.
//!
//! [`decode_adpcm`], [`encode_adpcm`], [`read_dsp`] and [`write_dsp`] need no renderer: ADPCM alone, and clips as DSP files. Nor does
//! [`merge`](fn@merge): it makes one update of a title's and a click track's.
//!
//! # Memory
//!
//! A renderer holds at most [`MOST_HELD`] bytes, whatever its parameters. A reply is as long as a title's numbers make it, so
//! [`Renderer::update`] takes a limit, and [`Renderer::update_into`] a slice. [`Renderer::positions`] takes at most 6,672 bytes for a reply
//! while it runs and gives 16 for each voice, [`Renderer::mix_order`] 4 for each sub-mix that runs. Nothing else is allocated.
//!
//! # The floating-point mode
//!
//! The proofs assume that arithmetic rounds to nearest, flushes nothing to zero and masks all exceptions. Each call of this crate puts
//! the thread's mode in that order and back: MXCSR is afterwards as it was before, its exception flags included, so that a call raises no
//! flag. The functions of [`sys`] leave the mode alone.
#![no_std]

extern crate alloc;

mod adpcm;
mod dsp;
mod encode;
mod merge;
mod mode;
mod parameters;
mod positions;
mod range;
mod refusal;
mod renderer;
pub mod sys;
#[cfg(test)]
mod tests;

/// The program of README.md.
#[cfg(doctest)]
#[doc = include_str!("../README.md")]
struct Readme;

pub use adpcm::decode_adpcm;
pub use dsp::{read_dsp, write_dsp};
pub use encode::{Encoded, encode_adpcm};
pub use merge::{merge, merge_bytes};
pub use parameters::{PARAMETERS, Parameters, revision};
pub use positions::Position;
pub use range::Range;
pub use refusal::Refusal;
pub use renderer::{MOST_HELD, Renderer};
pub use sys::{AdpcmContext, DspHeader};
