//! The crate's tests, on the library that it links.
mod adpcm;
mod dsp;
mod encode;
mod lengths;
mod merge;
mod modes;
mod positions;
mod ranges;
mod refusals;
mod sections;
mod sessions;
mod title;
mod words;
