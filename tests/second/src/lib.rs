//! The independent second program of Lubdhvani, as a library: every public
//! call of the product, written from the papers alone and the plain way they
//! read. Plain slices in, plain structs out, lent buffers as document 01 says.

pub mod accept;
pub mod answers;
pub mod bundle;
pub mod chance;
pub mod cipher;
pub mod compose;
pub mod convert;
pub mod desk;
pub mod diffusion;
pub mod digest;
pub mod drawing;
pub mod frame;
pub mod index;
pub mod inputs;
pub mod kat;
pub mod leaders;
pub mod line;
pub mod lines;
pub mod live;
pub mod near;
pub mod numbers;
pub mod padding;
pub mod permutation;
pub mod reader;
pub mod readings;
pub mod replay;
pub mod rows;
pub mod running;
#[cfg(test)]
mod sample;
pub mod shuffle;
pub mod stream;
pub mod stuffing;
pub mod substitution;
pub mod text;
pub mod told;
pub mod trial;
