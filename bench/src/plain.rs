//! Systems, likenesses, system files and the docket in plain Rust, written
//! from `docs/` alone.

pub mod arena;
pub mod board;
pub mod calls;
pub mod certificate;
pub mod docket;
pub mod file;
pub mod layers;
pub mod likeness;
pub mod numbers;
pub mod refusal;
pub mod stored;
pub mod system;
