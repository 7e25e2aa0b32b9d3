//! The original Rust, built unchanged (`original`, `types`), its answers to requests, and a
//! generator of requests. README.md says how the original is built and how requests are laid out.

pub mod answer;
pub mod cases;
pub mod ends;
pub mod frame;
pub mod generate;
pub mod hex;
pub mod layout;
mod of_types;
pub mod original;
pub mod record;
// The original's own file: not to be formatted from here.
#[rustfmt::skip]
#[allow(unused_imports, clippy::wrong_self_convention)]
pub mod types;
