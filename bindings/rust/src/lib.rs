//! IEC 61850-9-2 sampled-value frames, read and written by code that is proved to meet its
//! definition.
//!
//! The names and signatures are those of OpenEnergyStack/iec61850, so that a caller changes the
//! import. What it panics on is an error here. README.md lists what differs, and why.
//!
//! ```no_run
//! use hopsickle::{read_strict, Form, SavDataSetConfig};
//!
//! # fn main() -> Result<(), Box<dyn std::error::Error>> {
//! let octets = std::fs::read("frame")?;
//! let frame = read_strict(&octets, &SavDataSetConfig::le_92(), Form::Fixed)?;
//! println!("{:?} {:?}", frame.sv_id(0), frame.values());
//! # Ok(())
//! # }
//! ```

mod data_sets;
mod form;
mod frame;
mod refusal;
pub mod rt_services;
mod slices;
pub mod sys;
pub mod types;

pub use data_sets::DataSets;
pub use form::Form;
pub use frame::Frame;
pub use refusal::Refusal;
pub use rt_services::*;
pub use types::*;
