//! The club's engine record server: a second implementation, for comparison.
//!
//! Four texts are opened together (users, environments, policy and record);
//! after that the server answers request lines and saves its record.

#![forbid(unsafe_code)]

mod cursor;
mod names;
mod opening;
mod paths;
mod printing;
mod record_text;
mod refusals;
mod requests;
mod rights;
mod saved_text;
mod server;
mod tables;
mod values;

pub use opening::{Fault, TEXT_LIMIT};
pub use printing::{printed, COPY_LIMIT};
pub use requests::LINE_LIMIT;
pub use server::{Reply, Server, LIST_LENGTH};
