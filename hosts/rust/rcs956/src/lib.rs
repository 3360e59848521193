//! The RC-S956 reader engine for Rust, over the proved archive libsession_c.a.
//!
//! The engine does no transport itself. [`Reader::call`] gives a [`Step`]: an order, or the call's end. Each order takes the events
//! that fit it, and no others; an event uses the order up and gives the next step.
//!
//! ```
//! use rcs956::{Call, Fault, Reader, Step};
//!
//! let mut reader = Reader::new();
//! let Step::Write(order) = reader.call(0, Call::Open { padded: false }) else { panic!("an opening begins with ACK") };
//! assert_eq!(order.bytes(), [0, 0, 0xFF, 0, 0xFF, 0]);
//! assert!(matches!(order.failed(), Step::Refused(Fault::Transport)));
//! ```
//!
//! A write order cannot be answered as a pause is, nor twice, and no call can be made while an order is held:
//!
//! ```compile_fail,E0599
//! # use rcs956::{Call, Reader, Step};
//! # let mut reader = Reader::new();
//! let Step::Write(order) = reader.call(0, Call::Open { padded: false }) else { return };
//! order.slept();
//! ```
//! ```compile_fail,E0382
//! # use rcs956::{Call, Reader, Step};
//! # let mut reader = Reader::new();
//! let Step::Write(order) = reader.call(0, Call::Open { padded: false }) else { return };
//! let (_, _) = (order.ok(), order.ok());
//! ```
//! ```compile_fail,E0499
//! # use rcs956::{Call, Reader, Step};
//! # let mut reader = Reader::new();
//! let Step::Write(order) = reader.call(0, Call::Open { padded: false }) else { return };
//! let _ = reader.call(0, Call::Version);
//! let _ = order.ok();
//! ```
//!
//! [`run`] does all of it over a [`Transport`].

#![deny(unsafe_code)]

mod calls;
mod driver;
#[allow(unsafe_code)]
mod ffi;
pub mod raw;
mod refusal;
mod step;

pub use calls::Call;
pub use driver::{Received, Transport, run};
pub use refusal::{Fault, Refusal};
pub use step::{Answer, Drain, Lengths, Pause, Read, Reader, Step, Write};

/// The bytes of the engine's buffer, and the most that a packet has.
pub const BUFFER_SIZE: usize = 1024;

#[cfg(test)]
mod tests;
