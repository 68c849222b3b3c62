//! Whether an order may be declined.
//!
//! A solver that finds no way to fill an order book rests its "no" on a certificate: its rows, each times a multiplier,
//! added up into one row that no point in the variables' ranges can meet. The archive behind this crate weighs that
//! certificate as the solver does, and a second time with every step rounded outward. Its functions are proved to meet
//! their contracts; this crate only hands them their lists.
//!
//! `SheetBuilder` puts a sheet together from what the solver holds, and `weigh` weighs it, with lists of its own for the
//! certificate. [`weigh_into`] borrows the caller's lists, and allocates nothing. [`weigh_text`] takes a sheet in text, as
//! the program `weigh` reads it, and allocates nothing either; nor do the sums of a [`CDouble`], made in place. Without the
//! feature `alloc`, which is on unless turned off, the crate has only these.
//!
//! All functions of the archive take every input, and no call here panics on any. They keep nothing between calls and
//! may run in several threads at once. They assume the floating-point state in which Rust programs run: rounding to
//! nearest, subnormal numbers neither flushed nor taken as zero. `docs/FIRMWARE.md` has how deep the stack gets.
#![no_std]
#![warn(missing_docs)]
#![deny(unsafe_op_in_unsafe_fn)]

#[cfg(feature = "alloc")]
extern crate alloc;

#[cfg(feature = "alloc")]
mod builder;
mod cdouble;
mod raw;
mod refusal;
#[cfg(feature = "alloc")]
mod sheet;
mod slices;
mod text;
mod verdict;

#[cfg(feature = "alloc")]
pub use builder::{Direction, Domain, Multipliers, Pair, SheetBuilder, Side, State, Variable};
pub use cdouble::CDouble;
pub use refusal::Refusal;
#[cfg(feature = "alloc")]
pub use sheet::{weigh, Sheet};
pub use slices::{weigh_into, Buffers, Lists, Slices, Widened};
pub use text::{weigh_text, Answer};
#[cfg(feature = "alloc")]
pub use verdict::Certificate;
pub use verdict::{CertificateRef, Proof, Verdict};

/// The most rows of a sheet.
pub const MOST_ROWS: usize = 128;
/// The most structural variables of a sheet.
pub const MOST_STRUCTURALS: usize = 256;
/// The most variables of a sheet: the structural ones, and a slack for each row.
pub const MOST_VARIABLES: usize = MOST_STRUCTURALS + MOST_ROWS;
/// The most entries of a sheet, the slacks' among them.
pub const MOST_ENTRIES: usize = 4096;
/// The most widened items of a sheet: two sides of each variable.
pub const MOST_WIDENED: usize = 2 * MOST_VARIABLES;
/// The most bytes of a sheet's text.
pub const MOST_TEXT: usize = 65_536;
/// So many bytes always hold an answer's text.
pub const MOST_ANSWER: usize = 256;
