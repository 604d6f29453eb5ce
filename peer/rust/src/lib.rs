//! A second engine for door networks: every minimal cut of a door, and bounds
//! on the chance that the door is cut off.
//!
//! It was written from the rules alone, shares no code with the product, and
//! uses the standard library only.  Node sets and branch sets are bit masks
//! throughout; all arithmetic on chances is on integers, so every rounding is
//! exact.
//!
//! - [`deck`] reads a deck, or says why it is refused,
//! - [`network`] has the network of a deck and the masks made from it,
//! - [`search`] lists the minimal cuts of a door,
//! - [`scale`] has the two kinds of rounded numbers,
//! - [`bounds`] works out the bounds in either of them,
//! - [`sheet`] prints it all.

pub mod bounds;
pub mod deck;
pub mod network;
pub mod scale;
pub mod search;
pub mod sheet;
