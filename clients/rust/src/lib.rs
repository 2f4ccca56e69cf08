//! A client of one centre of mdcc, written from `docs/CLIENTS.md` alone, over the standard library alone.
//!
//! [`Client`] reads records and begins transactions, sends again what is not answered, and hands out serials. It is one thread and has one
//! request open at a time, but for reads, of which it asks all at once. What to do about the answers is the caller's, as
//! `docs/APPLICATIONS.md` has it; `examples/shop.rs` shows some of that.

mod client;
mod configuration;
mod copies;
mod json;
mod wire;

pub use client::{Client, Ending, Settings};
pub use configuration::{Configuration, ConfigurationError};
pub use wire::{Answer, BeginFault, DraftFault, Item, Part, Record, Tx, Update};
