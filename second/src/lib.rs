//! A plain second reading of document 01 (tap packets of DoM 1.3.b, and of 1.3, into an order book and its
//! sheet), with requests 2, 4, 5, 6, 9, 10 and 13 of document 02, written from the documents alone. No cleverness:
//! linear scans everywhere, so that each function can be held against the sentences quoted above it. The index of
//! request 9 is a model of docs/INDEX.md, the conversion between editions one of docs/CONVERT.md, the writer of
//! request 4 one of docs/WRITE.md, and mornings as text follow docs/TEXT.md, as plain as the rest.
//!
//! `fast` and `plain` are no part of that reading: they are what the benchmarks lay the proved library beside.
//!
//! Refusals (6, 30) and broken rules (20 to 27) are document 01's numbers, as plain `u8`. What reads a packet
//! answers a `packet::Refusal`, which has the offset beside 2 to 5 (request 5).
//!
//! Where the proved library is linked (`cfg(linked)`, see `build.rs`) there are also `proved`, which
//! calls it, `twins`, which holds it against this program, and `scenarios`, what both are given.
#![cfg_attr(not(linked), forbid(unsafe_code))]
#![cfg_attr(linked, deny(unsafe_code))]

pub mod answers;
pub mod book;
pub mod command;
pub mod convert;
pub mod desk;
pub mod edition;
pub mod examples;
pub mod fast;
pub mod index;
pub mod morning;
pub mod packet;
pub mod plain;
#[cfg(linked)]
#[allow(unsafe_code)] // C functions cannot be called otherwise; nothing else here does
pub mod proved;
pub mod reading;
pub mod receiver;
#[cfg(linked)]
pub mod scenarios;
pub mod seen;
pub mod sheet;
pub mod stream;
pub mod tables;
pub mod text;
pub mod traffic;
#[cfg(linked)]
pub mod twins;
pub mod views;
pub mod write;
