//! The second program: the display box of document 01, with what has landed of the requests of
//! document 02 (§1, §2, §4, §5, §6, §7, §8), written from the documents alone.
//!
//! Document 01 asks that captured traffic and the bench's examples "are run and compared with an
//! independent second program". This is that program. It is ordinary Rust and shares nothing with
//! the box that it is held against. Each module quotes the sentences of the documents that it
//! carries out; where two careful readers could differ, it follows docs/DECISIONS.md and says so.

pub mod address;
pub mod advert;
pub mod answer;
pub mod checksum;
pub mod config;
pub mod flip;
pub mod kjw;
pub mod message;
pub mod panel;
pub mod plain;
pub mod receiver;
pub mod remote;
pub mod rs232c;
pub mod script;
pub mod sdcp;
pub mod vmc;
