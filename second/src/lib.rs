//! A second formatter of document 01, written from the papers alone: it shares no code, table or
//! generated file with the proved crates, so that the two can be compared.
//!
//! The modules follow document 01's sections:
//! `session` (A session), `refusal` (Refusal numbers), `number` (Numbers), `escape`, `argument`,
//! `text`, `line` and `request` (Lines and escapes), `fill` (Filling), `page` (Rows, pages, traps).
//! `json`, `vector` and `run` serve the command line; `generate` and `crowd` make random documents.

pub mod argument;
pub mod crowd;
pub mod escape;
pub mod fill;
pub mod generate;
pub mod json;
pub mod line;
pub mod number;
pub mod page;
pub mod refusal;
pub mod request;
pub mod run;
pub mod session;
pub mod state;
pub mod text;
pub mod vector;
