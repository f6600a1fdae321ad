//! A second, independent account of document 01, and of requests 1 to 8, 11 and 12 of document 02: the encryption
//! controller of a tape drive, batches of events, the replay of recorded sessions, the reasons of their writes, their
//! claim and the salvage of damaged ones, and the programs that compare them with others on a pipe. Host tools beside it:
//! recordings as text, the page of a claim, and the faulty byte in words and in sense data.

#![forbid(unsafe_code)]

pub mod account;
pub mod answer;
pub mod answer_words;
pub mod calls;
pub mod claim;
pub mod codes;
pub mod comparison;
pub mod controller;
pub mod descriptors;
pub mod digits;
pub mod field_words;
mod flags;
pub mod hex;
pub mod names;
mod places;
pub mod record;
pub mod record_bytes;
pub mod recording;
pub mod report;
pub mod response_pages;
pub mod salvage;
pub mod script;
pub mod selection_words;
pub mod sense_data;
pub mod set_page;
pub mod sizes;
pub mod status_page;
pub mod stream;
pub mod well_formed;
pub mod why;
