//! Tests of the reference against document 01, and requests 1 to 8, 11 and 12 of document 02.

#![forbid(unsafe_code)]

mod answers;
mod batch;
mod ceem;
mod claim;
mod events;
mod examples;
mod faulty_byte;
mod given;
mod page;
mod places;
mod reads;
mod record_bytes;
mod recording;
mod replay;
mod response_pages;
mod salvage;
mod salvage_runs;
mod selection_words;
mod sent;
mod status_page;
mod stream;
mod well_formed;
mod why;
