//! The second, independent implementation of the payload codec, written from documents 01 and 001 and the team's
//! readings of them. It judges the proved one, so it favours plain code over clever code.

#![forbid(unsafe_code)]
#![warn(missing_docs)]

pub mod answer;
pub mod bim;
pub mod bits;
pub mod calendar;
pub mod call;
pub mod calls;
pub mod cases;
pub mod code_cases;
pub mod codes;
pub mod demands;
pub mod gen;
pub mod guide;
pub mod host;
pub mod init;
pub mod lent;
pub mod list;
pub mod listing;
pub mod meaning;
pub mod message_cases;
pub mod model;
pub mod padding;
pub mod program;
pub mod reader;
pub mod report;
pub mod report_cases;
pub mod rng;
pub mod rows;
pub mod shelf;
pub mod speed;
pub mod swift;
pub mod table;
pub mod tally;
pub mod trials;
pub mod utf8;
pub mod value;
pub mod vectors;
pub mod words;
pub mod writer;
