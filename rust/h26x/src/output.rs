//! What is written and printed: files, recordings, reports and pages.

pub mod attributes;
pub mod bits;
pub mod boxes;
pub mod chart;
pub mod clock;
pub mod colors;
pub mod file;
pub mod html;
pub mod json;
pub mod moov;
pub mod mp4;
pub mod parts;
pub mod picture_size;
pub mod printing;
pub mod progress;
pub mod recording;
pub mod report;
pub mod standard;
pub mod statistics;
pub mod vvc;
pub mod writer;
pub mod written;
