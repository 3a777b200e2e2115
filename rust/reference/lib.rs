// Document 01's limit, record, survey, reading and book with document 02's forms, log, profile, index, merge, band and trial, written from the papers and apart from
// the Rattle code. The quantile and erf_core are the Rust's, the formulas are worked in f64. The names are the repository's: journal for volume, record for leaf, scan for survey.

pub mod band;
pub mod index;
pub mod limit;
pub mod log;
pub mod merge;
pub mod model;
pub mod profile;
pub mod record;
pub mod samples;
pub mod scan;
pub mod trial;
