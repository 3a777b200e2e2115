// The module err/inverfc.rs, unchanged. The modules declared here are below it, so they reach its private functions.

include!(concat!(env!("PXFM_SRC"), "/err/inverfc.rs"));

pub mod branch;
pub mod steps;
