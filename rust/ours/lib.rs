// Our functions: the library's calls, as the crate awaqlla has them, and what the archive of crate capi_port_c exports.
// Nothing checks the declaration against that crate, which rules.

#[path = "../awaqlla/src/calls.rs"]
mod calls;

#[macro_use]
#[path = "../functions.rs"]
mod functions;

pub use calls::*;

/// A side's listed functions by number: `input` holds the arguments' bit patterns from the front, `out` takes the result's.
pub type Step = extern "C" fn(number: u32, input: &[u64; 6], out: &mut [u64; 2]);

unsafe extern "C" {
    pub safe fn px_step(number: u32, input: &[u64; 6], out: &mut [u64; 2]);
}

macro_rules! name_numbers {
    ($($number:literal $name:ident ($($arg:ident: $kind:ident $(in $ranges:expr)?),*) $(if $holds:expr)? => $call:expr;)*) => {
        /// The numbers of the listed functions, under the functions' names.
        #[allow(non_upper_case_globals)]
        pub mod number {
            $(pub const $name: u32 = $number;)*
        }
    };
}

with_functions!(name_numbers);
