//! The crate `micro_blossom` as far as the combinational driver needs it: its files unchanged, and
//! stand-ins for two modules.

// The modules come through include!, and one of them exports a macro that the others name.
#![allow(macro_expanded_macro_exports_accessed_by_absolute_paths)]
#![allow(dead_code, unused_imports)]

pub mod mwpm_solver;
pub mod util;

include!(concat!(env!("OUT_DIR"), "/modules.rs"));
