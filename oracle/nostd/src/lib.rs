//! The crate `micro_blossom_nostd` as far as the combinational driver needs it: its files
//! unchanged, and stand-ins for three modules.

// The modules come through include!, and one of them exports macros that the others name.
#![allow(macro_expanded_macro_exports_accessed_by_absolute_paths)]
#![allow(dead_code, non_local_definitions, unused_imports)]

pub mod dual_driver_tracked;
pub mod dual_module_stackless;
pub mod nonmax;

include!(concat!(env!("OUT_DIR"), "/modules.rs"));

impl util::TouchingLink {
    pub fn is_none(&self) -> bool {
        self.touch.is_none()
    }
}
