//! elevator-core's sources with the stand-ins, laid out by build.rs, and a study that drives them.

#![allow(dead_code, unused_imports, unexpected_cfgs)]
#![allow(clippy::default_constructed_unit_structs)]

include!(concat!(env!("OUT_DIR"), "/src/lib.rs"));

pub mod study;
