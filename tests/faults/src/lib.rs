//! The reference with a fault that is chosen at run time (build.rs), for tests that must find it out.
#![allow(warnings, clippy::all)] // what is woven is laid out for the compiler alone

pub mod fault;

include!(concat!(env!("OUT_DIR"), "/lib.rs"));
