//! The published `pass`, unchanged.

#![allow(dead_code, reason = "the published text has more than the pass uses")]

include!(concat!(env!("OUT_DIR"), "/pass.rs"));
