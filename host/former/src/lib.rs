//! An earlier build of the proved library, seen as the present one.

include!(concat!(env!("OUT_DIR"), "/wrapper.rs"));
