// The original's file, unchanged, as the build script lays it out.
include!(concat!(env!("OUT_DIR"), "/types.rs"));
