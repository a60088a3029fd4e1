//! The Rust that the stub answers from, with copies of the driver's own part and of the adapter.

include!(concat!(env!("OUT_DIR"), "/include_expect.rs"));
include!(concat!(env!("OUT_DIR"), "/original.rs"));
include!(concat!(env!("OUT_DIR"), "/include_adapter.rs"));
include!(concat!(env!("OUT_DIR"), "/include_distance.rs"));
include!(concat!(env!("OUT_DIR"), "/include_amendment.rs"));
include!(concat!(env!("OUT_DIR"), "/include_edition.rs"));
include!(concat!(env!("OUT_DIR"), "/include_nearest.rs"));
include!(concat!(env!("OUT_DIR"), "/include_report.rs"));
include!(concat!(env!("OUT_DIR"), "/include_airtime.rs"));
include!(concat!(env!("OUT_DIR"), "/include_sixty.rs"));
include!(concat!(env!("OUT_DIR"), "/include_walk.rs"));
