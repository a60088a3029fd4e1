//! The Rust that is compared with, unchanged (build.rs puts it there), and its answers.

use crate::expect;
include!(concat!(env!("OUT_DIR"), "/oracle.rs"));
#[path = "adapter.rs"]
pub mod adapter;
#[path = "amendment.rs"]
pub mod amendment;
#[path = "edition.rs"]
pub mod edition;
#[path = "nearest.rs"]
pub mod nearest;
#[path = "sixty.rs"]
pub mod sixty;
#[path = "walk.rs"]
pub mod walk;
