//! The locked bucket of the gauge hub, written from document 01 and its change requests and from nothing else.
//!
//! The modules follow the document's sections. The engine that is proved is compared with this one.
#![deny(unsafe_code)]

pub mod answers;
pub mod bucket;
pub mod bytes;
pub mod dates;
pub mod entry;
pub mod locks;
pub mod pages;
pub mod program;
pub mod refusals;
pub mod reports;
pub mod requests;
pub mod settings;
pub mod sweep;
pub mod verbs;

pub use bucket::Bucket;
pub use entry::{fresh_bytes, keys_in_bytes, serve_bytes, serve_bytes_counted};
