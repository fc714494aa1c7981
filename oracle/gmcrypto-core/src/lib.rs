//! Declares the modules of the Rust that are compared with; their files are copied in unchanged.
#![no_std]
#![allow(dead_code)]
// Debian's zeroize_derive is older than this lint.
#![allow(non_local_definitions)]
extern crate alloc;

pub mod hmac;
pub mod sm3;
pub mod sm4;
pub mod tlcp;
pub mod traits;
