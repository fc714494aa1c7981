//! A stand-in with the two traits that the Rust asks for: Debian's rand_core has no `TryCryptoRng`.
#![no_std]
use core::fmt::{Debug, Display};

pub trait TryRngCore {
    type Error: Debug + Display;
    fn try_fill_bytes(&mut self, out: &mut [u8]) -> Result<(), Self::Error>;
}

pub trait TryCryptoRng: TryRngCore {}
