//! Stand-in for `getrandom`: hands out the IV that the case gives.
use std::cell::Cell;

thread_local! { static IV: Cell<[u8; 16]> = const { Cell::new([0; 16]) }; }

pub fn set(iv: [u8; 16]) {
    IV.set(iv)
}

pub fn fill(out: &mut [u8]) -> Result<(), std::fmt::Error> {
    out.copy_from_slice(&IV.get());
    Ok(())
}
