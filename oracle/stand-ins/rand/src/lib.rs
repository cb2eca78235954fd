//! Stand-in for `rand`: hands out the session id and the random number that the case gives.
use std::{cell::Cell, num::NonZeroU32};

thread_local! { static DRAWN: Cell<(Option<NonZeroU32>, [u8; 16])> = const { Cell::new((None, [0; 16])) }; }

pub fn set(id: NonZeroU32, number: [u8; 16]) {
    DRAWN.set((Some(id), number))
}

pub struct ThreadRng;

pub fn thread_rng() -> ThreadRng {
    ThreadRng
}

pub trait Draw {
    fn draw() -> Self;
}

impl Draw for NonZeroU32 {
    fn draw() -> Self {
        DRAWN.get().0.expect("the case gives an id")
    }
}

impl Draw for [u8; 16] {
    fn draw() -> Self {
        DRAWN.get().1
    }
}

pub trait CryptoRng {}
impl CryptoRng for ThreadRng {}

pub trait Rng {
    fn gen<T: Draw>(&mut self) -> T {
        T::draw()
    }
}
impl Rng for ThreadRng {}
