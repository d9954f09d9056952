//! The crate without the standard library: this library brings a panic handler of its own, which the
//! compiler refuses where another is linked, as the standard library's would be.
#![no_std]

use core::panic::PanicInfo;

#[panic_handler]
fn panic(_: &PanicInfo<'_>) -> ! {
    loop {}
}

/// One plus the last unit, and whether it is 0.
#[must_use]
pub fn wraps() -> bool {
    sfr::BabyBearUnit(sfr::PRIME - 1) + sfr::BabyBearUnit::ONE == sfr::BabyBearUnit::ZERO
}
