//! What the original says beside its results: `error!` is silent; a zero pivot, a range assertion that does not hold and how many intervals a search examines are
//! noted for the caller. And what it is told beside its arguments: that it builds a rigid move.

use std::cell::Cell;

macro_rules! error {
    ($($message:tt)*) => {
        ()
    };
}
pub(crate) use error;

thread_local! {
    static ZERO_PIVOT: Cell<bool> = const { Cell::new(false) };
    static OUT_OF_RANGE: Cell<bool> = const { Cell::new(false) };
    static EXAMINED: Cell<u32> = const { Cell::new(0) };
    static RIGID: Cell<bool> = const { Cell::new(false) };
}

/// Called by the original where it finds a zero pivot.
#[cold]
pub fn zero_pivot() {
    ZERO_PIVOT.set(true);
}

/// Called by the original in place of the range assertions of `Interval`'s sine and cosine.
#[inline(always)]
pub fn range(holds: bool) {
    if !holds {
        OUT_OF_RANGE.set(true);
    }
}

/// Called by the original's `interval_find_zeros` as it begins.
#[inline(always)]
pub fn examined() {
    EXAMINED.set(EXAMINED.get() + 1);
}

/// Called by the original's `AnimatedTransform::new` once both poses are decomposed.
pub fn rigid() -> bool {
    RIGID.get()
}

/// What `build` gives, the original being told of a rigid move or not.
pub fn telling<T>(rigid: bool, build: impl FnOnce() -> T) -> T {
    RIGID.set(rigid);
    let built = build();
    RIGID.set(false);
    built
}

/// Whether a zero pivot was met since the last call.
pub fn take_zero_pivot() -> bool {
    ZERO_PIVOT.replace(false)
}

/// Whether a range assertion failed since the last call.
pub fn take_out_of_range() -> bool {
    OUT_OF_RANGE.replace(false)
}

/// How many intervals were examined since the last call.
pub fn take_examined() -> u32 {
    EXAMINED.replace(0)
}
