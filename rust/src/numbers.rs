//! Values from the numbers that the library gives. It promises their ranges; an archive that breaks
//! them stops the program, and none is cut short unseen.
use crate::Error;

/// A number of a narrower type.
pub(crate) fn narrow<T: TryFrom<u64>>(number: u64) -> T {
    T::try_from(number).unwrap_or_else(|_| broken("number", number))
}

/// A flag: 0 or 1.
pub(crate) fn flag(number: u64) -> bool {
    match number {
        0 => false,
        1 => true,
        _ => broken("flag", number),
    }
}

/// A code that is known.
pub(crate) fn code<T: TryFrom<u8, Error = Error>>(number: u64) -> T {
    T::try_from(narrow(number)).unwrap_or_else(|_| broken("code", number))
}

/// What the library's source promises not to give.
pub(crate) fn broken(what: &str, number: u64) -> ! {
    panic!("libpowerlink.a gives the {what} {number}, against its promise")
}
