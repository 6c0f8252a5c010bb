//! Whether the library that is linked has the calls that these bindings declare. An older or newer one would link, and be lent what it doesn't
//! expect; so every call compares the two numbers first.
use crate::calls;
use std::fmt;

/// The number of the calls that these bindings declare, `KS_ABI` of the header. It goes up when a signature or a layout changes.
pub const ABI: u32 = 3;

/// The library that is linked is of another number than these bindings.
#[derive(Clone, Copy, Debug, PartialEq, Eq, Hash)]
pub struct OtherLibrary {
    pub number: u32,
}

impl fmt::Display for OtherLibrary {
    fn fmt(&self, out: &mut fmt::Formatter) -> fmt::Result {
        let number = self.number;
        write!(
            out,
            "libkunzeastylus.a has the calls of ABI {number}, these bindings those of ABI {ABI}: take both from one release"
        )
    }
}

impl std::error::Error for OtherLibrary {}

/// Compares the library that is linked with these bindings. Every call does so, and panics where they differ.
pub fn check_abi() -> Result<(), OtherLibrary> {
    compare(calls::ks_abi())
}

pub(crate) fn compare(number: u32) -> Result<(), OtherLibrary> {
    match number {
        ABI => Ok(()),
        _ => Err(OtherLibrary { number }),
    }
}

#[cfg(test)]
mod tests {
    use super::{compare, OtherLibrary};

    #[test]
    fn another_library_is_named() {
        assert_eq!(compare(3), Ok(()));
        for number in [0, 2, 4, u32::MAX] {
            let said = format!(
                "libkunzeastylus.a has the calls of ABI {number}, these bindings those of ABI 3: take both from one release"
            );
            assert_eq!(compare(number).map_err(|other| other.to_string()), Err(said));
        }
        let _: &dyn std::error::Error = &OtherLibrary { number: 1 };
    }
}
