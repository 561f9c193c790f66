//! Which version of the library this is.

use core::fmt;
use strm_sys as sys;

/// A version, of this crate or of the archive that it is linked with.
///
/// ```
/// use strm::Version;
///
/// assert_eq!(strm::version(), Version::CRATE);
/// assert_eq!(Version::from(1_002_003).to_string(), "1.2.3");
/// ```
#[derive(Clone, Copy, Debug, PartialEq, Eq, Hash, PartialOrd, Ord)]
pub struct Version {
    /// Its first number.
    pub major: u32,
    /// Its second.
    pub minor: u32,
    /// Its third.
    pub patch: u32,
}

impl Version {
    /// The version of this crate.
    pub const CRATE: Version = Version {
        major: number(env!("CARGO_PKG_VERSION_MAJOR")),
        minor: number(env!("CARGO_PKG_VERSION_MINOR")),
        patch: number(env!("CARGO_PKG_VERSION_PATCH")),
    };
}

const fn number(digits: &str) -> u32 {
    match u32::from_str_radix(digits, 10) {
        Ok(number) => number,
        Err(_) => panic!("a version is of numbers"),
    }
}

/// As `strm_version` answers it: 1,000,000 times the first number, 1,000 times the second, and the third.
impl From<u32> for Version {
    fn from(number: u32) -> Version {
        Version {
            major: number / 1_000_000,
            minor: number / 1_000 % 1_000,
            patch: number % 1_000,
        }
    }
}

impl fmt::Display for Version {
    fn fmt(&self, f: &mut fmt::Formatter<'_>) -> fmt::Result {
        write!(f, "{}.{}.{}", self.major, self.minor, self.patch)
    }
}

/// The version of the archive. Where it is not [`Version::CRATE`], the crate was written for another one.
///
/// ```
/// assert_eq!(strm::version(), strm::Version::CRATE);
/// ```
#[must_use]
pub fn version() -> Version {
    // SAFETY: it takes nothing.
    Version::from(unsafe { sys::strm_version() })
}
