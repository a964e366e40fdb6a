//! The version of this crate, and of the archive that it is linked with.

use std::fmt;

use crate::ffi;

/// A version of the engine's surface. A minor version may change what a function takes or answers, a patch does neither.
#[derive(Clone, Copy, Debug, PartialEq, Eq, PartialOrd, Ord, Hash)]
pub struct Version {
    /// The first number.
    pub major: u32,
    /// The second number.
    pub minor: u32,
    /// The third number.
    pub patch: u32,
}

/// The version of this crate.
pub const VERSION: Version = Version { major: 0, minor: 8, patch: 0 };

/// The version of the archive that is linked.
///
/// ```
/// assert_eq!(parvusek::linked_version(), parvusek::VERSION);
/// assert_eq!(parvusek::VERSION.to_string(), env!("CARGO_PKG_VERSION"));
/// ```
pub fn linked_version() -> Version {
    // SAFETY: it takes nothing, and nothing is lent.
    let number = unsafe { ffi::parvusek_version() };
    Version { major: number / 10_000, minor: number / 100 % 100, patch: number % 100 }
}

/// Called wherever a basis or a roll is made, so that no enquiry reaches an archive with other declarations or answers. Linking
/// another archive is a fault of the build and no answer, so it is a panic.
pub(crate) fn check_linked_version() {
    let linked = linked_version();
    assert!(
        (linked.major, linked.minor) == (VERSION.major, VERSION.minor),
        "the crate parvusek is version {VERSION} and the archive that it is linked with {linked}, and a minor version may \
         change answers: build with the archive of {}.{} (PARVUSEK_LIB_DIR names its folder)",
        VERSION.major,
        VERSION.minor
    );
}

impl fmt::Display for Version {
    fn fmt(&self, f: &mut fmt::Formatter<'_>) -> fmt::Result {
        write!(f, "{}.{}.{}", self.major, self.minor, self.patch)
    }
}
