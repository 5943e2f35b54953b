use core::fmt;
use separation_kernel_sys as sys;

/// A version of the kernel's boundary.
#[derive(Clone, Copy, PartialEq, Eq, PartialOrd, Ord, Hash, Debug)]
pub struct Version(u32);

impl Version {
    /// The version that this crate is for.
    pub const OF_CRATE: Version = Version(sys::SK_VERSION);

    /// The version of the archive that is linked.
    pub fn of_archive() -> Version {
        // SAFETY: the function has no parameters and reads no memory.
        Version(unsafe { sys::sk_version() })
    }

    /// The first number: types of another one do not fit.
    pub const fn major(self) -> u32 {
        self.0 >> 16
    }

    /// The second number.
    pub const fn minor(self) -> u32 {
        self.0 & 0xffff
    }
}

impl fmt::Display for Version {
    fn fmt(&self, out: &mut fmt::Formatter<'_>) -> fmt::Result {
        write!(out, "{}.{}", self.major(), self.minor())
    }
}

/// The archive is not of this crate's version.
#[derive(Clone, Copy, PartialEq, Eq, Hash, Debug)]
pub struct WrongVersion {
    archive: Version,
}

impl WrongVersion {
    /// The archive's version.
    pub const fn archive(self) -> Version {
        self.archive
    }
}

impl fmt::Display for WrongVersion {
    fn fmt(&self, out: &mut fmt::Formatter<'_>) -> fmt::Result {
        write!(out, "libboundary.a is version {}, and this crate is for {}", self.archive, Version::OF_CRATE)
    }
}

impl core::error::Error for WrongVersion {}

/// Is the archive of this crate's version? A minor version may act otherwise too, so both numbers must be the same. Worth a call at the start of a program
/// whose archive comes from elsewhere.
pub fn check_version() -> Result<Version, WrongVersion> {
    match Version::of_archive() {
        Version::OF_CRATE => Ok(Version::OF_CRATE),
        archive => Err(WrongVersion { archive }),
    }
}

/// Types of another major version do not fit, and a call would read past them: so no policy comes to be.
pub(crate) fn assert_types_fit() {
    let archive = Version::of_archive();
    assert!(archive.major() == Version::OF_CRATE.major(), "{}", WrongVersion { archive });
}
