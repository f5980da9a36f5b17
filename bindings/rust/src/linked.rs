//! Which archive is linked, held against this crate: another version, or a record of another size, would be undefined behaviour at the
//! first call that hands one over or is lent its rows.
use crate::ffi::{wermazul_layout, Counts, CountsTold, Layout, LedgerTold, LineTold, TurnTold};
use crate::orderbook::OrderBook;
use crate::position::PositionLedger;
use crate::receiver::Receiver;
use crate::told::Told;
use std::fmt;
use std::mem::size_of;
use std::sync::atomic::{AtomicBool, Ordering};

#[cfg(test)]
mod tests;

/// The version of an archive.
#[derive(Clone, Copy, Debug, PartialEq, Eq, PartialOrd, Ord)]
pub struct Version {
    /// The first number.
    pub major: u64,
    /// The second.
    pub minor: u64,
    /// The third.
    pub patch: u64,
}

impl Version {
    /// The version that an archive tells as one number.
    fn of(told: u64) -> Version {
        Version { major: told / 1_000_000, minor: told / 1_000 % 1_000, patch: told % 1_000 }
    }
}

impl fmt::Display for Version {
    fn fmt(&self, f: &mut fmt::Formatter<'_>) -> fmt::Result {
        write!(f, "{}.{}.{}", self.major, self.minor, self.patch)
    }
}

/// The archive that is linked is not one for this crate. Its words say how it differs and what to do.
#[derive(Clone, Copy, Debug, PartialEq, Eq)]
pub struct OtherArchive(Layout);

impl OtherArchive {
    /// The version of the archive that is linked.
    pub fn version(&self) -> Version {
        Version::of(self.0.version)
    }
}

impl fmt::Display for OtherArchive {
    fn fmt(&self, f: &mut fmt::Formatter<'_>) -> fmt::Result {
        let pairs = || sizes(&self.0).into_iter().zip(sizes(&OURS)).filter(|(theirs, ours)| theirs != ours);
        write!(f, "the linked archive is version {}", self.version())?;
        for ((record, bytes), _) in pairs() {
            write!(f, ", with a {record} of {bytes} bytes")?;
        }
        write!(f, "; this crate needs version {}", Version::of(OURS.version))?;
        for (_, (record, bytes)) in pairs() {
            write!(f, ", with a {record} of {bytes} bytes")?;
        }
        write!(f, ": build the archive again with bindings/archive")
    }
}

impl std::error::Error for OtherArchive {}

/// A decimal number of the package's version.
const fn number(digits: &str) -> u64 {
    let (bytes, mut place, mut value) = (digits.as_bytes(), 0, 0);
    while place < bytes.len() {
        value = value * 10 + (bytes[place] - b'0') as u64;
        place += 1;
    }
    value
}

/// The archive that this crate is for.
const OURS: Layout = Layout {
    version: number(env!("CARGO_PKG_VERSION_MAJOR")) * 1_000_000
        + number(env!("CARGO_PKG_VERSION_MINOR")) * 1_000
        + number(env!("CARGO_PKG_VERSION_PATCH")),
    book: size_of::<OrderBook>() as u64,
    ledger: size_of::<PositionLedger>() as u64,
    held: size_of::<Receiver>() as u64,
    told: size_of::<Told>() as u64,
    counts: size_of::<Counts>() as u64,
    counts_told: size_of::<CountsTold>() as u64,
    ledger_told: size_of::<LedgerTold>() as u64,
    turn_told: size_of::<TurnTold>() as u64,
    line_told: size_of::<LineTold>() as u64,
};

/// Each record and its bytes.
fn sizes(of: &Layout) -> [(&'static str, u64); 9] {
    [
        ("OrderBook", of.book),
        ("PositionLedger", of.ledger),
        ("Receiver", of.held),
        ("Told", of.told),
        ("Counts", of.counts),
        ("CountsTold", of.counts_told),
        ("LedgerTold", of.ledger_told),
        ("TurnTold", of.turn_told),
        ("LineTold", of.line_told),
    ]
}

fn held_to_ours(linked: Layout) -> Result<Version, OtherArchive> {
    if linked == OURS {
        Ok(Version::of(linked.version))
    } else {
        Err(OtherArchive(linked))
    }
}

/// The version of the archive that is linked, if it is one for this crate: the same version, and records of the same sizes. Whatever makes
/// a record, and the calls that take none, ask this once and panic where it is another; this asks without a panic.
pub fn archive() -> Result<Version, OtherArchive> {
    // SAFETY: nothing goes over, and what comes back has the same shape in every archive that has this call.
    held_to_ours(unsafe { wermazul_layout() })
}

/// Whether the archive was found to be ours. Two threads may both find it, which does no harm.
static FOUND: AtomicBool = AtomicBool::new(false);

/// Panics where the linked archive is not one for this crate. Only the first call asks the archive.
#[inline]
pub(crate) fn require_ours() {
    if !FOUND.load(Ordering::Relaxed) {
        find_ours();
    }
}

#[cold]
fn find_ours() {
    if let Err(other) = archive() {
        panic!("{other}");
    }
    FOUND.store(true, Ordering::Relaxed);
}
