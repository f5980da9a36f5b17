//! The archive that is linked is ours, and one that differs anywhere is told by its words.
use super::*;

#[test]
fn the_linked_one_is_ours() {
    let ours = Version { major: 0, minor: 4, patch: 0 };
    assert_eq!(archive(), Ok(ours));
    assert_eq!((OURS.version, ours.to_string()), (4_000, "0.4.0".to_string()));
    assert_eq!(ours.to_string(), env!("CARGO_PKG_VERSION"));
    require_ours();
}

#[test]
fn versions() {
    assert_eq!(Version::of(12_003_456), Version { major: 12, minor: 3, patch: 456 });
    assert!(Version::of(1_000_000) > Version::of(999_999));
    assert_eq!((number("0"), number("120")), (0, 120));
}

#[test]
fn another_version() {
    let other = held_to_ours(Layout { version: 2_001, ..OURS }).unwrap_err();
    assert_eq!(other.version(), Version { major: 0, minor: 2, patch: 1 });
    let words = "the linked archive is version 0.2.1; this crate needs version 0.4.0: build the archive again with bindings/archive";
    assert_eq!(other.to_string(), words);
}

#[test]
fn another_size() {
    let words = "the linked archive is version 0.4.0, with a PositionLedger of 784 bytes, with a LedgerTold of 864 bytes; \
                 this crate needs version 0.4.0, with a PositionLedger of 656 bytes, with a LedgerTold of 736 bytes: \
                 build the archive again with bindings/archive";
    assert_eq!(held_to_ours(Layout { ledger: 784, ledger_told: 864, ..OURS }).unwrap_err().to_string(), words);
}

/// A change of any one field is seen.
#[test]
fn every_field_counts() {
    let change: [fn(&mut Layout) -> &mut u64; 10] = [
        |it| &mut it.version,
        |it| &mut it.book,
        |it| &mut it.ledger,
        |it| &mut it.held,
        |it| &mut it.told,
        |it| &mut it.counts,
        |it| &mut it.counts_told,
        |it| &mut it.ledger_told,
        |it| &mut it.turn_told,
        |it| &mut it.line_told,
    ];
    for field in change {
        let mut layout = OURS;
        *field(&mut layout) += 8;
        assert_eq!(held_to_ours(layout), Err(OtherArchive(layout)));
    }
}
