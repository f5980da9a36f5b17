//! Lines of the feed: read, written, and found in a text. A line has its line feed.
use crate::error::Error;
use crate::ffi;
use crate::linked::require_ours;
use crate::orderbook::{BookDelta, DeltaAction, OrderBook};
use crate::told::Told;
use crate::types::Side;

/// The bytes of the longest line, its line feed included: a buffer of this length holds any.
pub const MAX_LINE: usize = 4_121;

/// What a line is.
#[derive(Clone, Copy, Debug, PartialEq, Eq)]
pub enum LineKind {
    /// A delta's.
    Delta,
    /// A snapshot's.
    Snapshot,
}

/// What a line says.
#[allow(clippy::large_enum_variant)]
#[derive(Clone, Debug, PartialEq, Eq)]
pub enum Frame {
    /// An update of one level.
    Delta(BookDelta),
    /// A whole book.
    Snapshot(OrderBook),
}

fn kind_of(told: &Told) -> Result<LineKind, Error> {
    let [kind] = told.values()?;
    match kind.long() {
        1 => Ok(LineKind::Delta),
        2 => Ok(LineKind::Snapshot),
        other => panic!("the archive that is linked is another one: a line of kind {other}"),
    }
}

/// What a line is; 12 if it is no frame's.
pub fn line_kind(line: &[u8]) -> Result<LineKind, Error> {
    require_ours();
    // SAFETY: pointer and length are those of one slice, which is lent for the call.
    kind_of(&unsafe { ffi::wermazul_line_kind(line.as_ptr(), line.len()) })
}

/// Reads a line; 12 if it is no frame's.
pub fn read_line(line: &[u8]) -> Result<Frame, Error> {
    require_ours();
    // SAFETY: pointer and length are those of one slice, which is lent for the call.
    let read = unsafe { ffi::wermazul_read_line(line.as_ptr(), line.len()) };
    match kind_of(&read.told)? {
        LineKind::Snapshot => Ok(Frame::Snapshot(read.book)),
        LineKind::Delta => Ok(Frame::Delta(BookDelta {
            side: if read.side == 0 { Side::Bid } else { Side::Ask },
            price: read.price,
            quantity: read.quantity,
            action: if read.action == 0 { DeltaAction::Set } else { DeltaAction::Remove },
            sequence: read.sequence,
        })),
    }
}

/// The length of a text's first line, its line feed included; all of the text where it has none.
pub fn line_end(text: &[u8]) -> usize {
    require_ours();
    // SAFETY: pointer and length are those of one slice, which is lent for the call.
    unsafe { ffi::wermazul_line_end(text.as_ptr(), text.len()) as usize }
}

/// Writes a delta's line to the front of a lent buffer and gives its length.
pub fn write_delta(delta: BookDelta, out: &mut [u8]) -> Result<usize, Error> {
    let BookDelta { side, price, quantity, action, sequence } = delta;
    let (side, action) = (side as u64, action as u64);
    require_ours();
    // SAFETY: pointer and length are those of one slice, which is lent to this call alone.
    unsafe { ffi::wermazul_write_delta(side, action, price, quantity, sequence, out.as_mut_ptr(), out.len()) }.length()
}

/// Writes a book's line to the front of a lent buffer and gives its length.
pub fn write_snapshot(book: &OrderBook, out: &mut [u8]) -> Result<usize, Error> {
    let OrderBook { bids, asks, .. } = book;
    // SAFETY: the rows are four fields of one record, of 128 places each, and the buffer is one slice, lent to this call alone.
    let told = unsafe {
        ffi::wermazul_write_snapshot(
            &bids.prices,
            &bids.quantities,
            &asks.prices,
            &asks.quantities,
            book.counts(),
            out.as_mut_ptr(),
            out.len(),
        )
    };
    told.length()
}
