//! Reads PCF bitmap fonts and draws text into a buffer of pixels: safe calls into libthalluskin.a, a library of which
//! every function is proved to meet its contract.
//!
//! ```
//! use thalluskin::{Font, Mode, Page};
//!
//! # let file: &[u8] = include_bytes!("../../../examples/f.pcf");
//! let font = Font::vet(file, Mode::PLAIN)?;
//! let mut pixels = [0; 14 * 7];
//! let rows = font.draw("01", &mut Page::new(&mut pixels, 14).wrap(15).scale(2))?;
//! assert_eq!((rows.height, rows.dropped), (6, 0));
//! # Ok::<(), thalluskin::Refusal>(())
//! ```
//!
//! Places, lengths and counts are `u64` on every processor, as in the archive. A call takes stack, on x86-64 some 3,200
//! bytes at most, in [`Font::vet`]; include/thalluskin.h has the figure of each, and the page that `./thalluskin build`
//! leaves those of another processor.
#![no_std]
#![deny(missing_docs)]
#![deny(unsafe_code)]
// nothing here may panic or lose a digit
#![cfg_attr(not(test), deny(clippy::indexing_slicing, clippy::as_conversions, clippy::arithmetic_side_effects))]
#![cfg_attr(not(test), deny(clippy::unwrap_used, clippy::expect_used, clippy::panic))]

#[allow(unsafe_code)]
mod calls;
mod font;
#[cfg(test)]
mod layout;
mod mode;
mod page;
mod reason;
mod refusal;
mod structs;
#[cfg(test)]
mod tests;

pub use font::{utf8_step, version, Font, Property, Value, VERSION};
pub use mode::Mode;
pub use page::{Cells, Drawing, Page, MAX_BOX, MAX_SCALE, MAX_START, MAX_STRIDE, MAX_TEXT};
pub use reason::Reason;
pub use refusal::Refusal;
pub use structs::{
    Accelerators, Bitmap, BitmapData, CharCode, EncodingData, Extent, GlyphIndex, GlyphInfo, GlyphNameData, Metrics,
    MetricsData, PropertiesData, Record, Rows, Supplier, TextRows,
};
