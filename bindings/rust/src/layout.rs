//! Prints where each field of each struct stands, a line for each: `layout STRUCT FIELD OFFSET SIZE`, and `layout
//! STRUCT SIZE`. tests/exports/run.py holds these lines to the Rattle sources.
use crate::structs::*;
use core::mem::{size_of, size_of_val};
use core::ptr::addr_of;
use std::println;

extern crate std;

macro_rules! layout {
    ($kind:ident { $($field:tt),* }) => {
        // a field that is not listed is an error here
        #[allow(dead_code)]
        fn all_fields(whole: $kind) {
            let $kind { $($field: _),* } = whole;
        }
        let whole = $kind::default();
        let start = addr_of!(whole).cast::<u8>();
        println!("layout {} {}", stringify!($kind), size_of::<$kind>());
        $(
            let offset = addr_of!(whole.$field).cast::<u8>() as usize - start as usize;
            println!("layout {} {} {} {}", stringify!($kind), stringify!($field), offset, size_of_val(&whole.$field));
        )*
    };
}

macro_rules! layouts {
    ($($kind:ident $fields:tt)*) => {
        #[test]
        fn layout() {
            $({ layout!($kind $fields); })*
        }
    };
}

layouts! {
    CharCode { 0 }
    GlyphIndex { 0 }
    Metrics { left, right, width, ascent, descent, attributes }
    PropertiesData { big, count, records, strings, size }
    Accelerators {
        format, no_overlap, constant_metrics, terminal_font, constant_width, ink_inside, ink_metrics, draw_direction,
        padding, font_ascent, font_descent, max_overlap, minbounds, maxbounds
    }
    MetricsData { big, compressed, count, records }
    BitmapData { big, count, offsets, bits, size, pad, unit, top }
    EncodingData { big, low2, high2, low1, high1, default_code, entries, size }
    GlyphNameData { big, count, offsets, strings, size }
    Record { props, accel, metrics, bitmaps, codes, names }
    Extent { height, width }
    Bitmap { glyph, width, height }
    PageNumbers { start, stride, scale, wrap, colour, mode }
    GlyphInfo { glyph, width, height, pad_top, pad_left }
    Supplier { code, is_default }
    Rows { drawn, dropped }
    ReasonNumber { number, cut }
    TextRows { height, dropped }
    Span { start, len }
    FontAnswer { refusal, place, rec }
    PropertyAnswer { refusal, place, name, is_string, number, string }
    GlyphAnswer { refusal, place, glyph, by }
    NameAnswer { refusal, place, name }
    MetricsAnswer { refusal, place, metrics }
    AccelAnswer { refusal, place, accel }
    ExtentAnswer { refusal, place, extent }
    InfoAnswer { refusal, place, info, by }
    RowsAnswer { refusal, place, rows }
    CharAnswer { refusal, place, info, rows, by }
    WhyAnswer { refusal, place, reason, by }
    UnpackAnswer { refusal, place, rows }
    TextAnswer { refusal, place, rows }
    StepAnswer { refusal, place, found, code, next }
}
