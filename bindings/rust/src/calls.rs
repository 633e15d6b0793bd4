//! The calls into libthalluskin.a, all that is unsafe here. The list at the end has them as the library declares them,
//! with `u64` for its `usize`.
//!
//! The archive has each call in one of two shapes, but for `version`, which has no struct. A slice goes as its pointer
//! and its length of 64 bits in both, and a number as it is.
//!
//! - For x86-64 `thalluskin_NAME` takes structs by value and answers by value.
//! - For other processors, whose compilers do not agree on structs by value, `thalluskin_lent_NAME` takes pointers to
//!   structs, and before all others one to where its answer goes. `--cfg thalluskin_lent` chooses this shape on x86-64
//!   too.
//!
//! What each call asks of its caller is in include/thalluskin.h, and the types here see to it, but for the stack: a
//! slice is memory that may be read for as long as it is lent, and a `&mut` slice is aligned, may be written and
//! overlaps no other; a `bool` is 0 or 1. The library is proved to stay within the slices and to answer for every value
//! of them; it keeps no pointer.
use crate::structs::*;

// How many there are, as the library counts: no `usize` has over 64 bits.
#[allow(clippy::as_conversions)]
pub(crate) fn length<T>(of: &[T]) -> u64 {
    of.len() as u64
}

#[cfg(all(target_arch = "x86_64", not(thalluskin_lent)))]
#[macro_use]
mod by_value {
    macro_rules! call {
        (fn $name:ident($($parameters:tt)*) -> $answer:ty, $($arguments:tt)*) => {{
            extern "C" {
                #[link_name = concat!("thalluskin_", stringify!($name))]
                fn $name($($parameters)*) -> $answer;
            }
            // SAFETY: each pointer and its length are of one slice, and the one that is written overlaps no other; any
            // value has an answer.
            unsafe { $name($($arguments)*) }
        }};
    }
    macro_rules! parameter {
        ($of:ident) => {
            $of
        };
    }
    macro_rules! argument {
        ($of:ident $value:ident) => {
            $value
        };
    }
}

#[cfg(any(not(target_arch = "x86_64"), thalluskin_lent))]
#[macro_use]
mod lent {
    macro_rules! call {
        (fn $name:ident($($parameters:tt)*) -> $answer:ty, $($arguments:tt)*) => {{
            extern "C" {
                #[link_name = concat!("thalluskin_lent_", stringify!($name))]
                fn $name(answer: *mut $answer, $($parameters)*);
            }
            let mut answer = core::mem::MaybeUninit::<$answer>::zeroed();
            // SAFETY: each pointer and its length are of one slice, and the one that is written overlaps no other; the
            // structs outlive the call; any value has an answer, which the call puts in place of the zeros.
            unsafe {
                $name(answer.as_mut_ptr(), $($arguments)*);
                answer.assume_init()
            }
        }};
    }
    macro_rules! parameter {
        (u32) => { u32 };
        (u64) => { u64 };
        ($of:ident) => { *const $of };
    }
    macro_rules! argument {
        (u32 $value:ident) => {
            $value
        };
        (u64 $value:ident) => {
            $value
        };
        ($of:ident $value:ident) => {
            &$value
        };
    }
}

// Declares each call in the archive's shape, and makes it a function with the types that are written here.
macro_rules! calls {
    ($(fn $name:ident($($arg:ident: $(&[$item:ty])? $(&mut [$cell:ty])? $($of:ident)?),*) -> $answer:ty;)*) => {$(
        pub(crate) fn $name($($arg: $(&[$item])? $(&mut [$cell])? $($of)?),*) -> $answer {
            call!(
                fn $name($(
                    $($arg: *const $item, _: u64,)? $($arg: *mut $cell, _: u64,)? $($arg: parameter!($of),)?
                )*) -> $answer,
                $(
                    $(<[$item]>::as_ptr($arg), length::<$item>($arg),)?
                    $(<[$cell]>::as_mut_ptr($arg), length::<$cell>($arg),)?
                    $(argument!($of $arg),)?
                )*
            )
        }
    )*};
}

pub(crate) fn version() -> u32 {
    extern "C" {
        fn thalluskin_version() -> u32;
    }
    // SAFETY: it takes nothing, and answers always.
    unsafe { thalluskin_version() }
}

calls! {
    fn load(bytes: &[u8]) -> FontAnswer;
    fn load_strict(bytes: &[u8]) -> FontAnswer;
    fn vet(bytes: &[u8], mode: u32) -> FontAnswer;
    fn property(bytes: &[u8], rec: Record, number: u32) -> PropertyAnswer;
    fn glyph(bytes: &[u8], rec: Record, code: CharCode, mode: u32) -> GlyphAnswer;
    fn name(bytes: &[u8], rec: Record, glyph: GlyphIndex) -> NameAnswer;
    fn metrics(bytes: &[u8], rec: Record, glyph: GlyphIndex) -> MetricsAnswer;
    fn accel(bytes: &[u8], rec: Record) -> AccelAnswer;
    fn dimensions(bytes: &[u8], rec: Record) -> ExtentAnswer;
    fn prep_char(bytes: &[u8], rec: Record, code: CharCode, mode: u32) -> InfoAnswer;
    fn draw_bitmap(bytes: &[u8], rec: Record, bitmap: Bitmap, buf: &mut [u32], page: PageNumbers) -> RowsAnswer;
    fn draw_glyph(bytes: &[u8], rec: Record, info: GlyphInfo, buf: &mut [u32], page: PageNumbers) -> RowsAnswer;
    fn draw_char(bytes: &[u8], rec: Record, code: CharCode, buf: &mut [u32], page: PageNumbers) -> CharAnswer;
    fn why(bytes: &[u8], rec: Record, code: CharCode, len: u64, page: PageNumbers) -> WhyAnswer;
    fn unpack_glyph(bytes: &[u8], rec: Record, info: GlyphInfo, buf: &mut [u8], page: PageNumbers) -> UnpackAnswer;
    fn draw_string(bytes: &[u8], rec: Record, text: &[u8], buf: &mut [u32], page: PageNumbers) -> TextAnswer;
    fn text_check(bytes: &[u8], rec: Record, text: &[u8], len: u64, page: PageNumbers) -> TextAnswer;
    fn utf8_step(text: &[u8], i: u64) -> StepAnswer;
}
