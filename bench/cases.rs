//! What is measured: a call that each of its sides makes with the same arguments.
use crate::structs::{PageNumbers, Record, PLAIN};
use crate::{calls, plain};
use original::LoadedPCF;

pub const COLOUR: u32 = 0x00C0_FFEE;
pub const NO_WRAP: u64 = u64::MAX;

/// The numbers of a drawing from a page's first pixel on, as the port takes them.
pub fn numbers(stride: usize, scale: usize, wrap: u64) -> PageNumbers {
    PageNumbers { start: 0, stride: stride as u64, scale: scale as u64, wrap, colour: COLOUR, mode: PLAIN }
}

/// A font as each side keeps it. The program keeps it until its end.
pub struct Font {
    pub bytes: &'static [u8],
    pub rec: Record,
    pub original: LoadedPCF<'static>,
    pub plain: plain::Font,
}

impl Font {
    pub fn of(bytes: Vec<u8>) -> &'static Font {
        let bytes: &'static [u8] = Box::leak(bytes.into_boxed_slice());
        let loaded = calls::load(bytes);
        assert_eq!(loaded.refusal, 0, "the port refuses the font");
        let original = original::load_pcf(bytes).expect("000 refuses the font");
        let plain = plain::Font::of(bytes, &loaded.rec);
        Box::leak(Box::new(Font { bytes, rec: loaded.rec, original, plain }))
    }

    /// Line height and width, before scale.
    pub fn extent(&self) -> (usize, usize) {
        self.original.dimensions()
    }

    /// Whether 000 and the loops in C draw its rows.
    pub fn in_usual_order(&self) -> bool {
        self.rec.bitmaps.unit == 0 && self.rec.bitmaps.top
    }
}

/// Who makes a call.
#[derive(Clone, Copy)]
pub enum Side {
    Port,
    /// 000, the Rust original.
    Original,
    /// The port itself, with the font in the usual order of rows.
    UsualOrder,
    /// Document 01's loops in C, which test nothing.
    Plain,
}

impl Side {
    /// How a line names it.
    pub fn told(self) -> &'static str {
        match self {
            Side::Port => "port",
            Side::Original => "000",
            Side::UsualOrder => "usual order",
            Side::Plain => "C",
        }
    }
}

pub trait Case {
    /// Who has the call, the port first.
    fn sides(&self) -> &'static [Side];
    fn port(&mut self);
    /// 000, or in other orders of rows the port itself.
    fn beside(&mut self) {
        unimplemented!("the port alone has this call");
    }
    /// Only after `same` was true, since nothing is tested.
    fn plain(&mut self) {
        unimplemented!("this call is not there in C");
    }
    /// Whether all sides answer the same and draw the same on cleared pages.
    fn same(&mut self) -> bool;
    /// How many glyphs, codes or the like a call goes over.
    fn per(&self) -> usize {
        1
    }

    fn call(&mut self, side: Side) {
        match side {
            Side::Port => self.port(),
            Side::Original | Side::UsualOrder => self.beside(),
            Side::Plain => self.plain(),
        }
    }
}

/// A case of which the port's pixels can be compared with those of another font.
pub(crate) trait Drawing: Case {
    type Drawn: PartialEq;
    type Cell;
    /// What all sides draw on while time is taken.
    fn buffer(&mut self) -> &mut Vec<Self::Cell>;
    /// What the port answers and leaves on cleared pages; none where it refuses or drops rows.
    fn drawn(&self) -> Option<Self::Drawn>;
}

/// What a call answers, and the buffer that it was lent cleared.
pub fn on_cleared<T: Clone + Default, A>(length: usize, call: impl FnOnce(&mut [T]) -> A) -> (A, Vec<T>) {
    let mut buffer = vec![T::default(); length];
    (call(&mut buffer), buffer)
}
