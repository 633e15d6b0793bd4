//! A call with its arguments, the same for both sides.
use std::fmt;

#[derive(Clone, Copy, Debug, PartialEq, Eq, PartialOrd, Ord)]
pub enum Function {
    Load,
    Vet,
    Property,
    Glyph,
    Name,
    Metrics,
    Dimensions,
    PrepChar,
    DrawBitmap,
    DrawGlyph,
    DrawChar,
    UnpackGlyph,
    DrawString,
}
use Function::*;

pub const FUNCTIONS: [(Function, &str); 13] = [
    (Load, "load"),
    (Vet, "vet"),
    (Property, "property"),
    (Glyph, "glyph"),
    (Name, "name"),
    (Metrics, "metrics"),
    (Dimensions, "dimensions"),
    (PrepChar, "prep_char"),
    (DrawBitmap, "draw_bitmap"),
    (DrawGlyph, "draw_glyph"),
    (DrawChar, "draw_char"),
    (UnpackGlyph, "unpack_glyph"),
    (DrawString, "draw_string"),
];

impl Function {
    pub fn name(self) -> &'static str {
        FUNCTIONS[self as usize].1
    }

    /// whether it is given a buffer
    pub fn draws(self) -> bool {
        self >= DrawBitmap
    }

    fn has_box(self) -> bool {
        matches!(self, DrawBitmap | DrawGlyph | UnpackGlyph)
    }

    fn takes_code(self) -> bool {
        matches!(self, Glyph | PrepChar | DrawChar)
    }
}

/// `number` is a property's, a code or a glyph's; `len` is the buffer's length.
#[derive(Clone, Debug, PartialEq, Eq)]
pub struct Call {
    pub function: Function,
    pub number: u32,
    pub width: usize,
    pub height: usize,
    pub pad_top: usize,
    pub pad_left: usize,
    pub text: Vec<u8>,
    pub len: usize,
    pub start: usize,
    pub wrap: Option<u64>,
    pub stride: usize,
    pub scale: usize,
}

impl Call {
    pub fn new(function: Function, number: u32) -> Call {
        Call {
            function,
            number,
            width: 0,
            height: 0,
            pad_top: 0,
            pad_left: 0,
            text: Vec::new(),
            len: 0,
            start: 0,
            wrap: None,
            stride: 1,
            scale: 1,
        }
    }

    pub fn boxed(mut self, width: usize, height: usize, pad_top: usize, pad_left: usize) -> Call {
        (self.width, self.height, self.pad_top, self.pad_left) = (width, height, pad_top, pad_left);
        self
    }

    pub fn on(mut self, len: usize, start: usize, stride: usize, scale: usize) -> Call {
        (self.len, self.start, self.stride, self.scale) = (len, start, stride, scale);
        self
    }

    pub fn text(text: &str, wrap: Option<u64>) -> Call {
        Call { text: text.as_bytes().to_vec(), wrap, ..Call::new(DrawString, 0) }
    }

    /// of arguments other than the text
    pub fn within_limits(&self) -> bool {
        let sized = match self.function {
            DrawBitmap => self.width.max(self.height) <= 32_767,
            DrawGlyph | UnpackGlyph => self.width.max(self.height).max(self.pad_top).max(self.pad_left) <= 32_767,
            _ => true,
        };
        let scaled = self.function == UnpackGlyph || (1..=64).contains(&self.scale);
        !self.function.draws() || sized && scaled && (1..=65_535).contains(&self.stride) && self.start <= 2_147_483_647
    }

    /// every number that can be made smaller
    pub fn numbers(&mut self) -> Vec<&mut usize> {
        vec![
            &mut self.width,
            &mut self.height,
            &mut self.pad_top,
            &mut self.pad_left,
            &mut self.len,
            &mut self.start,
            &mut self.stride,
            &mut self.scale,
        ]
    }

    /// from words as Display writes them; what is left out is 0, and 1 for stride and scale
    pub fn read(words: &str) -> Call {
        let mut parts = words.split_whitespace();
        let name = parts.next().expect("a call has a name");
        let function = FUNCTIONS.iter().find(|(_, known)| *known == name).expect("a known function").0;
        let mut call = Call::new(function, 0);
        for part in parts {
            let (key, value) = part.split_once('=').expect("key=value");
            let number = || value.parse::<usize>().expect("a number");
            match key {
                "code" => call.number = u32::from_str_radix(value.trim_start_matches("U+"), 16).expect("a code"),
                "glyph" | "number" => call.number = number() as u32,
                "width" => call.width = number(),
                "height" => call.height = number(),
                "pad_top" => call.pad_top = number(),
                "pad_left" => call.pad_left = number(),
                "len" => call.len = number(),
                "start" => call.start = number(),
                "stride" => call.stride = number(),
                "scale" => call.scale = number(),
                "wrap" => call.wrap = value.parse().ok(),
                "text" => call.text = crate::fonts::bytes_of_hex(value),
                _ => panic!("an unknown argument {key}"),
            }
        }
        call
    }
}

impl fmt::Display for Call {
    fn fmt(&self, f: &mut fmt::Formatter<'_>) -> fmt::Result {
        write!(f, "{}", self.function.name())?;
        if self.function.takes_code() {
            write!(f, " code=U+{:04X}", self.number)?;
        } else if self.function == Property {
            write!(f, " number={}", self.number)?;
        } else if self.function.has_box() || matches!(self.function, Name | Metrics) {
            write!(f, " glyph={}", self.number)?;
        }
        if self.function.has_box() {
            write!(f, " width={} height={}", self.width, self.height)?;
        }
        if self.function.has_box() && self.function != DrawBitmap {
            write!(f, " pad_top={} pad_left={}", self.pad_top, self.pad_left)?;
        }
        if self.function == DrawString {
            write!(f, " text=")?;
            self.text.iter().try_for_each(|b| write!(f, "{b:02X}"))?;
            match self.wrap {
                Some(at) => write!(f, " wrap={at}")?,
                None => write!(f, " wrap=none")?,
            }
        }
        if self.function.draws() {
            write!(f, " len={} start={} stride={}", self.len, self.start, self.stride)?;
        }
        if self.function.draws() && self.function != UnpackGlyph {
            write!(f, " scale={}", self.scale)?;
        }
        Ok(())
    }
}
