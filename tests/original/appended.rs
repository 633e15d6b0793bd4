// Appended to a copy of 000's text: what 000 keeps and answers, as plain numbers. A part of the file is its start and
// its length, an empty part too. Each function panics where 000 does.
pub mod plain {
    use super::*;

    #[derive(Clone, Copy, Debug, Default, PartialEq, Eq)]
    pub struct Span {
        pub start: usize,
        pub len: usize,
    }

    /// of a table of numbers its first byte and how many there are
    #[derive(Clone, Copy, Debug, PartialEq, Eq)]
    pub struct Table {
        pub big: bool,
        pub at: usize,
        pub count: usize,
        pub data: Span,
    }

    #[derive(Clone, Copy, Debug, PartialEq, Eq)]
    pub struct Metrics {
        pub compressed: bool,
        /// not kept of compressed metrics
        pub big: Option<bool>,
        pub at: usize,
        pub count: usize,
    }

    #[derive(Clone, Copy, Debug, PartialEq, Eq)]
    pub struct Codes {
        pub big: bool,
        pub char_mode: bool,
        pub low2: u32,
        pub high2: u32,
        pub low1: u32,
        pub high1: u32,
        pub at: usize,
        pub count: usize,
    }

    /// all that 000 keeps of a font beside the accelerators, which are public
    #[derive(Clone, Copy, Debug, PartialEq, Eq)]
    pub struct Fields {
        pub props: Table,
        pub metrics: Metrics,
        pub bitmaps: Table,
        pub pad_mode: u8,
        pub size_mode: u8,
        pub least_bit_first: bool,
        pub codes: Codes,
        pub names: Table,
    }

    #[derive(Clone, Copy, Debug, PartialEq, Eq)]
    pub enum Value {
        Number(u32),
        String(Span),
    }

    fn big(endian: Endian) -> bool {
        matches!(endian, Endian::Big)
    }

    fn at<T>(data: &[u8], part: &[T]) -> usize {
        part.as_ptr() as usize - data.as_ptr() as usize
    }

    fn span(data: &[u8], part: &[u8]) -> Span {
        Span { start: at(data, part), len: part.len() }
    }

    fn table<T>(data: &[u8], endian: Endian, items: &[T], rest: &[u8]) -> Table {
        Table { big: big(endian), at: at(data, items), count: items.len(), data: span(data, rest) }
    }

    pub fn fields(font: &LoadedPCF, data: &[u8]) -> Fields {
        let (props, bitmaps) = (&font.prop_data, &font.bitmap_data);
        let (codes, names) = (&font.encoding_data, &font.glyph_name_data);
        Fields {
            props: table(data, props.endian, props.properties, props.string_data),
            metrics: match font.metrics_data {
                MetricsData::Compressed(all) => {
                    Metrics { compressed: true, big: None, at: at(data, all), count: all.len() }
                }
                MetricsData::Uncompressed(all, endian) => {
                    Metrics { compressed: false, big: Some(big(endian)), at: at(data, all), count: all.len() }
                }
            },
            bitmaps: table(data, bitmaps.endian, bitmaps.offsets, bitmaps.bitmap),
            pad_mode: bitmaps.pad_mode,
            size_mode: bitmaps.size_mode,
            least_bit_first: bitmaps.least_bit_first,
            codes: Codes {
                big: big(codes.endian),
                char_mode: codes.char_mode,
                low2: codes.min_byte2,
                high2: codes.max_byte2,
                low1: codes.min_byte1,
                high1: codes.max_byte1,
                at: at(data, codes.glyph_indices),
                count: codes.glyph_indices.len(),
            },
            names: table(data, names.endian, names.offsets, names.string_data),
        }
    }

    /// The property at a number below the count, without a look at those before it.
    pub fn property(font: &LoadedPCF, data: &[u8], number: usize) -> (Span, Value) {
        let props = &font.prop_data;
        let from = PropertiesData {
            endian: props.endian,
            properties: &props.properties[number..],
            string_data: props.string_data,
        };
        let (name, value) = from.iter_props().next().unwrap();
        let value = match value {
            PropValue::Number(number) => Value::Number(number),
            PropValue::String(string) => Value::String(span(data, string)),
        };
        (span(data, name), value)
    }

    pub fn glyph(font: &LoadedPCF, code: char) -> Option<u16> {
        font.encoding_data.get_glyph(code)
    }

    pub fn name(font: &LoadedPCF, data: &[u8], glyph: u16) -> Option<Span> {
        font.glyph_name_data.get_name(glyph).map(|name| span(data, name))
    }

    pub fn metrics(font: &LoadedPCF, glyph: u16) -> Option<MetricsUnpacked> {
        font.metrics_data.get_metrics(glyph)
    }

    pub fn draw_bitmap(
        font: &LoadedPCF,
        glyph: u16,
        width: usize,
        height: usize,
        buffer: &mut [u32],
        start: usize,
        stride: usize,
        scale: usize,
        colour: u32,
    ) -> Option<()> {
        font.bitmap_data.draw_bitmap(glyph, width, height, buffer, start, stride, scale, colour)
    }
}
