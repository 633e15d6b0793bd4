use crate::*;
use std::format;
use std::string::ToString;
use std::vec;
use std::vec::Vec;

extern crate std;

const F: &[u8] = include_bytes!("../../../examples/f.pcf");
const BIG: &[u8] = include_bytes!("../../../examples/big_two_byte.pcf");

fn number<T>(answer: Result<T, Refusal>) -> u32 {
    answer.err().map_or(0, |refusal| refusal.number)
}

fn with_bytes(font: &[u8], changes: &[(u64, u8)]) -> Vec<u8> {
    let mut changed = font.to_vec();
    for (at, value) in changes {
        changed[*at as usize] = *value;
    }
    changed
}

// F cut anywhere is refused; with any byte changed, either it is or a text is only refused for want of pixels.
#[test]
fn damaged_fonts() {
    for cut in 0..F.len() {
        assert_ne!(number(Font::vet(&F[..cut], Mode::PLAIN)), 0, "cut at {}", cut);
    }
    for at in 0..F.len() as u64 {
        for value in [0, 1, 127, 128, 255] {
            let changed = with_bytes(F, &[(at, value)]);
            if let Ok(font) = Font::vet(&changed, Mode::PLAIN) {
                let drawn = font.draw("01\n10", &mut Page::new(&mut [0; 100], 10).wrap(10));
                assert!([0, Refusal::BUFFER_SHORT].contains(&number(drawn)), "byte {} is {}", at, value);
            }
        }
    }
}

// F with a bit changed that means nothing, in one byte of a table's own format or of its directory entry's: F loads as
// it did but for the accelerators' format, and strictly not at all.
#[test]
fn two_formats() {
    let refused = |font: Result<Font, Refusal>| font.map(|_| ()).unwrap_err();
    let usual = *Font::load(F).unwrap().record();
    assert_eq!(Font::load_strict(F).map(|font| *font.record()), Ok(usual));
    assert_eq!(Font::vet(F, Mode::PLAIN).map(|font| *font.record()), Ok(usual));
    for place in 0..6 {
        let entry = 8 + 16 * place;
        let own = u64::from(u32::from_le_bytes(F[entry + 12..entry + 16].try_into().unwrap()));
        let two = Refusal { number: Refusal::TWO_FORMATS, place: place as u64 };
        for byte in 0..4 {
            for at in [own + byte, entry as u64 + 4 + byte] {
                let changed = with_bytes(F, &[(at, F[at as usize] ^ 0x40)]);
                assert_eq!(refused(Font::load_strict(&changed)), two, "byte {}", at);
                assert_eq!(refused(Font::vet(&changed, Mode::PLAIN)), two, "byte {}", at);
                let loaded = *Font::load(&changed).unwrap().record();
                let kept = Record { accel: Accelerators { format: usual.accel.format, ..loaded.accel }, ..loaded };
                assert_eq!(kept, usual, "byte {}", at);
            }
        }
    }
    // where an entry is refused too, the first decides
    let cut = with_bytes(F, &[(0xa4, 4), (8 + 16 + 8, 47)]);
    assert_eq!(refused(Font::load_strict(&cut)), Refusal { number: Refusal::BAD_TABLE, place: 1 });
    let cut_later = with_bytes(F, &[(0xa4, 4), (8 + 16 * 3 + 8, 37)]);
    assert_eq!(refused(Font::load(&cut_later)), Refusal { number: Refusal::BAD_TABLE, place: 3 });
    assert_eq!(refused(Font::load_strict(&cut_later)), Refusal { number: Refusal::TWO_FORMATS, place: 2 });
}

// What `Font::vet` says of two causes at one place: the bounds or code 0's glyph for 11, a property or a name for 18.
#[test]
fn causes_that_share_a_place() {
    let vetted = |font: &[u8]| Font::vet(font, Mode::PLAIN).map(|_| ()).unwrap_err();
    let (f, big) = (*Font::vet(F, Mode::PLAIN).unwrap().record(), *Font::vet(BIG, Mode::PLAIN).unwrap().record());
    // the codes from 0 on: in F, 0 and 1; in BIG, 0 to 2, once their first byte is 0
    let f_low = with_bytes(F, &[(f.codes.entries - 10, 0), (f.codes.entries - 8, 1)]);
    let codes = big.codes.entries - 10;
    let big_low = with_bytes(BIG, &[(codes + 1, 0), (codes + 3, 2), (codes + 5, 0), (codes + 7, 0)]);
    assert!(Font::vet(&f_low, Mode::PLAIN).is_ok() && Font::vet(&big_low, Mode::PLAIN).is_ok());

    let at_0 = Refusal { number: Refusal::BAD_METRICS, place: 0 };
    let maximum_ascent = 0x9e;
    let bounds = with_bytes(&f_low, &[(maximum_ascent + 1, 0x80)]);
    assert_eq!(vetted(&bounds), at_0);
    assert_eq!(number(Font::load(&bounds).unwrap().dimensions()), Refusal::BAD_METRICS);
    let left_of_0 = with_bytes(&f_low, &[(f.metrics.records, 0x7f)]);
    assert_eq!(vetted(&left_of_0), at_0);
    let font = Font::load(&left_of_0).unwrap();
    assert_eq!(number(font.dimensions()), 0);
    assert_eq!(number(font.prep_char('\0', Mode::PLAIN)), Refusal::BAD_METRICS);

    for place in [0, 2] {
        let at_place = Refusal { number: Refusal::BAD_STRING, place };
        let property = with_bytes(&big_low, &[(big.props.records + 9 * place, 0xff)]);
        assert_eq!(vetted(&property), at_place);
        assert_eq!(number(Font::load(&property).unwrap().property(place as u32)), Refusal::BAD_STRING);
        let (glyph, _) = Font::load(&big_low).unwrap().glyph(CharCode(place as u32), Mode::PLAIN).unwrap();
        let name = with_bytes(&big_low, &[(big.names.offsets + 4 * u64::from(glyph.0), 0xff)]);
        assert_eq!(vetted(&name), at_place);
        let font = Font::load(&name).unwrap();
        assert_eq!(number(font.property(place as u32)), 0);
        assert_eq!(number(font.name(glyph)), Refusal::BAD_STRING);
    }
    // in a font without properties it can only be a name
    let name = with_bytes(&f_low, &[(F.len() as u64 - 1, b'!')]);
    assert_eq!(vetted(&name), Refusal { number: Refusal::BAD_STRING, place: 1 });
    assert_eq!(number(Font::load(&name).unwrap().property(1)), Refusal::NO_NAME);
}

#[test]
fn empty_slices() {
    let empty: &[u8] = &[];
    assert_eq!(number(Font::load(empty)), Refusal::FILE_SHORT);
    assert_eq!(utf8_step(empty, 0), Ok(None));
    let font = Font::vet(F, Mode::PLAIN).unwrap();
    assert_eq!(font.draw("", &mut Page::new(&mut [], 1)), Ok(TextRows { height: 3, dropped: 0 }));
    assert_eq!(font.draw("01", &mut Page::new(&mut [], 1)), Ok(TextRows { height: 3, dropped: 6 }));
    let (nil, _) = font.prep_char('0', Mode::PLAIN).unwrap();
    assert_eq!(number(font.unpack_glyph(nil, &mut Cells::new(&mut [], 1))), Refusal::BUFFER_SHORT);
}

#[test]
fn a_record_of_another_font() {
    let mut record = *Font::load(BIG).unwrap().record();
    assert_eq!(number(Font::with_record(F, record).dimensions()), Refusal::BAD_TABLE);
    record = *Font::load(F).unwrap().record();
    record.names.strings = u64::MAX;
    let font = Font::with_record(F, record);
    assert_eq!(number(font.name(GlyphIndex(0))), Refusal::BAD_TABLE);
    assert_eq!(number(font.property(0)), Refusal::BAD_TABLE);
    assert_eq!(number(font.metrics(GlyphIndex(0))), Refusal::BAD_TABLE);
    assert_eq!(number(font.accelerators()), Refusal::BAD_TABLE);
    assert_eq!(number(font.draw_char('0', &mut Page::new(&mut [0; 9], 3))), Refusal::BAD_TABLE);
    assert_eq!(number(font.why('0', 9, Drawing::new(3))), Refusal::BAD_TABLE);
}

// they are parts of the file's bytes, and outlive the font
#[test]
fn names_are_parts_of_the_file() {
    fn name(file: &[u8]) -> &[u8] {
        Font::vet(file, Mode::PLAIN).unwrap().name(GlyphIndex(1)).unwrap()
    }
    fn family(file: &[u8]) -> Property<'_> {
        Font::vet(file, Mode::PLAIN).unwrap().property(0).unwrap()
    }
    assert_eq!(name(F), b"one");
    assert!(F.as_ptr_range().contains(&name(F).as_ptr()));
    assert_eq!(family(BIG), Property { name: b"FAMILY", value: Value::String(b"Meter") });
    assert!(BIG.as_ptr_range().contains(&family(BIG).name.as_ptr()));
}

#[test]
fn whole_texts() {
    let text = "a\u{e9}\u{20ac}\u{1d11e}\r\n";
    let mut codes = Vec::new();
    let mut i = 0;
    while let Some((code, next)) = utf8_step(text, i).unwrap() {
        codes.push(code);
        i = next;
    }
    assert_eq!(codes, text.chars().map(CharCode::from).collect::<Vec<_>>());
    let long = vec![b'0'; MAX_TEXT as usize + 1];
    let font = Font::vet(F, Mode::PLAIN).unwrap();
    assert_eq!(font.check(&long, 9, Drawing::new(3)), Err(Refusal { number: Refusal::BAD_TEXT, place: 0 }));
    assert!(font.check(&long[1..], 9, Drawing::new(3)).is_ok());
}

#[test]
fn a_text_and_its_bytes() {
    let font = Font::vet(F, Mode::PLAIN).unwrap();
    let text = "0\u{e9}1\n10";
    let (mut of_str, mut of_bytes) = ([0; 100], [0; 100]);
    let said = font.draw(text, &mut Page::new(&mut of_str, 10).wrap(7));
    assert_eq!(said, Ok(TextRows { height: 6, dropped: 0 }));
    assert_eq!(font.draw(text.as_bytes(), &mut Page::new(&mut of_bytes, 10).wrap(7)), said);
    assert_eq!(of_str, of_bytes);
    assert_eq!(font.check(text, 100, Drawing::new(10).wrap(7)), said);
    assert_eq!(utf8_step(text, 1), utf8_step(text.as_bytes(), 1));
}

#[test]
fn steps_at_the_end_and_past_it() {
    let long = vec![b'0'; 65_537];
    assert_eq!(utf8_step(&long, 65_536), Ok(Some((CharCode(0x30), 65_537))));
    assert_eq!(utf8_step(&long, 65_537), Ok(None));
    assert_eq!(utf8_step(&long, u64::MAX), Ok(None));
}

// a glyph at or above the bitmap count is refused by `draw_bitmap` alone
#[test]
fn a_glyph_without_a_bitmap() {
    let mut record = *Font::vet(F, Mode::PLAIN).unwrap().record();
    record.bitmaps.count = 1;
    let font = Font::with_record(F, record);
    let (one, by) = font.prep_char('1', Mode::PLAIN).unwrap();
    let none = Rows { drawn: 0, dropped: 0 };
    let mut pixels = [0; 18];
    let mut page = Page::new(&mut pixels, 6);
    let bitmap = Bitmap { glyph: one.glyph, width: 3, height: 3 };
    assert_eq!(number(font.draw_bitmap(bitmap, &mut page)), Refusal::NO_BITMAP);
    assert_eq!(font.draw_glyph(one, &mut page), Ok(none));
    assert_eq!(font.draw_char('1', &mut page), Ok((one, none, by)));
    assert_eq!(font.unpack_glyph(one, &mut Cells::new(&mut [], 6)), Ok(0));
    assert_eq!(page.pixels, [0; 18]);
    // it moves the pen all the same
    assert_eq!(font.draw("10", &mut page.wrap(7)), Ok(TextRows { height: 3, dropped: 1 }));
    assert_eq!(pixels, [0, 0, 0, 1, 1, 1, 0, 0, 0, 1, 0, 1, 0, 0, 0, 0, 0, 0]);
}

// F, whose record or bytes have one fault more each time, from what is looked at last to what is looked at first
#[test]
fn every_reason() {
    let usual = *Font::vet(F, Mode::PLAIN).unwrap().record();
    let why = |file: &[u8], record, code: u32, len, drawing| {
        Font::with_record(file, record).why(CharCode(code), len, drawing).unwrap().0
    };
    let one = |file: &[u8], record, len| why(file, record, 0x31, len, Drawing::new(3));
    assert_eq!(one(F, usual, 9), Reason::Drawn);
    assert_eq!(one(F, usual, u64::MAX), Reason::Drawn);
    let bits = usual.bitmaps.bits;
    let blank = with_bytes(F, &[(bits + 3, 0), (bits + 4, 0), (bits + 5, 0)]);
    assert_eq!(one(&blank, usual, 9), Reason::Blank);
    for (len, rows) in [(8, 1), (3, 2), (0, 3)] {
        assert_eq!(one(&blank, usual, len), Reason::RowsCut(rows));
    }
    let large = Drawing::new(6).scale(2);
    assert_eq!(why(F, usual, 0x30, 24, large), Reason::BufferShort);

    let mut record = usual;
    record.bitmaps.size = 5; // without the last row of 1
    assert_eq!(one(F, record, 9), Reason::BitmapShort);
    assert_eq!(one(F, record, 8), Reason::RowsCut(1));
    record.bitmaps.unit = 3;
    assert_eq!(one(F, record, 9), Reason::BitOrder);
    record.bitmaps.count = 1;
    assert_eq!(one(F, record, 9), Reason::NoBitmap);
    record.accel.maxbounds.ascent = 2;
    assert_eq!(one(F, record, 9), Reason::BadMetrics);
    record.metrics.count = 1;
    assert_eq!(one(F, record, 9), Reason::NoMetrics);
    let empty = with_bytes(F, &[(record.codes.entries + 2, 255), (record.codes.entries + 3, 255)]);
    assert_eq!(one(&empty, record, 9), Reason::EmptyEntry);
    assert_eq!(why(&empty, record, 0x32, 9, Drawing::new(3)), Reason::SecondByte);
    (record.codes.low1, record.codes.high1) = (1, 1);
    assert_eq!(one(&empty, record, 9), Reason::FirstByte);
    assert_eq!(why(&empty, record, 0x131, 9, Drawing::new(3)), Reason::EmptyEntry);
    assert_eq!(why(&empty, record, 0x1_0131, 9, Drawing::new(3)), Reason::AboveCodes);
}

// those that are refusals have the refusals' words
#[test]
fn every_reason_has_its_words() {
    let told = |number| Reason::of(structs::ReasonNumber { number, cut: 7 });
    let mut all = Vec::new();
    for number in 0..100 {
        if let Some(reason) = told(number) {
            assert!(!all.contains(&reason.words()));
            all.push(reason.words());
            if number < 31 {
                assert_eq!(reason.words(), Refusal { number, place: 0 }.reason());
            }
            let more = if reason == Reason::RowsCut(7) { ": 7" } else { "" };
            assert_eq!(reason.to_string(), format!("{}{}", reason.words(), more));
        }
    }
    assert_eq!(all.len(), 13);
    assert_eq!((told(0), told(Refusal::NO_GLYPH), told(Refusal::BAD_ARGUMENT), told(38)), (None, None, None, None));
}

// F with the lowest bit leftmost, and its rows in two-byte units whose low byte comes first, draw the same pixels
#[test]
fn other_orders() {
    let pixels = |font: Font, text: &str| {
        let mut pixels = [0; 24];
        assert_eq!(font.draw(text, &mut Page::new(&mut pixels, 6)), Ok(TextRows { height: 3, dropped: 0 }));
        pixels
    };
    let usual = Font::vet(F, Mode::PLAIN).unwrap();
    let data = usual.record().bitmaps;
    let (offsets, bits, size) = (data.offsets as usize, data.bits as usize, data.size as usize);
    let mut lowest = F.to_vec();
    lowest[offsets - 8] ^= 8; // the table's format, and that of its directory entry, the fourth
    lowest[8 + 16 * 3 + 4] ^= 8;
    for byte in &mut lowest[bits..bits + size] {
        *byte = byte.reverse_bits();
    }
    let font = Font::vet(&lowest, Mode::PLAIN).unwrap();
    assert!(data.top && !font.record().bitmaps.top);
    assert_eq!(pixels(font, "01"), pixels(usual, "01"));

    let mut paired = F.to_vec();
    for row in &F[bits..bits + 3] {
        paired.extend([0, *row]);
    }
    let mut record = *usual.record();
    record.bitmaps = BitmapData { bits: F.len() as u64, size: 6, pad: 2, unit: 1, ..data };
    assert_eq!(pixels(Font::with_record(&paired, record), "0"), pixels(usual, "0"));
    record.bitmaps.size = 5; // without the byte that holds the last row's columns
    let short = Font::with_record(&paired, record).draw_char('0', &mut Page::new(&mut [0; 18], 6));
    assert_eq!(number(short), Refusal::BITMAP_SHORT);
}

// rows are counted in strides from the bitmap's first pixel, pads included
#[test]
fn the_cut() {
    let font = Font::vet(F, Mode::PLAIN).unwrap();
    let (nil, _) = font.prep_char('0', Mode::PLAIN).unwrap();
    let rows = |info, len| font.draw_glyph(info, &mut Page::new(&mut vec![0; len], 6)).unwrap().drawn;
    assert_eq!((rows(nil, 18), rows(nil, 17)), (3, 2));
    let right = GlyphInfo { pad_left: 1, ..nil };
    assert_eq!((rows(right, 18), rows(right, 19)), (2, 3));
    let lower = GlyphInfo { pad_top: 2, ..right };
    assert_eq!((rows(lower, 30), rows(lower, 31), rows(lower, 12)), (2, 3, 0));
}

// each number of a page goes where it belongs
#[test]
fn the_numbers_of_a_page() {
    let font = Font::vet(F, Mode::PLAIN).unwrap();
    let mut pixels = [0; 8 * 8];
    let numbers = Drawing::new(8).start(1).scale(2).colour(9);
    assert_eq!(font.draw("1", &mut numbers.on(&mut pixels)), Ok(TextRows { height: 6, dropped: 0 }));
    for (at, pixel) in pixels.iter().enumerate() {
        assert_eq!(*pixel, if at / 8 < 6 && [3, 4].contains(&(at % 8)) { 9 } else { 0 }, "pixel {}", at);
    }
    let mut again = [0; 8 * 8];
    let mut page = Page::new(&mut again, 8).start(1).scale(2).colour(9);
    assert_eq!((page.drawing, page.room()), (numbers, 64));
    assert_eq!(font.draw("1", &mut page), font.check("1", page.room(), page.drawing));
    assert_eq!(page.pixels, pixels);
}

#[test]
fn a_wrap_that_no_line_reaches_is_none() {
    let font = Font::vet(F, Mode::PLAIN).unwrap();
    let none = Drawing::new(12);
    assert_eq!(font.check("0101", 99, none.wrap(u64::MAX)), font.check("0101", 99, none));
    assert_eq!(font.check("0101", 99, none.wrap(0)).unwrap().height, 15);
}

// the crate gives none of these
#[test]
fn modes_that_there_are_not() {
    let font = Font::vet(F, Mode::PLAIN).unwrap();
    let (nil, _) = font.prep_char('0', Mode::PLAIN).unwrap();
    let (record, code, whole) = (*font.record(), '0'.into(), Bitmap { glyph: nil.glyph, width: 3, height: 3 });
    let (mut pixels, mut bytes) = ([5; 24], [5; 24]);
    for mode in [2, 3, u32::MAX] {
        let page = structs::PageNumbers { mode, ..Drawing::new(6).numbers() };
        let refused = [
            calls::vet(F, mode).refusal,
            calls::glyph(F, record, code, mode).refusal,
            calls::prep_char(F, record, code, mode).refusal,
            calls::draw_bitmap(F, record, whole, &mut pixels, page).refusal,
            calls::draw_glyph(F, record, nil, &mut pixels, page).refusal,
            calls::draw_char(F, record, code, &mut pixels, page).refusal,
            calls::why(F, record, code, 24, page).refusal,
            calls::draw_string(F, record, b"0", &mut pixels, page).refusal,
            calls::text_check(F, record, b"0", 24, page).refusal,
            calls::unpack_glyph(F, record, nil, &mut bytes, page).refusal,
        ];
        assert_eq!(refused, [Refusal::BAD_ARGUMENT; 10]);
    }
    assert_eq!((pixels, bytes), ([5; 24], [5; 24]));
}

const DEFAULT: Mode = Mode { default: true };

// F, whose default code is that of 0
#[test]
fn the_default_character() {
    let font = Font::vet(F, DEFAULT).unwrap();
    let itself = |code: u32| Supplier { code: CharCode(code), is_default: false };
    let instead = Supplier { code: CharCode(0x30), is_default: true };
    let (nil, _) = font.prep_char('0', Mode::PLAIN).unwrap();
    for code in [0, 10, 13, 0x2f, 0x32, 0xe9, 0xffff, 0x1_0000, 0x1_0030, u32::MAX] {
        assert_eq!(number(font.glyph(CharCode(code), Mode::PLAIN)), Refusal::NO_GLYPH);
        assert_eq!(font.glyph(CharCode(code), DEFAULT), Ok((GlyphIndex(0), instead)));
        assert_eq!(font.prep_char(CharCode(code), DEFAULT), Ok((nil, instead)));
        let mut pixels = [0; 9];
        let drawn = font.draw_char(CharCode(code), &mut Page::new(&mut pixels, 3).mode(DEFAULT));
        assert_eq!(drawn, Ok((nil, Rows { drawn: 3, dropped: 0 }, instead)));
        assert_eq!(pixels, [1, 1, 1, 1, 0, 1, 1, 1, 1]);
        let page = Drawing::new(3).mode(DEFAULT);
        assert_eq!(font.why(CharCode(code), 9, page), Ok((Reason::Drawn, instead)));
        assert_eq!(font.why(CharCode(code), 8, page), Ok((Reason::RowsCut(1), instead)));
    }
    for (code, glyph) in [(0x30, 0), (0x31, 1)] {
        for mode in [Mode::PLAIN, DEFAULT] {
            assert_eq!(font.glyph(CharCode(code), mode), Ok((GlyphIndex(glyph), itself(code))));
        }
    }

    // a default code without a glyph is as none
    let mut record = *font.record();
    for default_code in [0x2f, 0x32, 0x130, 0xffff] {
        record.codes.default_code = default_code;
        let font = Font::with_record(F, record);
        assert_eq!(number(font.glyph('\u{e9}', DEFAULT)), Refusal::NO_GLYPH);
        assert_eq!(number(font.draw_char('\u{e9}', &mut Page::new(&mut [0; 9], 3).mode(DEFAULT))), Refusal::NO_GLYPH);
        let told = font.why('\u{e9}', 9, Drawing::new(3).mode(DEFAULT));
        assert_eq!(told, Ok((Reason::SecondByte, itself(0xe9))));
    }
}

#[test]
fn texts_with_the_default_character() {
    let font = Font::vet(F, DEFAULT).unwrap();
    let drawn = |text: &str, mode| {
        let mut pixels = [0; 9 * 7];
        let page = &mut Page::new(&mut pixels, 9).mode(mode);
        assert_eq!(font.check(text, page.room(), page.drawing), font.draw(text, page));
        pixels
    };
    for (text, plainly, shown) in [
        ("1\u{e9}1", "11", "101"),
        ("\u{1f4a1}\r\n\u{ffff}", "\n", "0\n0"), // returns and newlines are no characters
        ("01", "01", "01"),
    ] {
        assert_eq!(drawn(text, Mode::PLAIN), drawn(plainly, Mode::PLAIN));
        assert_eq!(drawn(text, DEFAULT), drawn(shown, Mode::PLAIN));
    }
}

// where a glyph is given and no code
#[test]
fn glyphs_are_alike_in_every_mode() {
    let font = Font::vet(F, Mode::PLAIN).unwrap();
    assert_eq!(Font::vet(F, DEFAULT).map(|font| *font.record()), Ok(*font.record()));
    let (one, _) = font.prep_char('1', Mode::PLAIN).unwrap();
    let made = |mode| {
        let (mut first, mut second, mut bytes) = ([0; 9], [0; 9], [0; 9]);
        let bitmap = Bitmap { glyph: one.glyph, width: 3, height: 3 };
        font.draw_bitmap(bitmap, &mut Page::new(&mut first, 3).mode(mode)).unwrap();
        font.draw_glyph(one, &mut Page::new(&mut second, 3).mode(mode)).unwrap();
        font.unpack_glyph(one, &mut Cells::new(&mut bytes, 3).mode(mode)).unwrap();
        (first, second, bytes)
    };
    assert_eq!(made(Mode::PLAIN), made(DEFAULT));
}

// every glyph's baseline is its line's
#[test]
fn baselines() {
    for file in [F, BIG] {
        let font = Font::vet(file, Mode::PLAIN).unwrap();
        let line = font.accelerators().unwrap();
        assert_eq!(line, font.record().accel);
        let mut met = 0;
        for code in (0..0x1_0000).map(CharCode) {
            if let Ok((info, _)) = font.prep_char(code, Mode::PLAIN) {
                let ascent = i32::from(font.metrics(info.glyph).unwrap().ascent);
                assert_eq!(i32::from(info.pad_top) + ascent, i32::from(line.maxbounds.ascent));
                met += 1;
            }
        }
        assert!(met > 1);
    }
}

#[test]
fn the_version() {
    let numbers = [env!("CARGO_PKG_VERSION_MAJOR"), env!("CARGO_PKG_VERSION_MINOR"), env!("CARGO_PKG_VERSION_PATCH")];
    let [major, minor, patch] = numbers.map(|number| number.parse::<u32>().unwrap());
    assert_eq!(VERSION, 10_000 * major + 100 * minor + patch);
    assert_eq!(version(), VERSION);
}

#[test]
fn every_number_has_its_words() {
    let mut all = Vec::new();
    for number in (0..20).chain([Refusal::TWO_FORMATS, 20]) {
        let refusal = Refusal { number, place: 3 };
        assert_eq!(refusal.to_string(), format!("refused {} at 3: {}", number, refusal.reason()));
        assert!(!all.contains(&refusal.reason()));
        all.push(refusal.reason());
    }
    for number in [20, 21, 26, 28] {
        assert_eq!(Refusal { number, place: 0 }.reason(), "an unknown reason");
    }
}

#[cfg(thalluskin_core_error)]
#[test]
fn a_refusal_is_an_error() {
    fn first_byte(file: &[u8]) -> Result<u8, std::boxed::Box<dyn core::error::Error>> {
        Ok(Font::load(file)?.bytes()[0])
    }
    assert_eq!(first_byte(F).unwrap(), 1);
    assert_eq!(first_byte(b"").unwrap_err().to_string(), "refused 1 at 0: file under 8 bytes");
    let error: &dyn core::error::Error = &Refusal { number: Refusal::NO_GLYPH, place: 0 };
    assert_eq!(error.to_string(), "refused 9 at 0: no glyph for this code");
    assert!(error.source().is_none());
}
