"""The rules and decisions of document 01 once more, with the customer's later wishes for fonts in the other bit order,
for strict loading, for the reason why a character is not on the glass and for the default character, in plain Python, a
file a subject; it shares nothing with the definitions in crates/*/specs. Literal and slow on purpose: nested loops over
rows, columns and blocks, linear searches. tests/definitions holds the definitions to it.

A call that looks a code up, or takes a glyph that was placed, takes the caller's mode after the record. What it says of
a code then ends in the code that supplied the glyph and whether that is the default."""
# flake8: noqa: F401
from model.codes import get_glyph, lookup, serve
from model.drawing import (bitmap_check, char_check, coloured, draw_bitmap, draw_char, draw_glyph, glyph_check,
                           glyph_picture, unpack_check, unpack_glyph)
from model.dumping import dump, fill_bytes, hex_read, put_frame, put_refused
from model.flattening import METRIC_FIELDS, flat_accel, flat_info, flat_metrics, flat_record
from model.loading import load
from model.metrics import dimensions, get_accelerators, get_metrics, metrics_at, prep_char
from model.modes import MODES, PLAIN, Mode, is_known, mode_of
from model.record import changed, check_record
from model.refusal import Refused
from model.strings import get_name, name_bytes, part_of, prop_at
from model.texts import draw_string, text_check
from model.utf8 import check, utf8_step
from model.vetting import vet
from model.why import REASONS, why
