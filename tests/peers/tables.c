/* The font as a whole: accelerators, properties, bounds, vetting, names. */
#include "peers.h"

#include FT_BDF_H

#include <stdio.h>
#include <stdlib.h>
#include <string.h>

void accelerators(const struct font *f)
{
    const thk_accelerators *a = &f->rec.accel;
    const FT_Size_Metrics *m = &f->face->size->metrics;

    same(f, a->font_ascent * 64LL, m->ascender, "64 times the font's ascent");
    same(f, a->font_descent * -64LL, m->descender, "64 times the font's descent, negative");
    same(f, a->maxbounds.width * 64LL, m->max_advance, "64 times the bounds' width");
    same(f, a->font_ascent + a->font_descent, f->face->available_sizes[0].height, "the line's height");
}

/* A part of the font's bytes as a string of C. */
static char *string(const struct font *f, thk_span at)
{
    char *made = malloc(at.len + 1);

    if (!made || at.start > f->len || at.len > f->len - at.start)
        fail("a span is not in the font");
    memcpy(made, f->bytes + at.start, at.len);
    made[at.len] = 0;
    return made;
}

void property(const struct font *f, uint32_t number)
{
    thk_property_answer ours = thk_property(FONT(f), number), before;
    BDF_PropertyRec peers;
    char *name, *value, *other;
    const char *atom;
    uint32_t k;

    if (!same(f, ours.refusal, 0, "refusal of property %ld", (long)number))
        return;
    name = string(f, ours.name);
    for (k = 0; k < number; k++) { /* FreeType answers the first of a name */
        before = thk_property(FONT(f), k);
        other = string(f, before.name);
        if (strcmp(name, other) == 0)
            break;
        free(other);
    }
    if (k < number) {
        free(other);
        count.repeated++;
    } else if (same(f, 0, FT_Get_BDF_Property(f->face, name, &peers), "error for property %ld, %s", (long)number, name)
               && same(f, ours.is_string, peers.type == BDF_PROPERTY_TYPE_ATOM, "whether %s is a string", name)) {
        if (ours.is_string) {
            value = string(f, ours.string);
            atom = peers.u.atom ? peers.u.atom : "";
            same(f, 0, strcmp(value, atom), "%s is '%s', in FreeType '%s'", name, value, atom);
            free(value);
            count.strings++;
        } else { /* the library's numbers have no sign */
            same(f, ours.number, (uint32_t)peers.u.integer, "%s", name);
            count.numbers++;
        }
    }
    free(name);
}

static bool same_bounds(const struct font *f, const thk_measures *ours, const struct extremes *peers, const char *which)
{
    return same(f, ours->left, peers->left, "%s of left bearings", which)
           & same(f, ours->right, peers->right, "%s of right bearings", which)
           & same(f, ours->width, peers->width, "%s of widths", which)
           & same(f, ours->ascent, peers->ascent, "%s of ascents", which)
           & same(f, ours->descent, peers->descent, "%s of descents", which);
}

/* FreeType tells of the bounds the width alone. In a file that was written with care they are those of the glyphs. */
void bounds(const struct font *f)
{
    const struct extremes *m = &f->most;
    thk_extent_answer ours = thk_dimensions(FONT(f));
    bool right = same_bounds(f, &f->rec.accel.minbounds, &f->least, "minimum")
                 & same_bounds(f, &f->rec.accel.maxbounds, m, "maximum");

    if (m->ascent >= 0 && m->width >= 0 && m->ascent + m->descent >= 0 && m->ascent + m->descent <= HIGHEST)
        right &= same(f, (long long)ours.extent.height, m->ascent + m->descent, "height of the bounds")
                 & same(f, (long long)ours.extent.width, m->width, "width of the bounds");
    else
        right &= same(f, ours.refusal, THK_BAD_METRICS, "refusal of the bounds");
    count.bounds += right;
}

/* Vetting finds the first code that is out of range or whose rows run past the data, in a font that can be drawn and
 * has bounds that hold. */
void vetting(const struct font *f)
{
    thk_font_answer ours = thk_vet(f->bytes, f->len, THK_PLAIN);
    uint32_t expected = bit_order(f);
    long long place = 0;

    if (!expected)
        expected = thk_dimensions(FONT(f)).refusal;
    if (!expected && f->fault) {
        expected = f->fault;
        place = f->bad;
    }
    same(f, ours.refusal, expected, "refusal in vetting");
    if (expected)
        same(f, (long long)ours.place, place, "the place where vetting refuses");
    count.vetted += ours.refusal == THK_DONE;
    count.refused_11 += ours.refusal == THK_BAD_METRICS;
    count.refused_13 += ours.refusal == THK_BIT_ORDER;
    count.refused_14 += ours.refusal == THK_BITMAP_SHORT;
}

void names(const struct font *f, char *lines)
{
    char *line, *name, *end, *next;

    for (line = lines; *line; line = next) {
        long code = strtol(line, &name, 10);

        end = strchr(line, '\n');
        if (*name != ' ' || !end)
            fail("a line of names is bad");
        next = end + 1;
        *end = 0;
        name++;
        thk_glyph_answer found = thk_glyph(FONT(f), (thk_char_code){(uint32_t)code}, THK_PLAIN);
        thk_name_answer ours = thk_name(FONT(f), found.glyph);
        if (same(f, found.refusal, 0, "refusal of the glyph of code %ld", code)
            && same(f, ours.refusal, 0, "refusal of the name of code %ld", code)) {
            char *made = string(f, ours.name);

            if (strcmp(made, name) == 0)
                count.names++;
            else if (shown())
                printf("peers: %s: code %ld is called '%s', by pcf2bdf '%s'\n", f->name, code, made, name);
            free(made);
        }
    }
}
