/* Jekundatz, a MapCSS style engine, for C and C++: the six exports of crates/capi_c.
   Link target/staticlib/libcapi.a, which `bindings/library capi` writes for x86-64 Linux. */

/* Memory. The caller lends all of it and keeps all of it; a call allocates nothing and keeps nothing. An answer depends on
   the arguments alone, so calls may run at the same time, each with its own memory to be filled. Memory that is only read
   may be shared.
   What a caller owes: pointers are aligned and never null, also where a length is 0; lengths are in elements; a pointer
   without a length is to an array of the size named; what is to be filled overlaps no other argument, and nothing else
   changes what is lent while the call runs. Everything else may be any bytes and any words.
   As measured, a drawing list takes about 270 KB of the stack, every other call less than 64 KB. */

/* Answers. Every call answers 0 and stores its words in `out`, or it answers the number of a refusal, stores the
   refusal's five numbers in `out` and leaves all else that was lent to be filled zero. A word of `out` that there is no
   room for is left out. The numbers of a refusal, 0 where they are not used:
     out[0]  its number
     out[1]  its reason; for 2, 7, 8, 9, 23, 24 of an entity: 1 if it is in the stream of multipolygons
     out[2]  the text's place in the bundle, from 0; for an entity: its place in its stream, from 0
     out[3]  the line, from 1
     out[4]  the character in its line, from 1 */

#ifndef MAPCSS_H
#define MAPCSS_H

#include <stdbool.h>
#include <stddef.h>
#include <stdint.h>

#ifdef __cplusplus
extern "C" {
#endif

/* Refusals of the input. */
#define MAPCSS_BUNDLE_LAYOUT 1  /* the bundle's layout */
#define MAPCSS_NOT_UTF8 2       /* a name, text, key or value is not UTF-8 */
#define MAPCSS_LEXER 3          /* lexer error, with a reason */
#define MAPCSS_PARSE 4          /* parse error, with a reason */
#define MAPCSS_NO_SUCH_TEXT 5   /* an import names no text of the bundle */
#define MAPCSS_NOT_WHOLE 6      /* the number in an = or != test is not whole, or over 9007199254740991 in size */
#define MAPCSS_ENTITY_LAYOUT 7  /* an entity's layout */
#define MAPCSS_TAG_NUMBER 8     /* a numeric test met a tag number outside the exact range */
#define MAPCSS_NAN_Z_INDEX 9    /* a z-index is NaN, in a drawing list */

/* Refusals of the state. */
#define MAPCSS_TABLE_FULL 20      /* a lent table is full, with a reason */
#define MAPCSS_TOO_DEEP 21        /* an import would go deeper than 8 */
#define MAPCSS_TABLE_BROKEN 22    /* the tables handed in are broken */
#define MAPCSS_TOO_MANY_LAYERS 23 /* a 33rd layer for one entity */
#define MAPCSS_TOO_MANY_NAMES 24  /* a 129th property name in one layer */
#define MAPCSS_DRAW_LIST_FULL 25  /* the lent drawing list is full */

/* Reasons of MAPCSS_LEXER. */
#define MAPCSS_LEXER_AFTER_MINUS 1           /* neither a number nor an identifier after - */
#define MAPCSS_LEXER_SYMBOL 2                /* a symbol that begins no token */
#define MAPCSS_LEXER_AFTER_AT 3              /* no name after @ */
#define MAPCSS_LEXER_IMPORT_STRING 4         /* no string after @import */
#define MAPCSS_LEXER_OPEN_STRING 5           /* a string without an end */
#define MAPCSS_LEXER_NOTHING_AFTER_SIGN 6    /* nothing after the sign of a number */
#define MAPCSS_LEXER_NO_NUMBER_AFTER_SIGN 7  /* neither a digit nor a dot after the sign of a number */
#define MAPCSS_LEXER_NO_FRACTION 8           /* no digit after the dot of a number */
#define MAPCSS_LEXER_COLOR 9                 /* a colour has neither three nor six digits */
#define MAPCSS_LEXER_Z_WANTED 10             /* no z after | */
#define MAPCSS_LEXER_EMPTY_ZOOM_RANGE 11     /* a zoom range without a level */
#define MAPCSS_LEXER_OPEN_COMMENT 12         /* a block comment without an end */

/* Reasons of MAPCSS_PARSE. */
#define MAPCSS_PARSE_END_OF_FILE 1      /* the text ends too early */
#define MAPCSS_PARSE_OBJECT_TYPE 2      /* an unknown object type */
#define MAPCSS_PARSE_UNEXPECTED_TOKEN 3 /* an unexpected token */
#define MAPCSS_PARSE_ANOTHER_TOKEN 4    /* another token was expected */
#define MAPCSS_PARSE_COLOR_REFERENCE 5  /* a colour that is not defined */
#define MAPCSS_PARSE_EVAL_FORM 6        /* an eval of another form */

/* Reasons of MAPCSS_TABLE_FULL. */
#define MAPCSS_FULL_RULES 1
#define MAPCSS_FULL_SELECTORS 2
#define MAPCSS_FULL_TESTS 3
#define MAPCSS_FULL_PROPERTIES 4
#define MAPCSS_FULL_NUMBERS 5
#define MAPCSS_FULL_COLORS 6

/* Limits of the input. */
#define MAPCSS_BUNDLE_BYTES 1048576 /* of a bundle */
#define MAPCSS_TEXTS 64             /* texts of a bundle */
#define MAPCSS_NAME_BYTES 255       /* of a text's name, at least 1 */
#define MAPCSS_ENTITY_BYTES 65536   /* of an entity */
#define MAPCSS_TAGS 256             /* tags of an entity */
#define MAPCSS_STREAM_BYTES 1048576 /* of a stream of entities */

/* Kinds of entities: the first byte of each. */
#define MAPCSS_NODE 0
#define MAPCSS_OPEN 1   /* an open way or multipolygon */
#define MAPCSS_CLOSED 2 /* a closed one */

/* Style types. */
#define MAPCSS_JOSM 0
#define MAPCSS_MAPS_ME 1

/* The tables of a sheet. docs/TABLES.md has the words of an entry. */
#define MAPCSS_ENTRY_WORDS 8       /* of an entry; a number is one element */
#define MAPCSS_TABLE_ENTRIES 16384 /* a table uses no more of them */
#define MAPCSS_TABLE_WORDS 131072  /* room for so many entries */

/* Words of `out`. */
#define MAPCSS_LOAD_OUT 6 /* of mapcss_load */
#define MAPCSS_OUT 5      /* of all other calls */

/* A load. A group number has seven bits a byte, lowest first, the top bit set on all bytes but the last. The bundle is the
   count of its texts, and for each text the length of its name, the name, the length of the text, the text; lengths and
   count are group numbers. Text 0 is the sheet.
   bundle                         the bundle's bytes
   rules, selectors, tests, properties, colors
                                  tables to be filled, eight words an entry; behind the entries all is zero
   numbers                        the table of numbers, to be filled
   out                            six words: the counts of rules, selectors, tests, properties, numbers and colours; after a
                                  refusal its five numbers and a 0 */
uint64_t mapcss_load(
    const uint8_t *bundle, size_t bundle_len,
    uint32_t *rules, size_t rules_len,
    uint32_t *selectors, size_t selectors_len,
    uint32_t *tests, size_t tests_len,
    uint32_t *properties, size_t properties_len,
    double *numbers, size_t numbers_len,
    uint32_t *colors, size_t colors_len,
    uint64_t *out, size_t out_len);

/* All other calls begin with the bundle, the tables and the counts that its load left:
   counts                         what mapcss_load stored in `out`; a count that is not there is 0
   A count must fit its table; tables that no load left are judged and may be refused with 22. Of the settings,
   zoom                           the zoom level
   style_type                     MAPCSS_MAPS_ME, and anything else is MAPCSS_JOSM
   font                           no element, or the font size multiplier
   for_labels                     whether the drawing order leaves out the position of fills
   An entity is its kind byte, its id, the count of its tags, and for each tag the length of the key, the key, the length of
   the value, the value; id, count and lengths are group numbers; keys rise strictly, byte by byte. A stream is entities one
   after another. */

/* The property maps of an entity: a row for each layer, in order of first match. */
#define MAPCSS_MAPS_WORDS 4323 /* 33 rows of 131 words */
#define MAPCSS_MAPS_ROWS 33
#define MAPCSS_MAP_WORDS 131
#define MAPCSS_LAYERS 32 /* rows in use, at most */
#define MAPCSS_NAMES 128 /* properties of a layer, at most */

/* Words of a row. */
#define MAPCSS_MAP_SELECTOR 0   /* the selector that named the layer, from 0 */
#define MAPCSS_MAP_COUNT 1      /* how many properties it has */
#define MAPCSS_MAP_PROPERTIES 2 /* their places in the table of properties, in order of first assignment; then zeros */

/* entity                         its bytes
   maps                           to be filled; rows that are not in use are zero
   out                            the number of layers, 0, 0, 0, 0 */
uint64_t mapcss_property_maps(
    const uint8_t *bundle, size_t bundle_len,
    const uint32_t *rules, size_t rules_len,
    const uint32_t *selectors, size_t selectors_len,
    const uint32_t *tests, size_t tests_len,
    const uint32_t *properties, size_t properties_len,
    const double *numbers, size_t numbers_len,
    const uint64_t *counts, size_t counts_len,
    uint8_t zoom,
    const uint8_t *entity, size_t entity_len,
    uint32_t maps[MAPCSS_MAPS_WORDS],
    uint64_t *out, size_t out_len);

/* The styles of an entity: 52 words, 6 floats and one number for each layer but `*`, in order of first match. */
#define MAPCSS_STYLE_WORDS 52
#define MAPCSS_STYLE_FLOATS 6
#define MAPCSS_STYLES_WORDS 1664 /* of 32 layers */
#define MAPCSS_STYLES_FLOATS 192

/* Words of a styled layer. */
#define MAPCSS_STYLE_SELECTOR 0         /* the selector that named the layer, from 0 */
#define MAPCSS_STYLE_HAS_LAYER 1        /* 1 if the tag `layer` is a number; layers has it */
#define MAPCSS_STYLE_FOREGROUND_FILL 2  /* 1 unless the fill lies in the background */
#define MAPCSS_STYLE_HAS_OPACITY 3      /* 1 if the float is there; so for the next four */
#define MAPCSS_STYLE_HAS_FILL_OPACITY 4
#define MAPCSS_STYLE_HAS_WIDTH 5
#define MAPCSS_STYLE_HAS_CASING_WIDTH 6
#define MAPCSS_STYLE_HAS_FONT_SIZE 7
#define MAPCSS_STYLE_LINE_CAP 8         /* one of the caps below */
#define MAPCSS_STYLE_CASING_LINE_CAP 9
#define MAPCSS_STYLE_TEXT_POSITION 10   /* one of the positions below */
#define MAPCSS_STYLE_COLOR 11           /* a colour is 1 if it is there, r, g, b */
#define MAPCSS_STYLE_FILL_COLOR 15
#define MAPCSS_STYLE_BACKGROUND_COLOR 19
#define MAPCSS_STYLE_CASING_COLOR 23
#define MAPCSS_STYLE_TEXT_COLOR 27
#define MAPCSS_STYLE_DASHES 31          /* dashes are 1 if they are there, from, to in the table of numbers */
#define MAPCSS_STYLE_CASING_DASHES 34
#define MAPCSS_STYLE_ICON_IMAGE 37      /* a text is the count of its ranges, 0 to 2; from, to, from, to in the bundle; */
#define MAPCSS_STYLE_FILL_IMAGE 42      /* a colon stands between two ranges, and the last place of each is left out */
#define MAPCSS_STYLE_TEXT 47            /* without a text there is no text colour, text position and font size */

/* Floats of a styled layer; what is absent is 0. */
#define MAPCSS_STYLE_Z_INDEX 0 /* always there */
#define MAPCSS_STYLE_OPACITY 1
#define MAPCSS_STYLE_FILL_OPACITY 2
#define MAPCSS_STYLE_WIDTH 3
#define MAPCSS_STYLE_CASING_WIDTH 4 /* the full width, the line's included */
#define MAPCSS_STYLE_FONT_SIZE 5

/* Line caps and text positions; 0 is none. */
#define MAPCSS_CAP_BUTT 1
#define MAPCSS_CAP_ROUND 2
#define MAPCSS_CAP_SQUARE 3
#define MAPCSS_POSITION_CENTER 1
#define MAPCSS_POSITION_LINE 2

/* entity                         its bytes
   words, floats, layers          to be filled: for styled layer k from k * 52, k * 6 and k on; what is not in use is zero
   out                            the number of styled layers, 0, 0, 0, 0 */
uint64_t mapcss_styles(
    const uint8_t *bundle, size_t bundle_len,
    const uint32_t *rules, size_t rules_len,
    const uint32_t *selectors, size_t selectors_len,
    const uint32_t *tests, size_t tests_len,
    const uint32_t *properties, size_t properties_len,
    const double *numbers, size_t numbers_len,
    const uint64_t *counts, size_t counts_len,
    uint8_t zoom,
    uint8_t style_type,
    const double *font, size_t font_len,
    const uint8_t *entity, size_t entity_len,
    uint64_t words[MAPCSS_STYLES_WORDS],
    double floats[MAPCSS_STYLES_FLOATS],
    int64_t layers[MAPCSS_LAYERS],
    uint64_t *out, size_t out_len);

/* The canvas colour.
   out                            1 if there is one, r, g, b, 0 */
uint64_t mapcss_canvas_color(
    const uint8_t *bundle, size_t bundle_len,
    const uint32_t *rules, size_t rules_len,
    const uint32_t *selectors, size_t selectors_len,
    const uint32_t *tests, size_t tests_len,
    const uint32_t *properties, size_t properties_len,
    const double *numbers, size_t numbers_len,
    const uint64_t *counts, size_t counts_len,
    uint8_t style_type,
    uint64_t *out, size_t out_len);

/* Drawing lists: three words for each styled layer of each entity, in drawing order. */
#define MAPCSS_DRAW_WORDS 3
#define MAPCSS_DRAW_ENTRIES 4096 /* a list uses no more of them */
#define MAPCSS_DRAW_LIST_WORDS 12288 /* room for so many entries */

/* Words of an entry. */
#define MAPCSS_DRAW_STREAM 0 /* 1 for the stream of multipolygons, else 0 */
#define MAPCSS_DRAW_PLACE 1  /* the entity's place in its stream, from 0 */
#define MAPCSS_DRAW_LAYER 2  /* the layer's place among the entity's styled layers, from 0 */

/* nodes                          a stream of nodes
   list                           to be filled; behind the entries all is zero
   out                            the number of entries, 0, 0, 0, 0 */
uint64_t mapcss_style_entities(
    const uint8_t *bundle, size_t bundle_len,
    const uint32_t *rules, size_t rules_len,
    const uint32_t *selectors, size_t selectors_len,
    const uint32_t *tests, size_t tests_len,
    const uint32_t *properties, size_t properties_len,
    const double *numbers, size_t numbers_len,
    const uint64_t *counts, size_t counts_len,
    uint8_t zoom,
    uint8_t style_type,
    const double *font, size_t font_len,
    bool for_labels,
    const uint8_t *nodes, size_t nodes_len,
    uint32_t *list, size_t list_len,
    uint64_t *out, size_t out_len);

/* ways, multipolygons            two streams of areas, open or closed
   list                           to be filled; behind the entries all is zero
   out                            the number of entries, 0, 0, 0, 0 */
uint64_t mapcss_style_areas(
    const uint8_t *bundle, size_t bundle_len,
    const uint32_t *rules, size_t rules_len,
    const uint32_t *selectors, size_t selectors_len,
    const uint32_t *tests, size_t tests_len,
    const uint32_t *properties, size_t properties_len,
    const double *numbers, size_t numbers_len,
    const uint64_t *counts, size_t counts_len,
    uint8_t zoom,
    uint8_t style_type,
    const double *font, size_t font_len,
    bool for_labels,
    const uint8_t *ways, size_t ways_len,
    const uint8_t *multipolygons, size_t multipolygons_len,
    uint32_t *list, size_t list_len,
    uint64_t *out, size_t out_len);

#ifdef __cplusplus
}
#endif

#endif
