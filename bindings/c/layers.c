/* Prints the layers of a small practice map at zoom 13 and 14, and their drawing order.
   Usage: layers SHEET [IMPORTED ..], files; an import names a file without its folder. */

#include <inttypes.h>
#include <stdio.h>
#include <stdlib.h>
#include <string.h>

#include "../mapcss.h"

#define LENGTH(array) (sizeof(array) / sizeof((array)[0]))
#define MOST_TAGS 5

/* Bytes that grow up to the largest that the engine takes. */
struct bytes {
    size_t length;
    uint8_t at[MAPCSS_BUNDLE_BYTES];
};

struct entity {
    uint8_t kind;
    uint64_t id;
    struct {
        const char *key; /* they rise */
        const char *value;
    } tags[MOST_TAGS];
};

struct stream {
    const char *name;
    size_t count;
    const struct entity *entities;
};

static const struct entity nodes[] = {
    {MAPCSS_NODE, 101, {{"beds", "80"}, {"name", "Falkenhütte"}, {"tourism", "alpine_hut"}}},
    {MAPCSS_NODE, 102, {{"beds", "many"}, {"name", "Lakehead"}, {"tourism", "alpine_hut"}}},
    {MAPCSS_NODE, 103, {{"tourism", "wilderness_hut"}}},
    {MAPCSS_NODE, 100, {{"beds", "5e1"}, {"tourism", "alpine_hut"}}},
};

static const struct entity ways[] = {
    {MAPCSS_OPEN, 201, {{"highway", "residential"}, {"name", "Mill Lane"}}},
    {MAPCSS_OPEN, 202, {{"bridge", "yes"}, {"highway", "unclassified"}, {"layer", "1"}}},
    {MAPCSS_OPEN, 203, {{"highway", "track"}, {"tracktype", "grade1"}}},
    {MAPCSS_OPEN, 204, {{"access", "private"}, {"highway", "track"}, {"tracktype", "grade1"}}},
    {MAPCSS_OPEN, 205, {{"highway", "path"}, {"name", "Ridge Walk"}, {"route", "hiking"}, {"sac_scale", "hiking"}}},
    {MAPCSS_OPEN, 206, {{"access", "private"}, {"highway", "path"}, {"name", "Old Drive"}}},
    {MAPCSS_OPEN, 207, {{"intermittent", "yes"}, {"waterway", "stream"}}},
    {MAPCSS_OPEN, 208, {{"highway", "footway"}, {"layer", "-1"}, {"tunnel", "yes"}}},
    {MAPCSS_CLOSED, 209, {{"natural", "water"}}},
    {MAPCSS_OPEN, 210, {{"highway", "path"}, {"sac_scale", "alpine_hiking"}}},
};

static const struct entity multipolygons[] = {
    {MAPCSS_CLOSED, 301, {{"landuse", "forest"}}},
    {MAPCSS_CLOSED, 209, {{"natural", "water"}}},
    {MAPCSS_CLOSED, 300, {{"landuse", "forest"}, {"natural", "water"}}},
};

static const struct stream node_stream = {"node", LENGTH(nodes), nodes};
static const struct stream way_stream = {"way", LENGTH(ways), ways};
static const struct stream multipolygon_stream = {"multipolygon", LENGTH(multipolygons), multipolygons};

static const char *const caps[] = {"", "butt", "round", "square"};
static const char *const positions[] = {"", "center", "line"};

/* The sheet as a load leaves it. */
static struct bytes bundle;
static uint32_t rules[MAPCSS_TABLE_WORDS];
static uint32_t selectors[MAPCSS_TABLE_WORDS];
static uint32_t tests[MAPCSS_TABLE_WORDS];
static uint32_t properties[MAPCSS_TABLE_WORDS];
static double numbers[MAPCSS_TABLE_ENTRIES];
static uint32_t colors[MAPCSS_TABLE_WORDS];
static uint64_t counts[MAPCSS_LOAD_OUT];

/* What every call but a load begins with. */
#define SHEET \
    bundle.at, bundle.length, rules, LENGTH(rules), selectors, LENGTH(selectors), tests, LENGTH(tests), properties, \
        LENGTH(properties), numbers, LENGTH(numbers), counts, LENGTH(counts)

/* No font size multiplier. */
static const double no_font[1];
#define NO_FONT no_font, 0

static void fail(const char *what)
{
    fprintf(stderr, "layers: %s\n", what);
    exit(1);
}

/* Ends the program on a refusal. */
static void accept(uint64_t number, const uint64_t *out)
{
    if (number != 0) {
        fprintf(stderr, "refused %" PRIu64 " %" PRIu64 " %" PRIu64 " %" PRIu64 " %" PRIu64 "\n", out[0], out[1], out[2],
                out[3], out[4]);
        exit(1);
    }
}

static void put_byte(struct bytes *bytes, uint8_t byte)
{
    if (bytes->length == sizeof bytes->at)
        fail("too many bytes");
    bytes->at[bytes->length++] = byte;
}

/* A group number: seven bits a byte, lowest first. */
static void put_group(struct bytes *bytes, uint64_t number)
{
    while (number >= 128) {
        put_byte(bytes, (uint8_t)(number % 128 + 128));
        number /= 128;
    }
    put_byte(bytes, (uint8_t)number);
}

static void put_part(struct bytes *bytes, const void *part, size_t length)
{
    put_group(bytes, length);
    for (size_t i = 0; i < length; i++)
        put_byte(bytes, ((const uint8_t *)part)[i]);
}

static void put_entity(struct bytes *bytes, const struct entity *entity)
{
    size_t count = 0;
    while (count < MOST_TAGS && entity->tags[count].key)
        count++;
    put_byte(bytes, entity->kind);
    put_group(bytes, entity->id);
    put_group(bytes, count);
    for (size_t i = 0; i < count; i++) {
        put_part(bytes, entity->tags[i].key, strlen(entity->tags[i].key));
        put_part(bytes, entity->tags[i].value, strlen(entity->tags[i].value));
    }
}

static void put_stream(struct bytes *bytes, const struct stream *stream)
{
    bytes->length = 0;
    for (size_t i = 0; i < stream->count; i++)
        put_entity(bytes, &stream->entities[i]);
}

/* A text of the bundle: the file's name without its folder, and what it holds. */
static void put_file(const char *path)
{
    static uint8_t text[MAPCSS_BUNDLE_BYTES];
    const char *slash = strrchr(path, '/');
    const char *name = slash ? slash + 1 : path;
    FILE *file = fopen(path, "rb");
    if (!file)
        fail(path);
    size_t length = fread(text, 1, sizeof text, file);
    fclose(file);
    put_part(&bundle, name, strlen(name));
    put_part(&bundle, text, length);
}

static void load(int count, char **paths)
{
    put_group(&bundle, (uint64_t)count);
    for (int i = 0; i < count; i++)
        put_file(paths[i]);
    accept(mapcss_load(bundle.at, bundle.length, rules, LENGTH(rules), selectors, LENGTH(selectors), tests, LENGTH(tests),
                       properties, LENGTH(properties), numbers, LENGTH(numbers), colors, LENGTH(colors), counts,
                       LENGTH(counts)),
           counts);
}

/* Prints a part of the bundle. */
static void print_range(uint64_t from, uint64_t to)
{
    fwrite(bundle.at + from, 1, (size_t)(to - from), stdout);
}

/* Prints the name of the layer that a selector names. */
static void print_layer(uint64_t selector)
{
    const uint32_t *entry = &selectors[selector * MAPCSS_ENTRY_WORDS];
    if (entry[5] == 0)
        printf("default");
    else
        print_range(entry[6], entry[7]);
}

static void print_maps(const struct bytes *entity, uint8_t zoom)
{
    static uint32_t maps[MAPCSS_MAPS_WORDS];
    uint64_t out[MAPCSS_OUT];
    accept(mapcss_property_maps(SHEET, zoom, entity->at, entity->length, maps, out, LENGTH(out)), out);
    for (size_t k = 0; k < out[0]; k++) {
        const uint32_t *row = &maps[k * MAPCSS_MAP_WORDS];
        printf("  map ");
        print_layer(row[MAPCSS_MAP_SELECTOR]);
        printf(":");
        for (size_t i = 0; i < row[MAPCSS_MAP_COUNT]; i++) {
            const uint32_t *property = &properties[row[MAPCSS_MAP_PROPERTIES + i] * MAPCSS_ENTRY_WORDS];
            printf(" ");
            print_range(property[1], property[2]);
        }
        printf("\n");
    }
}

/* Each of these prints one field of a style, if it is there. */
static void print_color(const char *name, const uint64_t *color)
{
    if (color[0])
        printf(", %s #%02x%02x%02x", name, (unsigned)color[1], (unsigned)color[2], (unsigned)color[3]);
}

static void print_float(const char *name, uint64_t present, double value)
{
    if (present)
        printf(", %s %.2f", name, value);
}

static void print_dashes(const char *name, const uint64_t *dashes)
{
    if (!dashes[0])
        return;
    printf(", %s", name);
    for (uint64_t i = dashes[1]; i < dashes[2]; i++)
        printf(" %.2f", numbers[i]);
}

static void print_word(const char *name, const char *word)
{
    if (word[0])
        printf(", %s %s", name, word);
}

static void print_text(const char *name, const uint64_t *text)
{
    if (text[0] == 0)
        return;
    printf(", %s ", name);
    print_range(text[1], text[2]);
    if (text[0] == 2) {
        printf(":");
        print_range(text[3], text[4]);
    }
}

static void print_style(const uint64_t *words, const double *floats, int64_t layer)
{
    printf("  style ");
    print_layer(words[MAPCSS_STYLE_SELECTOR]);
    printf(":");
    if (words[MAPCSS_STYLE_HAS_LAYER])
        printf(" layer %" PRId64 ",", layer);
    printf(" z-index %.2f", floats[MAPCSS_STYLE_Z_INDEX]);
    print_color("color", words + MAPCSS_STYLE_COLOR);
    print_color("fill-color", words + MAPCSS_STYLE_FILL_COLOR);
    print_word("fill-position", words[MAPCSS_STYLE_FOREGROUND_FILL] ? "" : "background");
    print_color("background-color", words + MAPCSS_STYLE_BACKGROUND_COLOR);
    print_float("opacity", words[MAPCSS_STYLE_HAS_OPACITY], floats[MAPCSS_STYLE_OPACITY]);
    print_float("fill-opacity", words[MAPCSS_STYLE_HAS_FILL_OPACITY], floats[MAPCSS_STYLE_FILL_OPACITY]);
    print_float("width", words[MAPCSS_STYLE_HAS_WIDTH], floats[MAPCSS_STYLE_WIDTH]);
    print_dashes("dashes", words + MAPCSS_STYLE_DASHES);
    print_word("linecap", caps[words[MAPCSS_STYLE_LINE_CAP]]);
    print_color("casing-color", words + MAPCSS_STYLE_CASING_COLOR);
    print_float("casing-width", words[MAPCSS_STYLE_HAS_CASING_WIDTH], floats[MAPCSS_STYLE_CASING_WIDTH]);
    print_dashes("casing-dashes", words + MAPCSS_STYLE_CASING_DASHES);
    print_word("casing-linecap", caps[words[MAPCSS_STYLE_CASING_LINE_CAP]]);
    print_text("icon-image", words + MAPCSS_STYLE_ICON_IMAGE);
    print_text("fill-image", words + MAPCSS_STYLE_FILL_IMAGE);
    print_text("text", words + MAPCSS_STYLE_TEXT);
    print_color("text-color", words + MAPCSS_STYLE_TEXT_COLOR);
    print_word("text-position", positions[words[MAPCSS_STYLE_TEXT_POSITION]]);
    print_float("font-size", words[MAPCSS_STYLE_HAS_FONT_SIZE], floats[MAPCSS_STYLE_FONT_SIZE]);
    printf("\n");
}

/* What mapcss_styles fills, for one entity at a time. */
static uint64_t style_words[MAPCSS_STYLES_WORDS];
static double style_floats[MAPCSS_STYLES_FLOATS];
static int64_t style_layers[MAPCSS_LAYERS];

static uint64_t style(const struct bytes *entity, uint8_t zoom)
{
    uint64_t out[MAPCSS_OUT];
    accept(mapcss_styles(SHEET, zoom, MAPCSS_JOSM, NO_FONT, entity->at, entity->length, style_words, style_floats,
                         style_layers, out, LENGTH(out)),
           out);
    return out[0];
}

static void print_entities(const struct stream *stream, uint8_t zoom)
{
    static struct bytes entity;
    for (size_t i = 0; i < stream->count; i++) {
        entity.length = 0;
        put_entity(&entity, &stream->entities[i]);
        printf("%s %" PRIu64 "\n", stream->name, stream->entities[i].id);
        print_maps(&entity, zoom);
        uint64_t count = style(&entity, zoom);
        for (size_t k = 0; k < count; k++)
            print_style(style_words + k * MAPCSS_STYLE_WORDS, style_floats + k * MAPCSS_STYLE_FLOATS, style_layers[k]);
    }
}

/* Prints an entry of a drawing list of these streams. */
static void print_entry(const uint32_t *entry, const struct stream *const *streams, uint8_t zoom)
{
    static struct bytes bytes;
    const struct stream *stream = streams[entry[MAPCSS_DRAW_STREAM]];
    const struct entity *entity = &stream->entities[entry[MAPCSS_DRAW_PLACE]];
    bytes.length = 0;
    put_entity(&bytes, entity);
    style(&bytes, zoom);
    printf("  %s %" PRIu64 " ", stream->name, entity->id);
    print_layer(style_words[entry[MAPCSS_DRAW_LAYER] * MAPCSS_STYLE_WORDS + MAPCSS_STYLE_SELECTOR]);
    printf("\n");
}

static uint32_t list[MAPCSS_DRAW_LIST_WORDS];

static void print_nodes(uint8_t zoom)
{
    static struct bytes bytes;
    const struct stream *streams[] = {&node_stream};
    uint64_t out[MAPCSS_OUT];
    put_stream(&bytes, &node_stream);
    accept(mapcss_style_entities(SHEET, zoom, MAPCSS_JOSM, NO_FONT, false, bytes.at, bytes.length, list, LENGTH(list), out,
                                 LENGTH(out)),
           out);
    printf("nodes\n");
    for (size_t i = 0; i < out[0]; i++)
        print_entry(list + i * MAPCSS_DRAW_WORDS, streams, zoom);
}

static void print_areas(uint8_t zoom, bool for_labels)
{
    static struct bytes first, second;
    const struct stream *streams[] = {&way_stream, &multipolygon_stream};
    uint64_t out[MAPCSS_OUT];
    put_stream(&first, &way_stream);
    put_stream(&second, &multipolygon_stream);
    accept(mapcss_style_areas(SHEET, zoom, MAPCSS_JOSM, NO_FONT, for_labels, first.at, first.length, second.at,
                              second.length, list, LENGTH(list), out, LENGTH(out)),
           out);
    printf(for_labels ? "areas for labels\n" : "areas\n");
    for (size_t i = 0; i < out[0]; i++)
        print_entry(list + i * MAPCSS_DRAW_WORDS, streams, zoom);
}

static void print_canvas(void)
{
    uint64_t out[MAPCSS_OUT];
    accept(mapcss_canvas_color(SHEET, MAPCSS_JOSM, out, LENGTH(out)), out);
    if (out[0])
        printf("canvas #%02x%02x%02x\n", (unsigned)out[1], (unsigned)out[2], (unsigned)out[3]);
}

static void print_zoom(uint8_t zoom)
{
    printf("zoom %u\n", zoom);
    print_canvas();
    print_entities(&node_stream, zoom);
    print_entities(&way_stream, zoom);
    print_entities(&multipolygon_stream, zoom);
    print_nodes(zoom);
    print_areas(zoom, false);
    print_areas(zoom, true);
}

int main(int argc, char **argv)
{
    if (argc < 2)
        fail("usage: layers SHEET [IMPORTED ..]");
    load(argc - 1, argv + 1);
    print_zoom(13);
    print_zoom(14);
    return 0;
}
