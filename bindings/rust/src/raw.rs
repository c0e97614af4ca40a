//! The six exports of crates/capi_c, and a safe call for each: the only unsafe code here. Nothing checks these declarations
//! against the Rattle source. bindings/mapcss.h has the same in C, and says what each argument is.
//!
//! The exports take any bytes and words; all they ask is that memory is as lent: pointers with their lengths, aligned and
//! not null, and nothing else reading or writing what is to be filled. Slices are that.

/// Words of a table's entry, and entries that a table uses.
pub const ENTRY_WORDS: usize = 8;
pub const TABLE_ENTRIES: usize = 16_384;

/// Layers of an entity.
pub const LAYERS: usize = 32;

/// Words of a layer's property map, and of 33 of them.
pub const MAP_WORDS: usize = 131;
pub const MAPS_WORDS: usize = 4323;

/// Words and floats of a styled layer, and of 32 of them.
pub const STYLE_WORDS: usize = 52;
pub const STYLE_FLOATS: usize = 6;
pub const STYLES_WORDS: usize = 1664;
pub const STYLES_FLOATS: usize = 192;

/// Words of a drawing list's entry, and entries that a list uses.
pub const DRAW_WORDS: usize = 3;
pub const DRAW_ENTRIES: usize = 4096;

extern "C" {
    fn mapcss_load(
        bundle: *const u8,
        bundle_len: usize,
        rules: *mut u32,
        rules_len: usize,
        selectors: *mut u32,
        selectors_len: usize,
        tests: *mut u32,
        tests_len: usize,
        properties: *mut u32,
        properties_len: usize,
        numbers: *mut f64,
        numbers_len: usize,
        colors: *mut u32,
        colors_len: usize,
        out: *mut u64,
        out_len: usize,
    ) -> u64;

    fn mapcss_property_maps(
        bundle: *const u8,
        bundle_len: usize,
        rules: *const u32,
        rules_len: usize,
        selectors: *const u32,
        selectors_len: usize,
        tests: *const u32,
        tests_len: usize,
        properties: *const u32,
        properties_len: usize,
        numbers: *const f64,
        numbers_len: usize,
        counts: *const u64,
        counts_len: usize,
        zoom: u8,
        entity: *const u8,
        entity_len: usize,
        maps: *mut [u32; MAPS_WORDS],
        out: *mut u64,
        out_len: usize,
    ) -> u64;

    fn mapcss_styles(
        bundle: *const u8,
        bundle_len: usize,
        rules: *const u32,
        rules_len: usize,
        selectors: *const u32,
        selectors_len: usize,
        tests: *const u32,
        tests_len: usize,
        properties: *const u32,
        properties_len: usize,
        numbers: *const f64,
        numbers_len: usize,
        counts: *const u64,
        counts_len: usize,
        zoom: u8,
        style_type: u8,
        font: *const f64,
        font_len: usize,
        entity: *const u8,
        entity_len: usize,
        words: *mut [u64; STYLES_WORDS],
        floats: *mut [f64; STYLES_FLOATS],
        layers: *mut [i64; LAYERS],
        out: *mut u64,
        out_len: usize,
    ) -> u64;

    fn mapcss_canvas_color(
        bundle: *const u8,
        bundle_len: usize,
        rules: *const u32,
        rules_len: usize,
        selectors: *const u32,
        selectors_len: usize,
        tests: *const u32,
        tests_len: usize,
        properties: *const u32,
        properties_len: usize,
        numbers: *const f64,
        numbers_len: usize,
        counts: *const u64,
        counts_len: usize,
        style_type: u8,
        out: *mut u64,
        out_len: usize,
    ) -> u64;

    fn mapcss_style_entities(
        bundle: *const u8,
        bundle_len: usize,
        rules: *const u32,
        rules_len: usize,
        selectors: *const u32,
        selectors_len: usize,
        tests: *const u32,
        tests_len: usize,
        properties: *const u32,
        properties_len: usize,
        numbers: *const f64,
        numbers_len: usize,
        counts: *const u64,
        counts_len: usize,
        zoom: u8,
        style_type: u8,
        font: *const f64,
        font_len: usize,
        for_labels: bool,
        nodes: *const u8,
        nodes_len: usize,
        list: *mut u32,
        list_len: usize,
        out: *mut u64,
        out_len: usize,
    ) -> u64;

    fn mapcss_style_areas(
        bundle: *const u8,
        bundle_len: usize,
        rules: *const u32,
        rules_len: usize,
        selectors: *const u32,
        selectors_len: usize,
        tests: *const u32,
        tests_len: usize,
        properties: *const u32,
        properties_len: usize,
        numbers: *const f64,
        numbers_len: usize,
        counts: *const u64,
        counts_len: usize,
        zoom: u8,
        style_type: u8,
        font: *const f64,
        font_len: usize,
        for_labels: bool,
        ways: *const u8,
        ways_len: usize,
        multipolygons: *const u8,
        multipolygons_len: usize,
        list: *mut u32,
        list_len: usize,
        out: *mut u64,
        out_len: usize,
    ) -> u64;
}

/// Tables to be filled by a load.
pub struct Room<'a> {
    pub rules: &'a mut [u32],
    pub selectors: &'a mut [u32],
    pub tests: &'a mut [u32],
    pub properties: &'a mut [u32],
    pub numbers: &'a mut [f64],
    pub colors: &'a mut [u32],
}

/// What every other call reads: a bundle, and what its load left.
#[derive(Clone, Copy)]
pub struct Tables<'a> {
    pub bundle: &'a [u8],
    pub rules: &'a [u32],
    pub selectors: &'a [u32],
    pub tests: &'a [u32],
    pub properties: &'a [u32],
    pub numbers: &'a [f64],
    pub counts: &'a [u64],
}

/// What the calls for styles and lists are asked for.
#[derive(Clone, Copy)]
pub struct Asked<'a> {
    pub zoom: u8,
    pub style_type: u8,
    pub font: &'a [f64],
    pub for_labels: bool,
}

pub fn load(bundle: &[u8], room: Room, out: &mut [u64]) -> u64 {
    unsafe {
        mapcss_load(
            bundle.as_ptr(),
            bundle.len(),
            room.rules.as_mut_ptr(),
            room.rules.len(),
            room.selectors.as_mut_ptr(),
            room.selectors.len(),
            room.tests.as_mut_ptr(),
            room.tests.len(),
            room.properties.as_mut_ptr(),
            room.properties.len(),
            room.numbers.as_mut_ptr(),
            room.numbers.len(),
            room.colors.as_mut_ptr(),
            room.colors.len(),
            out.as_mut_ptr(),
            out.len(),
        )
    }
}

pub fn property_maps(tables: Tables, zoom: u8, entity: &[u8], maps: &mut [u32; MAPS_WORDS], out: &mut [u64]) -> u64 {
    unsafe {
        mapcss_property_maps(
            tables.bundle.as_ptr(),
            tables.bundle.len(),
            tables.rules.as_ptr(),
            tables.rules.len(),
            tables.selectors.as_ptr(),
            tables.selectors.len(),
            tables.tests.as_ptr(),
            tables.tests.len(),
            tables.properties.as_ptr(),
            tables.properties.len(),
            tables.numbers.as_ptr(),
            tables.numbers.len(),
            tables.counts.as_ptr(),
            tables.counts.len(),
            zoom,
            entity.as_ptr(),
            entity.len(),
            maps,
            out.as_mut_ptr(),
            out.len(),
        )
    }
}

/// For labels or not does not matter here.
pub fn styles(
    tables: Tables,
    asked: Asked,
    entity: &[u8],
    words: &mut [u64; STYLES_WORDS],
    floats: &mut [f64; STYLES_FLOATS],
    layers: &mut [i64; LAYERS],
    out: &mut [u64],
) -> u64 {
    unsafe {
        mapcss_styles(
            tables.bundle.as_ptr(),
            tables.bundle.len(),
            tables.rules.as_ptr(),
            tables.rules.len(),
            tables.selectors.as_ptr(),
            tables.selectors.len(),
            tables.tests.as_ptr(),
            tables.tests.len(),
            tables.properties.as_ptr(),
            tables.properties.len(),
            tables.numbers.as_ptr(),
            tables.numbers.len(),
            tables.counts.as_ptr(),
            tables.counts.len(),
            asked.zoom,
            asked.style_type,
            asked.font.as_ptr(),
            asked.font.len(),
            entity.as_ptr(),
            entity.len(),
            words,
            floats,
            layers,
            out.as_mut_ptr(),
            out.len(),
        )
    }
}

pub fn canvas_color(tables: Tables, style_type: u8, out: &mut [u64]) -> u64 {
    unsafe {
        mapcss_canvas_color(
            tables.bundle.as_ptr(),
            tables.bundle.len(),
            tables.rules.as_ptr(),
            tables.rules.len(),
            tables.selectors.as_ptr(),
            tables.selectors.len(),
            tables.tests.as_ptr(),
            tables.tests.len(),
            tables.properties.as_ptr(),
            tables.properties.len(),
            tables.numbers.as_ptr(),
            tables.numbers.len(),
            tables.counts.as_ptr(),
            tables.counts.len(),
            style_type,
            out.as_mut_ptr(),
            out.len(),
        )
    }
}

pub fn style_entities(tables: Tables, asked: Asked, nodes: &[u8], list: &mut [u32], out: &mut [u64]) -> u64 {
    unsafe {
        mapcss_style_entities(
            tables.bundle.as_ptr(),
            tables.bundle.len(),
            tables.rules.as_ptr(),
            tables.rules.len(),
            tables.selectors.as_ptr(),
            tables.selectors.len(),
            tables.tests.as_ptr(),
            tables.tests.len(),
            tables.properties.as_ptr(),
            tables.properties.len(),
            tables.numbers.as_ptr(),
            tables.numbers.len(),
            tables.counts.as_ptr(),
            tables.counts.len(),
            asked.zoom,
            asked.style_type,
            asked.font.as_ptr(),
            asked.font.len(),
            asked.for_labels,
            nodes.as_ptr(),
            nodes.len(),
            list.as_mut_ptr(),
            list.len(),
            out.as_mut_ptr(),
            out.len(),
        )
    }
}

pub fn style_areas(
    tables: Tables,
    asked: Asked,
    ways: &[u8],
    multipolygons: &[u8],
    list: &mut [u32],
    out: &mut [u64],
) -> u64 {
    unsafe {
        mapcss_style_areas(
            tables.bundle.as_ptr(),
            tables.bundle.len(),
            tables.rules.as_ptr(),
            tables.rules.len(),
            tables.selectors.as_ptr(),
            tables.selectors.len(),
            tables.tests.as_ptr(),
            tables.tests.len(),
            tables.properties.as_ptr(),
            tables.properties.len(),
            tables.numbers.as_ptr(),
            tables.numbers.len(),
            tables.counts.as_ptr(),
            tables.counts.len(),
            asked.zoom,
            asked.style_type,
            asked.font.as_ptr(),
            asked.font.len(),
            asked.for_labels,
            ways.as_ptr(),
            ways.len(),
            multipolygons.as_ptr(),
            multipolygons.len(),
            list.as_mut_ptr(),
            list.len(),
            out.as_mut_ptr(),
            out.len(),
        )
    }
}
