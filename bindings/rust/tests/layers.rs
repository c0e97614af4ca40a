//! What the crate answers: the layers of the practice map, every field and value, every refusal, and any bytes at all.

mod practice;

use jekundatz::{Bundle, Color, DrawEntry, Entity, LineCap, Refusal, Settings, Sheet, Stream, StyleType, TextPosition};
use jekundatz::{Property, PropertyMap, Value};

const EXPECTED: &str = include_str!("../../expected.txt");
const WALKING: &str = include_str!("../../sheets/walking.mapcss");
const PALETTE: &str = include_str!("../../sheets/palette.mapcss");

fn walking_bundle() -> Bundle {
    Bundle::new().text("walking.mapcss", WALKING).text("palette.mapcss", PALETTE)
}

fn walking_lines(sheet: &Sheet) -> String {
    [13, 14].map(|zoom| practice::lines(sheet, zoom).unwrap()).concat()
}

fn numbers<T>(answer: Result<T, Refusal>) -> [u64; 5] {
    answer.err().expect("an answer where a refusal was expected").numbers()
}

#[test]
fn practice_map() {
    let sheet = Sheet::load_bundle(&walking_bundle()).unwrap();
    let lines = walking_lines(&sheet);
    for (place, (line, expected)) in lines.lines().zip(EXPECTED.lines()).enumerate() {
        assert_eq!(line, expected, "line {}", place + 1);
    }
    assert_eq!(lines, EXPECTED);
}

#[test]
fn threads_share_a_sheet() {
    let sheet = Sheet::load_bundle(&walking_bundle()).unwrap();
    std::thread::scope(|scope| {
        let threads = [(); 4].map(|()| scope.spawn(|| walking_lines(&sheet)));
        for thread in threads {
            assert_eq!(thread.join().unwrap(), EXPECTED);
        }
    });
}

#[test]
fn counts_and_colors() {
    let sheet = Sheet::load("@a:#123; @b:#fff; @a:#010203; way[x>1],node{width:2,3; color:@a;}").unwrap();
    let counts = sheet.counts();
    assert_eq!((counts.rules, counts.selectors, counts.tests, counts.properties), (1, 2, 1, 2));
    assert_eq!((counts.numbers, counts.colors), (3, 2));
    let color = |r, g, b| Color { r, g, b };
    assert_eq!(sheet.colors(), [("a".to_string(), color(1, 2, 3)), ("b".to_string(), color(255, 255, 255))]);
}

#[test]
fn every_kind_of_value() {
    let text = r#"way::* { a: b; } way::x { c: d : e; f: "g h"; i: #0a0b0c; j: 1, -2.5; k: eval(prop("width") +3); }
        way::* { a: l; }"#;
    let maps = Sheet::load(text).unwrap().property_maps(&Entity::way(1), 0).unwrap();
    let property = |name: &str, value| Property { name: name.to_string(), value };
    let reached = property("a", Value::Identifier("l".to_string()));
    let expected = [
        PropertyMap { name: "*".to_string(), properties: vec![reached.clone()] },
        PropertyMap {
            name: "x".to_string(),
            properties: vec![
                reached,
                property("c", Value::Identifier("d:e".to_string())),
                property("f", Value::String("g h".to_string())),
                property("i", Value::Color(Color { r: 10, g: 11, b: 12 })),
                property("j", Value::Numbers(vec![1.0, -2.5])),
                property("k", Value::WidthDelta(3.0)),
            ],
        },
    ];
    assert_eq!(maps, expected);
    assert_eq!(maps[1].get("k"), Some(&Value::WidthDelta(3.0)));
    assert_eq!(maps[1].get("z"), None);
}

#[test]
fn every_field_of_a_style() {
    let text = r#"area::x { z-index: 5; color: red; fill-color: #010203; fill-position: background; background-color: blue;
        opacity: .5; fill-opacity: .25; width: 2; dashes: 3,4; linecap: square; casing-color: white; casing-width: 1;
        casing-dashes: 5,6,7; casing-linecap: round; icon-image: "i j"; fill-image: k:l; text: "t"; text-color: black;
        text-position: center; font-size: 8; }"#;
    let sheet = Sheet::load(text).unwrap();
    let area = Entity::area(1).tag("layer", "-3");
    let settings = Settings { font_multiplier: Some(1.5), ..Settings::default() };
    let [layer] = &sheet.styles(&area, 0, &settings).unwrap()[..] else { panic!("one layer") };
    let color = |r, g, b| Some(Color { r, g, b });
    assert_eq!((&layer.name[..], layer.layer, layer.z_index), ("x", Some(-3), 5.0));
    assert_eq!((layer.color, layer.fill_color), (color(255, 0, 0), color(1, 2, 3)));
    assert_eq!((layer.is_foreground_fill, layer.background_color), (false, color(0, 0, 255)));
    assert_eq!((layer.opacity, layer.fill_opacity, layer.width), (Some(0.5), Some(0.25), Some(2.0)));
    assert_eq!((layer.dashes.as_deref(), layer.line_cap), (Some(&[3.0, 4.0][..]), Some(LineCap::Square)));
    assert_eq!((layer.casing_color, layer.casing_width), (color(255, 255, 255), Some(4.0)));
    assert_eq!(layer.casing_dashes.as_deref(), Some(&[5.0, 6.0, 7.0][..]));
    assert_eq!(layer.casing_line_cap, Some(LineCap::Round));
    assert_eq!((layer.icon_image.as_deref(), layer.fill_image.as_deref()), (Some("i j"), Some("k:l")));
    let text = layer.text_style.as_ref().unwrap();
    assert_eq!((&text.text[..], text.text_color, text.font_size), ("t", color(0, 0, 0), Some(12.0)));
    assert_eq!(text.text_position, Some(TextPosition::Center));

    let maps_me = Settings { style_type: StyleType::MapsMe, ..Settings::default() };
    let layers = sheet.styles(&area, 0, &maps_me).unwrap();
    assert_eq!(layers[0].casing_width, Some(3.0));
    assert_eq!(layers[0].text_style.as_ref().unwrap().font_size, Some(8.0));

    let bare = Sheet::load("way{}").unwrap().styles(&Entity::way(1), 0, &settings).unwrap();
    let fields = format!("{:?}", bare[0].style);
    assert_eq!(fields.matches("None").count(), 16, "{fields}");
    assert_eq!((bare[0].z_index, bare[0].is_foreground_fill), (3.0, true));
}

#[test]
fn canvas() {
    let sheet = Sheet::load("canvas{fill-color:#010203;background-color:#040506;}").unwrap();
    assert_eq!(sheet.canvas_color(StyleType::Josm), Ok(Some(Color { r: 1, g: 2, b: 3 })));
    assert_eq!(sheet.canvas_color(StyleType::MapsMe), Ok(Some(Color { r: 4, g: 5, b: 6 })));
    assert_eq!(Sheet::load("way{}").unwrap().canvas_color(StyleType::Josm), Ok(None));
}

#[test]
fn entity_bytes() {
    let entity = Entity::area(300).tag("b", "1").tag("a", "2").tag("b", "3");
    assert_eq!(entity.bytes(), [2, 0xac, 2, 2, 1, b'a', 1, b'2', 1, b'b', 1, b'3']);
    assert_eq!(Bundle::new().text("n", "tt").bytes(), [1, 1, b'n', 2, b't', b't']);
}

#[test]
fn refused_texts() {
    let cases = [
        ("way{\n  color:#12345;\n}", [3, 9, 0, 2, 14]),
        ("way{width:5.;}", [3, 8, 0, 1, 12]),
        ("way|z-", [3, 11, 0, 1, 6]),
        ("way", [4, 1, 0, 1, 4]),
        ("relation{}", [4, 2, 0, 1, 1]),
        ("way{}\n  node{width 2;}", [4, 4, 0, 2, 14]),
        ("@a: red; way{color:@a;}", [4, 5, 0, 1, 21]),
        ("way{width:eval(3);}", [4, 6, 0, 1, 11]),
        ("@import \"paths\";", [5, 0, 0, 1, 16]),
        ("way[a=2.5]{}", [6, 0, 0, 1, 10]),
        ("@import \"sheet\";", [21, 0, 0, 1, 16]),
    ];
    for (text, expected) in cases {
        assert_eq!(numbers(Sheet::load(text)), expected, "{text}");
    }
    let imported = Bundle::new().text("s", "@import \"p\";").text("p", "\nway{width 2;}");
    assert_eq!(numbers(Sheet::load_bundle(&imported)), [4, 4, 1, 2, 11]);
}

#[test]
fn refused_bundles() {
    let equal_names = Bundle::new().text("s", "").text("s", "");
    assert_eq!(numbers(Sheet::load_bundle(&equal_names)), [1, 0, 0, 0, 0]);
    assert_eq!(numbers(Sheet::load_bundle(&Bundle::new())), [1, 0, 0, 0, 0]);
    assert_eq!(numbers(Sheet::load_bytes(&[])), [1, 0, 0, 0, 0]);
    assert_eq!(numbers(Sheet::load_bytes(&[1, 1, b's', 1, 0xff])), [2, 0, 0, 0, 0]);
    assert_eq!(numbers(Sheet::load(&" ".repeat(1 << 20))), [1, 0, 0, 0, 0]);
}

#[test]
fn full_tables() {
    let most = Sheet::load(&"{}".repeat(16_384)).unwrap();
    assert_eq!(most.counts().rules, 16_384);
    assert_eq!(numbers(Sheet::load(&"{}".repeat(16_385))), [20, 1, 0, 1, 2 * 16_385]);
    // more entries than bytes
    let imports = Bundle::new().text("s", "@import\"t\";".repeat(500)).text("t", "{}".repeat(32));
    assert_eq!(Sheet::load_bundle(&imports).unwrap().counts().rules, 16_000);
    let imports = Bundle::new().text("s", "@import\"t\";".repeat(500)).text("t", "{}".repeat(33));
    // rule 16,385 is the 17th of the 497th import
    assert_eq!(numbers(Sheet::load_bundle(&imports)), [20, 1, 1, 1, 34]);
}

#[test]
fn refused_entities() {
    let settings = Settings::default();
    let sheet = Sheet::load("way[ele>1]{width:1;}").unwrap();
    let styles = |bytes: &[u8]| numbers(sheet.styles_of_bytes(bytes, 13, &settings));
    assert_eq!(styles(&[]), [7, 0, 0, 0, 0]);
    assert_eq!(styles(&[9, 1, 0]), [7, 0, 0, 0, 0]);
    assert_eq!(styles(&[1, 7, 1, 1, b'a', 1, 0xff]), [2, 0, 0, 0, 0]);
    let many = (0..257).fold(Entity::way(1), |entity, n| entity.tag(format!("{n:03}"), ""));
    assert_eq!(styles(&many.bytes()), [7, 0, 0, 0, 0]);
    let high = Entity::way(1).tag("ele", "9007199254740993");
    assert_eq!(numbers(sheet.property_maps(&high, 13)), [8, 0, 0, 0, 0]);

    let way = Entity::way(1);
    let draw = |ways: &[Entity], others: &[Entity]| numbers(sheet.draw_areas(ways, others, 13, &settings));
    assert_eq!(draw(&[way.clone(), way.clone(), high.clone()], &[Entity::node(1)]), [8, 0, 2, 0, 0]);
    assert_eq!(draw(std::slice::from_ref(&way), &[way.clone(), Entity::node(1)]), [7, 1, 1, 0, 0]);
    assert_eq!(draw(&[], &[high]), [8, 1, 0, 0, 0]);
    assert_eq!(numbers(sheet.draw_nodes(&[way], 13, &settings)), [7, 0, 0, 0, 0]);
    assert_eq!(numbers(sheet.draw_nodes_of_bytes(&[0; (1 << 20) + 1], 13, &settings)), [7, 0, 0, 0, 0]);
}

#[test]
fn refused_by_the_state() {
    let settings = Settings::default();
    let styles = |text: &str| Sheet::load(text).unwrap().styles(&Entity::way(1), 0, &settings);
    let layers = |count: usize| (0..count).map(|n| format!("way::l{n}{{}}")).collect::<String>();
    assert_eq!(styles(&layers(32)).unwrap().len(), 32);
    assert_eq!(numbers(styles(&layers(33))), [23, 0, 0, 0, 0]);
    let names = |count: usize| (0..count).map(|n| format!("p{n}:1;")).collect::<String>();
    assert_eq!(styles(&format!("way{{{}}}", names(128))).unwrap().len(), 1);
    assert_eq!(numbers(styles(&format!("way{{{}}}", names(129)))), [24, 0, 0, 0, 0]);

    let not_a_number = Sheet::load(&format!("node{{z-index:.{};}}", "9".repeat(400))).unwrap();
    assert_eq!(numbers(not_a_number.draw_nodes(&[Entity::node(1)], 0, &settings)), [9, 0, 0, 0, 0]);
    assert!(not_a_number.styles(&Entity::node(1), 0, &settings).unwrap()[0].z_index.is_nan());
}

#[test]
fn too_long_a_list() {
    let sheet = Sheet::load("node{}").unwrap();
    let settings = Settings::default();
    let nodes: Vec<Entity> = (0..4097).rev().map(Entity::node).collect();
    let entries = sheet.draw_nodes(&nodes[..4096], 0, &settings).unwrap();
    assert_eq!(entries.len(), 4096);
    assert_eq!(entries[0], DrawEntry { stream: Stream::Nodes, place: 4095, layer: 0 });
    assert_eq!(numbers(sheet.draw_nodes(&nodes, 0, &settings)), [25, 0, 0, 0, 0]);
}

#[test]
fn refusals_in_words() {
    let words = |text: &str| Sheet::load(text).unwrap_err().to_string();
    assert_eq!(words("way"), "refusal 4: parse error, the text ends too early (text 0, line 1, character 4)");
    assert_eq!(words("@a"), "refusal 4: parse error, the text ends too early (text 0, line 1, character 3)");
    let sheet = Sheet::load("way[a<1]{}").unwrap();
    let far = Entity::way(1).tag("a", "1e99");
    let refusal = sheet.draw_areas(&[], &[far], 0, &Settings::default()).unwrap_err();
    assert_eq!(refusal.to_string(), "refusal 8: a tag's number is outside the exact range (multipolygon 0)");
    let bundle = Sheet::load_bytes(&[]).unwrap_err();
    assert_eq!(
        (bundle.to_string(), bundle.reason_words()),
        ("refusal 1: the bundle's layout is wrong".to_string(), None)
    );
}

/// Xorshift.
struct Random(u64);

impl Random {
    fn below(&mut self, bound: usize) -> usize {
        self.0 ^= self.0 << 13;
        self.0 ^= self.0 >> 7;
        self.0 ^= self.0 << 17;
        (self.0 % bound as u64) as usize
    }

    fn bytes(&mut self, most: usize) -> Vec<u8> {
        (0..self.below(most)).map(|_| self.below(256) as u8).collect()
    }

    /// A copy with up to three bytes changed, dropped, doubled or put in.
    fn spoilt(&mut self, bytes: &[u8]) -> Vec<u8> {
        let mut bytes = bytes.to_vec();
        for _ in 0..=self.below(3) {
            let place = self.below(bytes.len());
            match self.below(4) {
                0 => bytes[place] = self.below(256) as u8,
                1 => drop(bytes.remove(place)),
                2 => bytes.insert(place, bytes[place]),
                _ => bytes.insert(place, b";{}[]:,@#\"*|"[self.below(12)]),
            }
        }
        bytes
    }
}

/// Keeps the length of the sheet's text right, so that the reader sees what was spoilt.
fn spoilt_sheet(random: &mut Random) -> Vec<u8> {
    let text = random.spoilt(WALKING.as_bytes());
    match String::from_utf8(text) {
        Ok(text) => Bundle::new().text("walking.mapcss", text).text("palette.mapcss", PALETTE).bytes(),
        Err(_) => random.spoilt(&walking_bundle().bytes()),
    }
}

/// Calls everything with these bytes as an entity and as streams; says how many calls were answered.
fn call_all(sheet: &Sheet, entity: &[u8], random: &mut Random) -> usize {
    let zoom = random.below(256) as u8;
    let font_multiplier = [None, Some(0.5), Some(f64::NAN)][random.below(3)];
    let style_type = [StyleType::Josm, StyleType::MapsMe][random.below(2)];
    let settings = Settings { style_type, font_multiplier, for_labels: random.below(2) == 0 };
    let known = |refusal: Refusal| assert_ne!(refusal.words(), "unknown refusal");
    let answers = [
        sheet.property_maps_of_bytes(entity, zoom).map(|maps| maps.len()).map_err(known),
        sheet.styles_of_bytes(entity, zoom, &settings).map(|layers| layers.len()).map_err(known),
        sheet.canvas_color(style_type).map(|_| 0).map_err(known),
        sheet.draw_nodes_of_bytes(entity, zoom, &settings).map(|list| list.len()).map_err(known),
        sheet.draw_areas_of_bytes(entity, entity, zoom, &settings).map(|list| list.len()).map_err(known),
    ];
    answers.iter().flatten().count()
}

#[test]
fn any_bytes() {
    let mut random = Random(0x9e37_79b9_7f4a_7c15);
    let sheet = Sheet::load_bundle(&walking_bundle()).unwrap();
    let entities: Vec<Vec<u8>> = practice::ways().iter().chain(&practice::nodes()).map(Entity::bytes).collect();
    let (mut loaded, mut answered) = (0, 0);
    for _ in 0..4000 {
        let bytes = random.bytes(200);
        loaded += usize::from(Sheet::load_bytes(&bytes).is_ok());
        answered += call_all(&sheet, &bytes, &mut random);
        let entity = &entities[random.below(entities.len())];
        let entity = random.spoilt(entity);
        answered += call_all(&sheet, &entity, &mut random);
        if let Ok(spoilt) = Sheet::load_bytes(&spoilt_sheet(&mut random)) {
            loaded += 1;
            answered += call_all(&spoilt, &entity, &mut random);
            assert!(spoilt.colors().len() == spoilt.counts().colors);
        }
    }
    // both ways out were taken
    assert!((100..4000).contains(&loaded), "{loaded} loaded");
    assert!(answered > 4000, "{answered} answered");
}
