//! A small practice map of huts, roads and water, and the lines that tell its layers. bindings/c/layers.c has the same.

use jekundatz::{DrawEntry, Entity, Layer, LineCap, PropertyMap, Refusal, Settings, Sheet, Stream, TextPosition};
use std::fmt::{Display, Write};

pub fn nodes() -> Vec<Entity> {
    let hut = |id: u64| Entity::node(id).tag("tourism", "alpine_hut");
    vec![
        hut(101).tag("name", "Falkenhütte").tag("beds", "80"),
        hut(102).tag("name", "Lakehead").tag("beds", "many"),
        Entity::node(103).tag("tourism", "wilderness_hut"),
        hut(100).tag("beds", "5e1"),
    ]
}

pub fn ways() -> Vec<Entity> {
    let road = |id: u64, sort: &str| Entity::way(id).tag("highway", sort);
    vec![
        road(201, "residential").tag("name", "Mill Lane"),
        road(202, "unclassified").tag("bridge", "yes").tag("layer", "1"),
        road(203, "track").tag("tracktype", "grade1"),
        road(204, "track").tag("tracktype", "grade1").tag("access", "private"),
        road(205, "path").tag("name", "Ridge Walk").tag("route", "hiking").tag("sac_scale", "hiking"),
        road(206, "path").tag("name", "Old Drive").tag("access", "private"),
        Entity::way(207).tag("waterway", "stream").tag("intermittent", "yes"),
        road(208, "footway").tag("tunnel", "yes").tag("layer", "-1"),
        Entity::area(209).tag("natural", "water"),
        road(210, "path").tag("sac_scale", "alpine_hiking"),
    ]
}

pub fn multipolygons() -> Vec<Entity> {
    vec![
        Entity::area(301).tag("landuse", "forest"),
        Entity::area(209).tag("natural", "water"),
        Entity::area(300).tag("natural", "water").tag("landuse", "forest"),
    ]
}

/// All layers of the map at a zoom, and their drawing order.
pub fn lines(sheet: &Sheet, zoom: u8) -> Result<String, Refusal> {
    let settings = Settings::default();
    let for_labels = Settings { for_labels: true, ..settings };
    let (nodes, ways, multipolygons) = (nodes(), ways(), multipolygons());
    let mut text = format!("zoom {zoom}\n");
    if let Some(color) = sheet.canvas_color(settings.style_type)? {
        text += &format!("canvas {color}\n");
    }
    for (name, entities) in [("node", &nodes), ("way", &ways), ("multipolygon", &multipolygons)] {
        for entity in entities {
            text += &format!("{name} {}\n", entity.id());
            text.extend(sheet.property_maps(entity, zoom)?.iter().map(map_line));
            text.extend(sheet.styles(entity, zoom, &settings)?.iter().map(style_line));
        }
    }
    let lists = [
        ("nodes", sheet.draw_nodes(&nodes, zoom, &settings)?),
        ("areas", sheet.draw_areas(&ways, &multipolygons, zoom, &settings)?),
        ("areas for labels", sheet.draw_areas(&ways, &multipolygons, zoom, &for_labels)?),
    ];
    for (title, entries) in lists {
        text += &format!("{title}\n");
        for DrawEntry { stream, place, layer } in entries {
            let (name, entities) = match stream {
                Stream::Nodes => ("node", &nodes),
                Stream::Ways => ("way", &ways),
                Stream::Multipolygons => ("multipolygon", &multipolygons),
            };
            let entity = &entities[place];
            let layers = sheet.styles(entity, zoom, &settings)?;
            text += &format!("  {name} {} {}\n", entity.id(), layers[layer].name);
        }
    }
    Ok(text)
}

fn map_line(map: &PropertyMap) -> String {
    let names: String = map.properties.iter().map(|property| format!(" {}", property.name)).collect();
    format!("  map {}:{names}\n", map.name)
}

/// A line of the fields that are there.
struct Line(String);

impl Line {
    fn put(&mut self, name: &str, value: impl Display) {
        let comma = if self.0.ends_with(':') { "" } else { "," };
        write!(self.0, "{comma} {name} {value}").unwrap();
    }

    fn option<T: Display>(&mut self, name: &str, value: &Option<T>) {
        if let Some(value) = value {
            self.put(name, value);
        }
    }

    fn measure(&mut self, name: &str, value: Option<f64>) {
        self.option(name, &value.map(|value| format!("{value:.2}")));
    }

    fn dashes(&mut self, name: &str, dashes: &Option<Vec<f64>>) {
        if let Some(dashes) = dashes {
            let dashes: Vec<String> = dashes.iter().map(|dash| format!("{dash:.2}")).collect();
            self.put(name, dashes.join(" "));
        }
    }
}

fn style_line(layer: &Layer) -> String {
    let mut line = Line(format!("  style {}:", layer.name));
    line.option("layer", &layer.layer);
    line.measure("z-index", Some(layer.z_index));
    line.option("color", &layer.color);
    line.option("fill-color", &layer.fill_color);
    line.option("fill-position", &(!layer.is_foreground_fill).then_some("background"));
    line.option("background-color", &layer.background_color);
    line.measure("opacity", layer.opacity);
    line.measure("fill-opacity", layer.fill_opacity);
    line.measure("width", layer.width);
    line.dashes("dashes", &layer.dashes);
    line.option("linecap", &layer.line_cap.map(cap_word));
    line.option("casing-color", &layer.casing_color);
    line.measure("casing-width", layer.casing_width);
    line.dashes("casing-dashes", &layer.casing_dashes);
    line.option("casing-linecap", &layer.casing_line_cap.map(cap_word));
    line.option("icon-image", &layer.icon_image);
    line.option("fill-image", &layer.fill_image);
    if let Some(style) = &layer.text_style {
        line.put("text", &style.text);
        line.option("text-color", &style.text_color);
        line.option("text-position", &style.text_position.map(position_word));
        line.measure("font-size", style.font_size);
    }
    line.0 + "\n"
}

fn cap_word(cap: LineCap) -> &'static str {
    match cap {
        LineCap::Butt => "butt",
        LineCap::Round => "round",
        LineCap::Square => "square",
    }
}

fn position_word(position: TextPosition) -> &'static str {
    match position {
        TextPosition::Center => "center",
        TextPosition::Line => "line",
    }
}
