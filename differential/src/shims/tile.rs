//! What reader.rs needs of the original's tile.rs. No case looks anything up by tile.

pub struct Tile {
    pub zoom: u8,
    pub x: u32,
    pub y: u32,
}

pub struct TileRange {
    pub min_x: u32,
    pub max_x: u32,
    pub min_y: u32,
    pub max_y: u32,
}

pub fn tile_to_max_zoom_tile_range(_: &Tile) -> TileRange {
    unreachable!("no case asks for a tile")
}
