//! The colours of sensors, by name.
use fuji_compressed::ColorTile;

/// The colours by name: 0 red, 1 green, 2 blue, six rows of six from the picture's first sample on. All cameras with
/// compressed X-Trans streams have this one; no interpolated sample shows through it.
const NAMED: [(&str, [&[u8; 6]; 6]); 5] = [
    ("rggb", [b"010101", b"121212", b"010101", b"121212", b"010101", b"121212"]),
    ("bggr", [b"212121", b"101010", b"212121", b"101010", b"212121", b"101010"]),
    ("grbg", [b"101010", b"212121", b"101010", b"212121", b"101010", b"212121"]),
    ("gbrg", [b"121212", b"010101", b"121212", b"010101", b"121212", b"010101"]),
    ("xtrans", [b"110112", b"112110", b"201021", b"112110", b"110112", b"021201"]),
];

fn tile_of(rows: [&[u8; 6]; 6]) -> ColorTile {
    rows.map(|row| row.map(|digit| digit - b'0'))
}

/// The tile that is meant if none is named.
pub fn usual(xtrans: bool) -> ColorTile {
    tile_of(NAMED[if xtrans { 4 } else { 0 }].1)
}

/// A tile by its name, or by 36 digits.
pub fn of(text: &str) -> Result<ColorTile, String> {
    if let Some((_, rows)) = NAMED.iter().find(|(name, _)| *name == text) {
        return Ok(tile_of(*rows));
    }
    let digits: Vec<u8> = text.bytes().filter(u8::is_ascii_digit).map(|b| b - b'0').collect();
    let whole: [u8; 36] =
        digits.try_into().ok().filter(|_| text.len() == 36).ok_or("a tile is rggb, bggr, grbg, gbrg, xtrans or 36 digits")?;
    let mut tile = ColorTile::default();
    tile.as_flattened_mut().copy_from_slice(&whole);
    Ok(tile)
}

/// A tile's name, or its digits.
pub fn name(tile: &ColorTile) -> String {
    match NAMED.iter().find(|(_, rows)| tile_of(*rows) == *tile) {
        Some((name, _)) => name.to_string(),
        None => tile.as_flattened().iter().map(u8::to_string).collect(),
    }
}
