//! The sample streams: a page with some letters and a disc, as a Bayer and as an X-Trans sensor sees it.
use common::encoder::{How, Spoil, encode_spoilt};
use common::stream::{Header, encoded, stream};

pub const WIDTH: u16 = 768;
pub const LINES: u16 = 24;

pub type Tile = [[u8; 6]; 6];

pub const BAYER: Tile =
    [[0, 1, 0, 1, 0, 1], [1, 2, 1, 2, 1, 2], [0, 1, 0, 1, 0, 1], [1, 2, 1, 2, 1, 2], [0, 1, 0, 1, 0, 1], [1, 2, 1, 2, 1, 2]];
pub const XTRANS: Tile =
    [[1, 1, 0, 1, 1, 2], [1, 1, 2, 1, 1, 0], [2, 0, 1, 0, 2, 1], [1, 1, 2, 1, 1, 0], [1, 1, 0, 1, 1, 2], [0, 2, 1, 2, 0, 1]];

/// Letters of five columns and seven rows; the highest of five bits is the left column.
const LETTERS: [(char, [u8; 7]); 7] = [
    ('J', [7, 2, 2, 2, 2, 18, 12]),
    ('U', [17, 17, 17, 17, 17, 17, 14]),
    ('K', [17, 18, 20, 24, 20, 18, 17]),
    ('R', [30, 17, 17, 30, 20, 18, 17]),
    ('E', [31, 16, 16, 30, 16, 16, 31]),
    ('N', [17, 25, 21, 19, 17, 17, 17]),
    (' ', [0; 7]),
];
const TEXT: &str = "JUKRENK";
const SIZE: i64 = 12;

fn is_ink(x: i64, y: i64) -> bool {
    let (column, row) = ((x - 72).div_euclid(SIZE), (y - 30).div_euclid(SIZE));
    if column < 0 || !(0..7).contains(&row) || column % 6 == 5 {
        return false;
    }
    let letter = TEXT.chars().nth(column as usize / 6).unwrap_or(' ');
    let shape = LETTERS.iter().find(|l| l.0 == letter).unwrap().1;
    shape[row as usize] >> (4 - column % 6) & 1 == 1
}

/// The light at a sample, for 14 bits.
pub fn light(x: i64, y: i64) -> u16 {
    let page = 9000 + 4 * x - 6 * (y - 72).abs();
    let (dx, dy) = (x - 668, y - 72);
    let disc = (3600 - dx * dx - dy * dy).max(0);
    let shade = if is_ink(x, y) { 7000 } else { disc };
    (page - shade) as u16
}

/// The places of the columns of a block in their colour lines.
fn place(xtrans: bool, column: usize) -> usize {
    if xtrans { 2 * (column / 3) + (column % 3 != 0) as usize } else { column / 2 }
}

fn colour_line(tile: &Tile, row: usize, column: usize) -> usize {
    match tile[row][column % 6] {
        0 => 2 + row / 2,
        2 => 15 + row / 2,
        _ => 7 + row,
    }
}

/// What line n's colour lines are to hold for a picture. A place that no sample of the picture stands for takes the one before it, or the first.
pub fn wanted(xtrans: bool, tile: &Tile, n: usize, picture: impl Fn(i64, i64) -> u16) -> Vec<Vec<u16>> {
    let mut all = vec![vec![None; 512]; 18];
    for (row, column) in (0..6).flat_map(|r| (0..768).map(move |c| (r, c))) {
        all[colour_line(tile, row, column)][place(xtrans, column)] = Some(picture(column as i64, (6 * n + row) as i64));
    }
    let filled = |line: Vec<Option<u16>>| {
        let mut last = line.iter().find_map(|v| *v).unwrap_or(0);
        line.into_iter()
            .map(|v| {
                last = v.unwrap_or(last);
                last
            })
            .collect()
    };
    all.into_iter().map(filled).collect()
}

/// A stream of 14 bits; lossy if there is a base.
fn sample(xtrans: bool, tile: &Tile, base: Option<u8>) -> Vec<u8> {
    let header = Header::new(base.is_none(), xtrans, 14, WIDTH, LINES);
    let rows: Vec<Vec<u8>> = base.map(|b| vec![b; LINES as usize]).into_iter().collect();
    let lines: Vec<_> = (0..LINES as usize).map(|n| wanted(xtrans, tile, n, light)).collect();
    encoded(&header, &rows, &mut |_, n, line, p| lines[n][line][p])
}

/// A Bayer block of 14 bits and one line that begins with marked case i, a long code that need not be one, and goes on tightly.
fn escape() -> Vec<u8> {
    let spoil = Spoil { from: 0, how: How::Long { zeros: 41, code: 1 } };
    let mut want = |n, line, p| ((37 * p + 211 * line + 5 * n * p + 1000) % 16384) as u16;
    stream(&Header::new(true, false, 14, WIDTH, 1), &[], &[encode_spoilt(14, false, &[], 1, &mut want, Some(spoil)).bytes])
}

/// The names of the files, and what they hold.
pub fn samples() -> [(&'static str, Vec<u8>); 3] {
    [("bayer.fcs", sample(false, &BAYER, None)), ("xtrans.fcs", sample(true, &XTRANS, Some(2))), ("escape.fcs", escape())]
}
