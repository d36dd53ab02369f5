//! What the program can be asked to do.
use crate::output::Force;
use crate::picture::Look;
use fuji_compressed::{ColorTile, Rect};
use std::path::{Path, PathBuf};

pub enum Call {
    Help(&'static str),
    Version,
    Manual,
    Info(Vec<PathBuf>, Blocks, Json),
    Check(Check),
    Decode(Decode),
    Make(Make),
    Compare(Compare),
    Lamp(Lamp),
    Size(Size),
    Lines(Lines),
    Write(Write),
    Codes([u32; 3]),
    Plan(Plan),
    Save(Save),
}

/// Each block is told of too.
#[derive(Clone, Copy)]
pub struct Blocks(pub bool);

/// One object a line, for other programs.
#[derive(Clone, Copy)]
pub struct Json(pub bool);

/// Nothing is said of how far the work is or of what is as it should be.
#[derive(Clone, Copy)]
pub struct Quiet(pub bool);

/// Scratch for three lines of each colour is enough.
#[derive(Clone, Copy)]
pub struct Windowed(pub bool);

/// The rows before a truncated line are written.
#[derive(Clone, Copy)]
pub struct Partial(pub bool);

/// Nothing is written, and it is said what would be.
#[derive(Clone, Copy)]
pub struct Dry(pub bool);

pub struct Check {
    pub files: Vec<PathBuf>,
    pub blocks: Blocks,
    pub json: Json,
    pub quiet: Quiet,
    pub threads: usize,
}

/// Where outputs go: one file, or a folder that is there.
pub struct Place {
    pub out: PathBuf,
    pub is_folder: bool,
    pub force: Force,
}

pub struct Decode {
    pub files: Vec<PathBuf>,
    pub place: Place,
    pub region: Option<Rect>,
    pub tile: Option<ColorTile>,
    pub look: Look,
    pub windowed: Windowed,
    pub partial: Partial,
    /// Stored states to go on from.
    pub from: Option<PathBuf>,
    pub threads: usize,
    pub quiet: Quiet,
}

/// What is made of a stream.
pub enum Kind {
    Tight,
    /// The same base for every line.
    Base(u8),
    Plan(PathBuf),
}

pub struct Make {
    pub files: Vec<PathBuf>,
    pub place: Place,
    pub kind: Kind,
    pub dry: Dry,
    pub quiet: Quiet,
    pub threads: usize,
}

pub struct Compare {
    pub files: [PathBuf; 2],
    pub tile: Option<ColorTile>,
    pub json: Json,
    pub quiet: Quiet,
    pub threads: usize,
}

/// The order of sheets in a chart.
#[derive(Clone, Copy, PartialEq, Eq)]
pub enum Order {
    Name,
    Time,
}

pub struct Lamp {
    pub files: Vec<PathBuf>,
    pub csv: bool,
    pub lines: bool,
    pub svg: Option<PathBuf>,
    pub order: Order,
    pub force: Force,
    pub quiet: Quiet,
    pub threads: usize,
}

pub struct Size {
    pub files: Vec<PathBuf>,
    /// The samples of one block.
    pub samples: Option<PathBuf>,
    pub at_most: bool,
    pub json: Json,
    pub threads: usize,
}

pub struct Lines {
    pub file: PathBuf,
    pub block: usize,
    pub out: PathBuf,
    pub force: Force,
}

/// Where the bases of a lossy block come from: a byte a line, or a plan.
pub enum Bases {
    Bytes(PathBuf),
    Plan(PathBuf),
}

impl Bases {
    pub fn file(&self) -> &Path {
        match self {
            Bases::Bytes(file) | Bases::Plan(file) => file,
        }
    }
}

pub struct Write {
    pub header: PathBuf,
    pub samples: PathBuf,
    pub bases: Option<Bases>,
    pub out: PathBuf,
    pub force: Force,
}

pub struct Plan {
    pub header: PathBuf,
    pub plan: PathBuf,
    pub out: PathBuf,
    pub force: Force,
}

/// Whose state is stored, and after which line.
pub struct Save {
    pub file: PathBuf,
    /// One block, or all of them.
    pub block: Option<usize>,
    pub line: usize,
    pub out: PathBuf,
    pub force: Force,
}
