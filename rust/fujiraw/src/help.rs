//! The texts of --help. The script in the repository's root shows the same files.

/// What each command does, in the order of the first page.
pub const TEXTS: [(&str, &str); 14] = [
    ("info", include_str!("../text/info.txt")),
    ("check", include_str!("../text/check.txt")),
    ("decode", include_str!("../text/decode.txt")),
    ("tighten", include_str!("../text/tighten.txt")),
    ("copy", include_str!("../text/copy.txt")),
    ("compare", include_str!("../text/compare.txt")),
    ("lamp", include_str!("../text/lamp.txt")),
    ("size", include_str!("../text/size.txt")),
    ("lines", include_str!("../text/lines.txt")),
    ("write", include_str!("../text/write.txt")),
    ("plan", include_str!("../text/plan.txt")),
    ("save", include_str!("../text/save.txt")),
    ("codes", include_str!("../text/codes.txt")),
    ("manual", include_str!("../text/manual.txt")),
];

pub const FIRST_PAGE: &str = include_str!("../text/help.txt");

/// The help for a command, or the first page if there is none of this name.
pub fn of(command: &str) -> &'static str {
    TEXTS.iter().find(|(name, _)| *name == command).map_or(FIRST_PAGE, |(_, text)| text)
}

/// The first part of a help: how the command is called.
pub fn usage(command: &str) -> &'static str {
    of(command).split("\n\n").next().unwrap_or_default()
}
