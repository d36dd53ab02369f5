//! The manual page, made from the texts of --help.
use crate::help::{FIRST_PAGE, TEXTS};

/// The texts as a page for `man`: they are kept as they are, since their columns mean something.
pub fn page(version: &str) -> String {
    let mut page = format!(
        ".TH FUJIRAW 1 \"\" \"fujiraw {version}\"\n.SH NAME\nfujiraw \\- reads and writes Fuji compressed raw streams and camera files\n"
    );
    for part in FIRST_PAGE.split("\n\n") {
        let heading = match part {
            _ if part.starts_with("usage:") => Some("SYNOPSIS"),
            _ if part.starts_with("Commands:") => Some("COMMANDS"),
            _ if part.starts_with("Exit status:") => Some("EXIT STATUS"),
            _ if part.starts_with("Every command") => Some("FILES AND OPTIONS"),
            _ if part.starts_with("Examples:") => Some("EXAMPLES"),
            _ => None,
        };
        if let Some(heading) = heading {
            page += &format!(".SH {heading}\n");
        }
        add(&mut page, part);
    }
    for (name, text) in TEXTS {
        page += &format!(".SH FUJIRAW {}\n", name.to_uppercase());
        text.split("\n\n").for_each(|part| add(&mut page, part));
    }
    page
}

fn add(page: &mut String, part: &str) {
    *page += ".PP\n.nf\n";
    for line in part.lines() {
        // A dot or a quote at a line's start, and a backslash anywhere, mean something to `man`.
        let line = line.replace('\\', "\\e").replace('-', "\\-");
        if line.starts_with(['.', '\'']) {
            *page += "\\&";
        }
        *page += &line;
        page.push('\n');
    }
    *page += ".fi\n";
}
