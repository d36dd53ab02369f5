//! The words of a command line: those that stand for themselves, and the options with their values.
use std::ffi::OsString;
use std::path::PathBuf;

/// The options of each command; one that ends in = takes a value. The script in the repository's root goes by the
/// same list.
const OPTIONS: &str = include_str!("../text/options.txt");

/// Short forms that every command knows which has the long one. The script has the same ones.
const SHORT: [(&str, &str); 3] = [("-o", "--output"), ("-q", "--quiet"), ("-f", "--force")];

pub struct Words {
    pub plain: Vec<OsString>,
    options: Vec<(String, String)>,
}

/// What is wrong with a command line, and the command whose usage helps, if it is known.
#[derive(Debug)]
pub struct Wrong {
    pub text: String,
    pub command: Option<String>,
}

impl Words {
    pub fn has(&self, name: &str) -> bool {
        self.options.iter().any(|(n, _)| n == name)
    }

    pub fn value(&self, name: &str) -> Option<&str> {
        self.options.iter().find(|(n, _)| n == name).map(|(_, value)| value.as_str())
    }

    pub fn file(&self, name: &str) -> Option<PathBuf> {
        self.value(name).map(PathBuf::from)
    }

    /// The plain words as files.
    pub fn files(&self) -> Vec<PathBuf> {
        self.plain.iter().map(PathBuf::from).collect()
    }
}

/// The options of a command, each with whether it takes a value.
fn options_of(command: &str) -> Option<Vec<(&'static str, bool)>> {
    let (_, list) = OPTIONS.lines().filter_map(|l| l.split_once(':')).find(|(name, _)| *name == command)?;
    Some(list.split_whitespace().map(|o| (o.trim_end_matches('='), o.ends_with('='))).collect())
}

pub fn commands() -> impl Iterator<Item = &'static str> {
    OPTIONS.lines().filter_map(|l| l.split_once(':')).map(|(name, _)| name)
}

/// Splits the words after a command.
pub fn split(command: &str, mut rest: impl Iterator<Item = OsString>) -> Result<Words, String> {
    let known = options_of(command).ok_or_else(|| unknown(&format!("unknown command {command}"), command, commands()))?;
    let mut all = Words { plain: vec![], options: vec![] };
    while let Some(word) = rest.next() {
        let text = word.to_string_lossy().into_owned();
        if text == "--" {
            all.plain.extend(rest);
            break;
        }
        if !text.starts_with('-') || text == "-" {
            all.plain.push(word);
            continue;
        }
        let (name, given) = text.split_once('=').map_or((text.as_str(), None), |(name, value)| (name, Some(value.to_string())));
        let long = SHORT.iter().find(|(short, _)| *short == name).map_or(name, |(_, long)| long);
        let Some((_, takes)) = known.iter().find(|(option, _)| *option == long) else {
            return Err(unknown(&format!("{command} has no option {name}"), name, known.iter().map(|(option, _)| *option)));
        };
        if all.has(long) {
            return Err(format!("{name} is given twice"));
        }
        let value = match (takes, given) {
            (true, Some(value)) => value,
            (true, None) => rest.next().ok_or_else(|| format!("{name} needs a value"))?.to_string_lossy().into_owned(),
            (false, Some(_)) => return Err(format!("{name} takes no value")),
            (false, None) => String::new(),
        };
        all.options.push((long.to_string(), value));
    }
    Ok(all)
}

/// What is wrong with a word, and the known one that comes nearest to it, if one is near.
fn unknown(what: &str, word: &str, known: impl Iterator<Item = &'static str>) -> String {
    // The first of those that are equally near.
    let nearest = known.map(|k| (distance(word, k), k)).min_by_key(|(d, _)| *d);
    let letters = word.trim_start_matches('-').len();
    match nearest {
        Some((d, near)) if d <= (letters / 3).max(1) => format!("{what}; did you mean {near}?"),
        _ => what.to_string(),
    }
}

/// How many bytes have to be added, taken away or changed to make one word of the other.
fn distance(a: &str, b: &str) -> usize {
    let mut row: Vec<usize> = (0..=b.len()).collect();
    for (i, x) in a.bytes().enumerate() {
        let mut corner = row[0];
        row[0] = i + 1;
        for (j, y) in b.bytes().enumerate() {
            let changed = corner + (x != y) as usize;
            corner = row[j + 1];
            row[j + 1] = changed.min(row[j] + 1).min(corner + 1);
        }
    }
    row[b.len()]
}
