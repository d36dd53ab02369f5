//! From the words of a command line to what is to be done.
use crate::calls::*;
use crate::output::Force;
use crate::picture::{Format, Look};
use crate::tile;
use crate::words::{Words, Wrong, commands, split};
use crate::{help, inputs};
use fuji_compressed::Rect;
use std::ffi::OsString;
use std::path::{Path, PathBuf};

pub fn read(words: Vec<OsString>) -> Result<Call, Wrong> {
    let command = words.first().and_then(|w| w.to_str()).unwrap_or_default().to_string();
    let known = commands().find(|c| *c == command);
    for word in words.iter().take_while(|w| *w != "--") {
        match word.to_str() {
            Some("--help" | "-h") => return Ok(Call::Help(help::of(known.unwrap_or_default()))),
            Some("--version" | "-V") => return Ok(Call::Version),
            _ => {}
        }
    }
    let wrong = |text: String| Wrong { text, command: known.map(str::to_string) };
    if words.is_empty() {
        return Err(wrong("no command is given".to_string()));
    }
    if command == "help" {
        let about = words.get(1).and_then(|w| w.to_str()).unwrap_or_default();
        return Ok(Call::Help(help::of(about)));
    }
    let split = split(&command, words.into_iter().skip(1));
    split.and_then(|words| call(&command, words)).map_err(wrong)
}

fn call(command: &str, words: Words) -> Result<Call, String> {
    match command {
        "info" => Ok(Call::Info(files(&words, "info")?, Blocks(words.has("--blocks")), json(&words))),
        "check" => check(&words).map(Call::Check),
        "decode" => decode(&words).map(Call::Decode),
        "tighten" => make(&words, "tighten", Kind::Tight).map(Call::Make),
        "copy" => make(&words, "copy", kind_of_copy(&words)?).map(Call::Make),
        "compare" => compare(&words).map(Call::Compare),
        "lamp" => lamp(&words).map(Call::Lamp),
        "size" => size(&words).map(Call::Size),
        "lines" => lines(&words).map(Call::Lines),
        "write" => write(&words).map(Call::Write),
        "plan" => plan(&words).map(Call::Plan),
        "save" => save(&words).map(Call::Save),
        "codes" => numbers(&words).map(Call::Codes),
        _ => Ok(Call::Manual),
    }
}

fn json(words: &Words) -> Json {
    Json(words.has("--json"))
}

fn quiet(words: &Words) -> Quiet {
    Quiet(words.has("--quiet"))
}

fn force(words: &Words) -> Force {
    Force(words.has("--force"))
}

/// The files and folders that a command reads.
fn files(words: &Words, command: &str) -> Result<Vec<PathBuf>, String> {
    let files = words.files();
    if files.is_empty() {
        return Err(format!("{command} needs a file or a folder"));
    }
    once(&files)?;
    Ok(files)
}

/// Standard input can be read only once.
fn once(read: &[PathBuf]) -> Result<(), String> {
    match read.iter().filter(|f| *f == Path::new("-")).count() {
        0 | 1 => Ok(()),
        _ => Err("standard input is named twice".to_string()),
    }
}

/// The plain words, and the output, which is the last of them or stands after --output.
fn with_output(words: &Words, needs: &str) -> Result<(Vec<PathBuf>, PathBuf), String> {
    let mut files = words.files();
    let out = words.file("--output").or_else(|| files.pop()).ok_or(needs)?;
    Ok((files, out))
}

/// As many inputs as a command takes, and its output.
fn some<const N: usize>(words: &Words, needs: &str) -> Result<([PathBuf; N], PathBuf), String> {
    let (files, out) = with_output(words, needs)?;
    let files: [PathBuf; N] = files.try_into().map_err(|_| needs.to_string())?;
    Ok((files, out))
}

fn threads(words: &Words) -> Result<usize, String> {
    // As many as this machine has, or one if it does not say.
    let Some(text) = words.value("--threads") else { return Ok(std::thread::available_parallelism().map_or(1, |n| n.get())) };
    text.parse().ok().filter(|n| (1..=1024).contains(n)).ok_or_else(|| format!("--threads takes a number from 1 to 1024: not {text}"))
}

fn tile_of(words: &Words) -> Result<Option<fuji_compressed::ColorTile>, String> {
    words.value("--tile").map(tile::of).transpose()
}

fn check(words: &Words) -> Result<Check, String> {
    let blocks = Blocks(words.has("--blocks"));
    Ok(Check { files: files(words, "check")?, blocks, json: json(words), quiet: quiet(words), threads: threads(words)? })
}

fn decode(words: &Words) -> Result<Decode, String> {
    let region = words.value("--region").map(region).transpose()?;
    let (windowed, partial) = (Windowed(words.has("--windowed")), Partial(words.has("--partial")));
    let from = words.file("--from");
    if from.is_some() && (windowed.0 || partial.0) {
        return Err(format!("decode takes --from or --{}, not both", if windowed.0 { "windowed" } else { "partial" }));
    }
    let (files, place) = files_and_place(words, "decode", "decode needs a stream or camera file and an output")?;
    let read = files.iter().chain(&from).cloned();
    once(&read.collect::<Vec<_>>())?;
    if let Some(from) = &from {
        for_one(from, &files, "a state")?;
    }
    let format = match words.value("--format") {
        Some(name) => Format::of(name).ok_or_else(|| format!("unknown format {name}: use png, pgm or raw"))?,
        // What is read is not written over, whatever its ending is, and that is said later.
        None if place.is_folder || files.contains(&place.out) => Format::Pgm,
        None => Format::of_ending(&place.out)?,
    };
    let look = Look { format, preview: words.has("--preview") };
    if look.preview && look.format == Format::Raw {
        return Err("a preview is pgm or png".to_string());
    }
    let tile = tile_of(words)?;
    let call = Decode { files, place, region, tile, look, windowed, partial, from, threads: threads(words)?, quiet: quiet(words) };
    apart(&call.files, &call.place, Some(format))?;
    Ok(call)
}

/// What comes through standard input comes only once, and so serves one file.
fn for_one(read: &Path, files: &[PathBuf], what: &str) -> Result<(), String> {
    match read == Path::new("-") && (files.len() > 1 || files[0].is_dir()) {
        true => Err(format!("{what} from standard input is for one file")),
        false => Ok(()),
    }
}

/// Several files, or those of a folder, go into a folder.
fn files_and_place(words: &Words, command: &str, needs: &str) -> Result<(Vec<PathBuf>, Place), String> {
    let (files, out) = with_output(words, needs)?;
    if files.is_empty() {
        return Err(needs.to_string());
    }
    once(&files)?;
    let is_folder = out.is_dir();
    if !is_folder && files.len() > 1 {
        return Err(format!("{} is not a folder, and there are {} files to {command}", out.display(), files.len()));
    }
    if !is_folder && files[0].is_dir() {
        return Err(format!("{} is not a folder, but {} is: create a folder for the output", out.display(), files[0].display()));
    }
    Ok((files, Place { out, is_folder, force: force(words) }))
}

/// No two outputs may go to one file.
fn apart(files: &[PathBuf], place: &Place, format: Option<Format>) -> Result<(), String> {
    if !place.is_folder {
        return Ok(());
    }
    let all = inputs::all(files, Some(&place.out));
    let mut outputs: Vec<PathBuf> = all.iter().filter(|i| i.broken.is_none()).map(|i| place.of(i, format)).collect();
    outputs.sort();
    match outputs.windows(2).find(|two| two[0] == two[1]) {
        Some(two) => Err(format!("two outputs would be written to {}", two[0].display())),
        None => Ok(()),
    }
}

impl Place {
    /// Where what comes of an input goes; a picture has the ending of its format.
    pub fn of(&self, input: &inputs::Input, format: Option<Format>) -> PathBuf {
        if !self.is_folder {
            return self.out.clone();
        }
        let path = self.out.join(&input.under);
        format.map_or(path.clone(), |f| path.with_extension(f.extension()))
    }
}

fn region(text: &str) -> Result<Rect, String> {
    let wrong = || format!("a region is four numbers, X,Y,W,H, with a width and a height: not {text}");
    let numbers: Vec<u32> = text.split(',').map(|n| n.parse().map_err(|_| wrong())).collect::<Result<_, _>>()?;
    match numbers[..] {
        [x, y, width, height] if width > 0 && height > 0 => Ok(Rect::new(x, y, width, height)),
        _ => Err(wrong()),
    }
}

fn kind_of_copy(words: &Words) -> Result<Kind, String> {
    match (words.value("--base"), words.file("--plan")) {
        (Some(_), Some(_)) => Err("copy takes --base or --plan, not both".to_string()),
        (None, None) => Err("copy needs --base N, the same for all lines, or --plan PLAN".to_string()),
        (Some(base), None) => base.parse().map(Kind::Base).map_err(|_| format!("a base is a number from 0 to 255: not {base}")),
        (None, Some(plan)) => Ok(Kind::Plan(plan)),
    }
}

fn make(words: &Words, command: &str, kind: Kind) -> Result<Make, String> {
    let (files, place) = files_and_place(words, command, &format!("{command} needs a stream or camera file and an output"))?;
    if let Kind::Plan(plan) = &kind {
        once(&files.iter().chain([plan]).cloned().collect::<Vec<_>>())?;
        for_one(plan, &files, "a plan")?;
    }
    apart(&files, &place, None)?;
    Ok(Make { files, place, kind, dry: Dry(words.has("--dry-run")), quiet: quiet(words), threads: threads(words)? })
}

fn compare(words: &Words) -> Result<Compare, String> {
    let files: [PathBuf; 2] = words.files().try_into().map_err(|_| "compare needs two streams or camera files")?;
    once(&files)?;
    Ok(Compare { files, tile: tile_of(words)?, json: json(words), quiet: quiet(words), threads: threads(words)? })
}

fn lamp(words: &Words) -> Result<Lamp, String> {
    let (csv, lines, svg) = (words.has("--csv"), words.has("--lines"), words.file("--svg"));
    if lines && !csv {
        return Err("--lines needs --csv".to_string());
    }
    if csv && svg.is_some() {
        return Err("lamp takes --csv or --svg, not both".to_string());
    }
    let order = match words.value("--by") {
        None | Some("name") => Order::Name,
        Some("time") => Order::Time,
        Some(other) => return Err(format!("--by takes name or time: not {other}")),
    };
    let (force, quiet) = (force(words), quiet(words));
    Ok(Lamp { files: files(words, "lamp")?, csv, lines, svg, order, force, quiet, threads: threads(words)? })
}

fn size(words: &Words) -> Result<Size, String> {
    let (files, samples) = (files(words, "size")?, words.file("--samples"));
    if samples.is_some() && files.len() > 1 {
        return Err("--samples takes one header".to_string());
    }
    once(&files.iter().chain(&samples).cloned().collect::<Vec<_>>())?;
    Ok(Size { files, samples, at_most: words.has("--at-most"), json: json(words), threads: threads(words)? })
}

fn lines(words: &Words) -> Result<Lines, String> {
    let needs = "lines needs a stream or camera file, a block and an output";
    let ([file, block], out) = some(words, needs)?;
    let block = block.to_str().and_then(|b| b.parse().ok()).ok_or(needs)?;
    Ok(Lines { file, block, out, force: force(words) })
}

fn write(words: &Words) -> Result<Write, String> {
    let bases = match (words.file("--bases"), words.file("--plan")) {
        (Some(_), Some(_)) => return Err("write takes --bases or --plan, not both".to_string()),
        (Some(bytes), None) => Some(Bases::Bytes(bytes)),
        (None, plan) => plan.map(Bases::Plan),
    };
    let ([header, samples], out) = some(words, "write needs a header, samples and an output")?;
    let read = [header.clone(), samples.clone()].into_iter().chain(bases.iter().map(|b| b.file().to_path_buf()));
    once(&read.collect::<Vec<_>>())?;
    Ok(Write { header, samples, bases, out, force: force(words) })
}

fn plan(words: &Words) -> Result<Plan, String> {
    let ([header, plan], out) = some(words, "plan needs a header, a plan and an output")?;
    once(&[header.clone(), plan.clone()])?;
    Ok(Plan { header, plan, out, force: force(words) })
}

fn save(words: &Words) -> Result<Save, String> {
    let needs = "save needs a stream or camera file, a block or the word all, a line and an output";
    let ([file, block, line], out) = some(words, needs)?;
    let number = |word: &Path| word.to_str().and_then(|w| w.parse().ok()).ok_or(needs);
    let block = if block == Path::new("all") { None } else { Some(number(&block)?) };
    Ok(Save { file, block, line: number(&line)?, out, force: force(words) })
}

/// The depth, k and length of a sheet; whether there is such a sheet is the library's to say.
fn numbers(words: &Words) -> Result<[u32; 3], String> {
    let read: Vec<u32> = words.plain.iter().filter_map(|w| w.to_str()?.parse().ok()).collect();
    let three = read.try_into().ok().filter(|_| words.plain.len() == 3);
    three.ok_or("codes needs three numbers: a depth, a k and a length".to_string())
}
