//! The functions for C stand in three texts: the proved sources, include/fuji_compressed.h and src/ffi.rs. All three must say the same.
use fuji_compressed::Scratch;
use std::path::{Path, PathBuf};
use std::process::Command;
use std::{env, fs};

/// A function's name and the types of its parameters, as C has them.
type Function = (String, Vec<String>);

fn root() -> PathBuf {
    Path::new(env!("CARGO_MANIFEST_DIR")).join("../..")
}

fn text(file: &str) -> String {
    fs::read_to_string(root().join(file)).unwrap_or_else(|e| panic!("{file}: {e}"))
}

fn sorted(mut functions: Vec<Function>) -> Vec<Function> {
    functions.sort();
    functions
}

/// The texts between `start` and `end`, wherever they stand.
fn between<'t>(text: &'t str, start: &str, end: &str) -> Vec<&'t str> {
    text.split(start).skip(1).map(|rest| rest.split(end).next().unwrap()).collect()
}

/// `NAME(A, B` as a function; `types` gives the types of one parameter.
fn function(head: &str, types: impl Fn(&str) -> Vec<String>) -> Function {
    let (name, parameters) = head.split_once('(').unwrap();
    let all = parameters.split(',').map(str::trim).filter(|p| !p.is_empty());
    (name.trim().to_string(), all.flat_map(types).collect())
}

fn number(rust: &str) -> &'static str {
    match rust {
        "u8" => "uint8_t",
        "u16" => "uint16_t",
        "u32" => "uint32_t",
        "usize" => "size_t",
        "Record" => "fuji_record",
        _ => panic!("no type of C is given for {rust}"),
    }
}

/// What lies behind a reference or a pointer: an array, or the first of several.
fn behind(is_const: bool, what: &str) -> String {
    let before = if is_const { "const " } else { "" };
    match what.strip_prefix('[').and_then(|w| w.strip_suffix(']')).and_then(|w| w.split_once(';')) {
        Some((item, count)) => format!("{before}{}[{}]", number(item), count.trim()),
        None => format!("{before}{}*", number(what)),
    }
}

/// A parameter of a proved function. A slice is a pointer and a length.
fn proved_types(parameter: &str) -> Vec<String> {
    let rust = parameter.split_once(':').unwrap().1.trim();
    let Some(lent) = rust.strip_prefix('&') else { return vec![number(rust).to_string()] };
    let (is_const, what) = match lent.strip_prefix("mut ") {
        Some(what) => (false, what),
        None => (true, lent),
    };
    if what.contains(';') {
        return vec![behind(is_const, what)];
    }
    vec![behind(is_const, what.trim_matches(['[', ']'])), "size_t".to_string()]
}

fn pointer_types(parameter: &str) -> Vec<String> {
    let rust = parameter.split_once(':').unwrap().1.trim();
    let pointers = [("*const ", true), ("*mut ", false)];
    let found = pointers.iter().find_map(|(start, is_const)| rust.strip_prefix(start).map(|what| behind(*is_const, what)));
    vec![found.unwrap_or_else(|| number(rust).to_string())]
}

/// `const uint8_t *stream` as `const uint8_t*`, and `size_t range[2]` as `size_t[2]`.
fn header_types(parameter: &str) -> Vec<String> {
    let name = |c: char| c.is_alphanumeric() || c == '_';
    let (kind, after) = match parameter.split_once('[') {
        Some((before, count)) => (before, format!("[{count}")),
        None => (parameter, String::new()),
    };
    vec![format!("{}{after}", kind.trim_end_matches(name).replace(' ', "").replace("const", "const "))]
}

fn proved() -> Vec<Function> {
    let modules = ["streams", "planning", "decoding", "reading", "checkpoints", "writer", "copies"]
        .map(|m| format!("crates/fuji_compressed/src/{m}.rt"));
    let sources = modules.iter().map(|m| text(m)).collect::<String>() + &text("crates/tight_diagnosis_c/src/lib.rt");
    let heads = between(&sources, "#[unsafe(no_mangle)]\npub extern \"C\" fn ", ")\n");
    sorted(heads.iter().map(|h| function(h, proved_types)).collect())
}

#[test]
fn header_says_what_is_proved() {
    let header = text("include/fuji_compressed.h");
    let declared = between(&header, "\nvoid ", ");").iter().map(|h| function(h, header_types)).collect();
    assert_eq!(sorted(declared), proved());
    assert!(proved().len() >= 7);
}

#[test]
fn wrapper_says_what_is_proved() {
    let declared = between(&text("rust/fuji-compressed/src/ffi.rs"), "pub fn ", ");").iter().map(|h| function(h, pointer_types)).collect();
    assert_eq!(sorted(declared), proved());
}

#[test]
fn header_has_the_sizes_of_scratch() {
    let header = text("include/fuji_compressed.h");
    for (name, size) in
        [("SCRATCH_SAMPLES", Scratch::SAMPLES), ("WINDOW_SAMPLES", Scratch::WINDOW_SAMPLES), ("SCRATCH_RECORDS", Scratch::RECORDS)]
    {
        assert!(header.contains(&format!("\n#define FUJI_{name} {size}\n")), "{name}");
    }
}

/// A program in C is compiled with the header, linked with the library, and run on the headers of marked cases k and l.
#[test]
fn c_program_runs() {
    let folder = env::temp_dir().join(format!("fuji-c-{}", std::process::id()));
    fs::create_dir_all(&folder).unwrap();
    let (source, program) = (folder.join("k.c"), folder.join("k"));
    fs::write(&source, include_str!("k.c")).unwrap();
    let library = env::var_os("FUJI_LIBRARY").map_or(root().join("target/staticlib"), PathBuf::from);
    let made = Command::new("cc")
        .args(["-std=c99", "-Wall", "-Wextra", "-Werror", "-pedantic", "-I"])
        .args([root().join("include"), source])
        .arg("-o")
        .args([&program, &library.join("libfuji_compressed.a")])
        .status()
        .unwrap();
    assert!(made.success());
    let output = Command::new(&program).output().unwrap();
    fs::remove_dir_all(&folder).unwrap();
    assert_eq!(String::from_utf8(output.stdout).unwrap(), "1 0 14 6 768 768 768 1 1, refusal 0, 14 with samples 0 7, then 2\n");
}
