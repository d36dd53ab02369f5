//! Finds the original's files, and writes the lines that make them modules of this crate. None of them is copied but for `opened`.
use std::path::PathBuf;
use std::{env, fs};

const NONE: &str = "FLASHRAW_SRC must name the original's folder: it holds crates/flashraw-core and crates/flashraw-codecs";

fn main() {
    println!("cargo::rerun-if-env-changed=FLASHRAW_SRC");
    let source = PathBuf::from(env::var_os("FLASHRAW_SRC").expect(NONE));
    let out = PathBuf::from(env::var_os("OUT_DIR").unwrap());
    let core = source.join("crates/flashraw-core/src");
    let codec = source.join("crates/flashraw-codecs/src/fuji_compressed.rs");
    // A child module sees its parent's private items.
    let mut opened = fs::read_to_string(&codec).expect(NONE);
    for part in ["src/leaves.rs", "src/blocks.rs"] {
        println!("cargo::rerun-if-changed={part}");
        opened += &fs::read_to_string(part).unwrap();
    }
    fs::write(out.join("opened.rs"), opened).unwrap();
    let module = |head: &str, file: PathBuf| {
        println!("cargo::rerun-if-changed={}", file.display());
        format!("#[path = {:?}]\n{head};\n", file)
    };
    let text = [
        module("pub mod bits", core.join("bits.rs")),
        module("pub mod types", core.join("types.rs")),
        module("mod original_par", core.join("par.rs")),
        module("pub mod fuji_compressed", codec),
        module("pub mod opened", out.join("opened.rs")),
    ];
    fs::write(out.join("modules.rs"), text.concat()).unwrap();
}
