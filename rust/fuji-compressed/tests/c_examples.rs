//! The examples in C: compiled as C99 with the address sanitizer and as C++17, with every warning an error, and run on the samples. Their results are held against
//! the pictures that the original decoded (python/tests/expected.json has their size) and against the wrapper.
use fuji_compressed::{FujiCompressed, tighten};
use std::path::{Path, PathBuf};
use std::process::Command;

fn root() -> PathBuf {
    Path::new(env!("CARGO_MANIFEST_DIR")).join("../..")
}

/// The example compiled by this compiler, or none where there is no such compiler.
fn compiled(compiler: &str, flags: &[&str], name: &str, test: &str) -> Option<PathBuf> {
    let out = Path::new(env!("CARGO_TARGET_TMPDIR")).join(format!("{compiler}-{name}-{test}"));
    let mut command = Command::new(compiler);
    command.args(flags).args(["-Wall", "-Wextra", "-Werror", "-O1"]).arg("-I").arg(root().join("include"));
    command.arg(root().join(format!("examples/c/{name}.c")));
    if compiler == "c++" {
        command.args(["-x", "none"]);
    }
    command.arg(root().join("target/staticlib/libfuji_compressed.a")).arg("-o").arg(&out);
    match command.output() {
        Ok(made) => assert!(made.status.success(), "{compiler} {name}: {}", String::from_utf8_lossy(&made.stderr)),
        Err(_) => {
            eprintln!("{compiler} is not here, and {name} is not tried with it");
            return None;
        }
    }
    Some(out)
}

/// An example in both languages, for one test: tests run at the same time.
fn programs(name: &str, test: &str) -> Vec<PathBuf> {
    let c = compiled("cc", &["-std=c99", "-fsanitize=address"], name, test);
    let cpp = compiled("c++", &["-x", "c++", "-std=c++17"], name, test);
    c.into_iter().chain(cpp).collect()
}

fn sample(name: &str) -> (PathBuf, Vec<u8>) {
    let path = root().join("samples").join(name);
    let bytes = std::fs::read(&path).unwrap();
    (path, bytes)
}

#[test]
fn decode_writes_the_picture() {
    let out = Path::new(env!("CARGO_TARGET_TMPDIR")).join("c-decode.pgm");
    for program in programs("decode", "picture") {
        for name in ["bayer.fcs", "escape.fcs", "xtrans.fcs"] {
            let (path, bytes) = sample(name);
            assert!(Command::new(&program).arg(path).arg(&out).status().unwrap().success());
            let h = FujiCompressed::new(&bytes).unwrap().header;
            let tile = match h.xtrans {
                true => ["110112", "112110", "201021", "112110", "110112", "021201"],
                false => ["010101", "121212", "010101", "121212", "010101", "121212"],
            };
            let tile = tile.map(|row| std::array::from_fn(|i| row.as_bytes()[i] - b'0'));
            let mut image = vec![0; (h.width * h.height) as usize];
            FujiCompressed::new(&bytes).unwrap().decode(&mut image, h.width, h.height, &tile).unwrap();
            let mut wanted = format!("P5\n{} {}\n{}\n", h.width, h.height, (1u32 << h.bits) - 1).into_bytes();
            wanted.extend(image.iter().flat_map(|s| s.to_be_bytes()));
            assert!(std::fs::read(&out).unwrap() == wanted, "{name}");
        }
    }
}

#[test]
fn tighten_writes_the_tight_stream() {
    let out = Path::new(env!("CARGO_TARGET_TMPDIR")).join("c-tight.fcs");
    for program in programs("tighten", "stream") {
        for name in ["bayer.fcs", "escape.fcs", "xtrans.fcs"] {
            let (path, bytes) = sample(name);
            assert!(Command::new(&program).arg(path).arg(&out).status().unwrap().success());
            let h = FujiCompressed::new(&bytes).unwrap().header;
            let mut wanted = vec![0; h.tightened_bound()];
            let length = tighten(&bytes, &mut wanted).unwrap();
            assert!(std::fs::read(&out).unwrap() == wanted[..length], "{name}");
        }
    }
}

#[test]
fn a_stream_that_is_refused_has_a_sentence() {
    let short = Path::new(env!("CARGO_TARGET_TMPDIR")).join("short.fcs");
    std::fs::write(&short, [0x49, 0x53]).unwrap();
    for program in programs("decode", "refused").into_iter().chain(programs("tighten", "refused")) {
        let done = Command::new(&program).arg(&short).arg("/dev/null").output().unwrap();
        assert!(!done.status.success());
        assert!(String::from_utf8_lossy(&done.stderr).contains("fewer than 16 bytes of header"));
    }
}
