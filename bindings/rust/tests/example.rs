//! The examples, run as programs: `ranges`, which `cargo test` builds, and examples/c/list.c of the
//! project, which is built here. And `first`, which README.md at the top of the repository has.

mod made;

use made::{a_and_b, made};
use std::path::{Path, PathBuf};
use std::process::{Command, Output};
use strutpebble::ByteOrder::Little;

/// The top of the project, which has its C header in `include`: beside this folder in a release,
/// and one further up in the repository.
fn top() -> PathBuf {
    let above = ["..", "../.."].map(|up| Path::new(env!("CARGO_MANIFEST_DIR")).join(up));
    let has_header = |folder: &&PathBuf| folder.join("include/strutpebble.h").exists();
    above.iter().find(has_header).expect("no include/strutpebble.h above this folder").clone()
}

/// A place for a file of this run.
fn temporary(name: &str) -> PathBuf {
    std::env::temp_dir().join(format!("strutpebble-{}-{name}", std::process::id()))
}

/// Runs a program on a file of these bytes, under an emulator where cargo's tests run under one.
fn run(program: &Path, name: &str, file: &[u8], words: &[&str]) -> (i32, String, String) {
    let path = temporary(name);
    std::fs::write(&path, file).unwrap();
    let mut command = match std::env::var("CARGO_TARGET_X86_64_UNKNOWN_LINUX_GNU_RUNNER") {
        Ok(runner) => Command::new(runner),
        Err(_) => Command::new("env"),
    };
    let output = command.arg(program).arg(&path).args(words).output();
    std::fs::remove_file(&path).unwrap();
    let Output { status, stdout, stderr } = output.unwrap();
    (status.code().unwrap(), String::from_utf8(stdout).unwrap(), String::from_utf8(stderr).unwrap())
}

/// What `ranges` says of a file.
fn asked(name: &str, file: &[u8], words: &[&str]) -> (i32, String, String) {
    let tests = std::env::current_exe().unwrap();
    let program = tests.parent().unwrap().parent().unwrap().join("examples/ranges");
    assert!(program.exists(), "{}: run `cargo build --example ranges` first", program.display());
    run(&program, name, file, words)
}

#[test]
fn a_tensor_by_number_and_by_name() {
    let file = a_and_b(3, Little);
    assert_eq!(asked("number", &file, &["1"]), (0, "128 134\n".into(), "".into()));
    assert_eq!(asked("name", &file, &["a"]), (0, "96 116\n".into(), "".into()));
    assert_eq!(asked("equals", &file, &["=b"]), (0, "128 134\n".into(), "".into()));
}

#[test]
fn no_such_tensor() {
    let (status, out, message) = asked("none", &a_and_b(3, Little), &["2"]);
    assert_eq!((status, out.as_str()), (1, ""));
    assert!(message.ends_with("the header has no such tensor\n"), "{message}");
}

#[test]
fn more_bytes_are_wanted() {
    let mut file = made(3, Little, 1, 1);
    file.key("k", 8).text(vec![b'x'; 70000]).tensor("t", &[8], 0, 0);
    let (status, out, message) = asked("short", &file.bytes, &["0"]);
    assert_eq!((status, out.as_str()), (1, ""));
    let wanted = "refused 1 at byte 45: the header does not end inside these bytes: fetch more \
                  (give a number of bytes above 65536)\n";
    assert!(message.ends_with(wanted), "{message}");
    // A file that itself ends too soon.
    let (status, _, message) = asked("cut", &file.bytes[..50], &["0"]);
    assert_eq!(status, 1);
    assert!(message.ends_with("fetch more (the file has no more)\n"), "{message}");
    // The header ends at 70078, and the data starts at 70080.
    assert_eq!(asked("long", &file.bytes, &["0", "80000"]), (0, "70080 70112\n".into(), "".into()));
}

#[test]
fn called_wrongly() {
    assert_eq!(asked("words", b"", &[]).0, 2);
    assert_eq!(asked("bytes", b"", &["0", "many"]).0, 2);
    assert_eq!(asked("nogguf", b"ABCDEFGH", &["0"]).0, 1);
}

#[test]
fn the_first_use_is_the_readmes() {
    let here = Path::new(env!("CARGO_MANIFEST_DIR"));
    let is_release = !top().join("bindings/rust").exists();
    let readme = std::fs::read_to_string(top().join("README.md")).unwrap_or_default();
    let Some(shown) = readme.split("```rust\n").nth(1) else {
        // A release may show no Rust in its README.md.
        assert!(is_release, "README.md at the top shows no Rust");
        return;
    };
    let example = std::fs::read_to_string(here.join("examples/first.rs")).unwrap();
    let (_, code) = example.split_once("\n\n").unwrap();
    assert_eq!(shown.split("```").next().unwrap(), code);
}

/// Builds the C example, whose name this gives. A warning is an error.
fn c_example() -> PathBuf {
    let program = temporary("list");
    let built = Command::new(std::env::var("CC").unwrap_or("cc".into()))
        .args(["-std=c11", "-Wall", "-Wextra", "-Wpedantic", "-Werror", "-O2", "-I"])
        .arg(top().join("include"))
        .arg(top().join("examples/c/list.c"))
        .args([env!("STRUTPEBBLE_ARCHIVE"), "-o"])
        .arg(&program)
        .status();
    assert!(built.unwrap().success());
    program
}

/// A header with 9000 tokens and two tensors, and their data: its entries take 24 + 45 + 17 + 17 +
/// 14 + 40 + 9000 * 9 = 81157 bytes, and the tensors 33 and 41. So the header ends at 81231, the
/// data starts at 81248, and the second tensor, at 32, has 6 bytes.
fn long_file() -> Vec<u8> {
    let mut file = made(3, Little, 2, 5);
    file.key("general.architecture", 8).text("llama");
    file.key("i", 5).number(4, 0xffff_fff9);
    file.key("f", 6).number(4, 0x3fc0_0000);
    file.key("b", 7).number(1, 2);
    file.array("tokenizer.tokens", 8, 9000);
    for _ in 0..9000 {
        file.text("x");
    }
    file.tensor("a", &[5], 0, 0).tensor("b", &[3, 1], 1, 32);
    file.bytes.resize(81286, 0);
    file.bytes
}

#[test]
fn the_c_example() {
    let (program, file) = (c_example(), long_file());
    let entries = "version 3, little-endian, alignment 32, data from 81248 on\n\
                   general.architecture string llama\ni i32 -7\nf f32 1.5\nb bool true\n\
                   tokenizer.tokens array of 9000 string\n";
    let a = "a kind 0 [5] 20 bytes from 81248 on\n";
    let b = "b kind 1 [3 1] 6 bytes from 81280 on\n";
    let past = "refused 20 at 1: the tensor's data ends after the end of the file\n";
    let more = "refused 1 at 16: the header does not end inside these bytes: fetch more\n";
    let whole = run(&program, "whole", &file, &[]);
    let short = run(&program, "one-less", &file[..81285], &[]);
    let cut = run(&program, "no-header", &file[..20], &[]);
    let wrong = run(&program, "two-words", b"", &["more"]);
    std::fs::remove_file(&program).unwrap();
    assert_eq!(whole, (0, format!("{entries}{a}{b}"), "".into()));
    assert_eq!(short, (1, format!("{entries}{a}{past}"), "".into()));
    assert_eq!(cut, (1, more.into(), "".into()));
    assert_eq!(wrong, (2, "".into(), "usage: list FILE\n".into()));
}
