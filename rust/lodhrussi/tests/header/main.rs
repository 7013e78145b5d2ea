//! The C header: programs written against it, compiled, linked and run.

mod helpers;

use std::path::{Path, PathBuf};
use std::process::Command;

const WRITTEN: &str = "\
read 0 9 1 0 1 0 1
read 0 9 0 2 3 4 1
read 0 9 1 2 3 4 2
list 0 9
0 0 0 2 3 0 9
open 0 9 32
strike 0 9 1 6
strike 0 9 0 9
strike 0 9 2 9
strike 11 0 9 9
settle 0 9 16
judge 0 9 32 16 1
judge 2 5 9 9 9
read 5 1 9 9 9 9 9
read 6 4 9 9 9 9 9
read 16 4 9 9 9 9 9
read 17 8 9 9 9 9 9
read 7 6 9 9 9 9 9
import 0 9 7
03 00 03 01 20 00 01 09 09 09
import 0 9 7
03 00 03 01 20 00 01 09 09 09
import 21 0 9
09 09 09 09 09 09 09 09 09 09
import 18 15 9
09 09 09 09 09 09 09 09 09 09
import 19 15 9
09 09 09 09 09 09 09 09 09 09
import 19 11 9
09 09 09 09 09 09 09 09 09 09
import 0 9 0
09 09 09 09 09 09 09 09 09 09
export 0 9 20
53 75 62 43 6C 61 73 73 4F 66 28 3A 74 30 20 3A 74 31 29 0A 09 09
export 0 9 20
53 75 62 43 6C 61 73 73 4F 66 28 3A 74 30 20 3A 74 31 29 0A 09 09
export 21 0 9
09 09 09 09 09 09 09 09 09 09 09 09 09 09 09 09 09 09 09 09 09 09
export 20 9 9
09 09 09 09 09 09 09 09 09 09 09 09 09 09 09 09 09 09 09 09 09 09
export 2 9 9
09 09 09 09 09 09 09 09 09 09 09 09 09 09 09 09 09 09 09 09 09 09
open 0 9 12
strike 0 9 1 7
strike 0 9 1 6
strike 0 9 2 9
judge 0 9 12 9 1
read 8 4 9 9 9 9 9
read 17 6 9 9 9 9 9
export 20 4 9
09 09 09 09 09 09 09 09 09 09 09 09 09 09 09 09 09 09 09 09 09 09
check 0 9 0 9 9
8000000000000000 9 9 9 9
check 0 9 0 9 9
0 100800000000 80010 0 9
check 0 9 1 0 9
20000 9 9 9 9
check 0 9 1 1 9
8001000000000009 9 9 9 9
check 0 9 1 0 9
10200020001 0 0 0 9
check 0 9 2 0 1
7 9 9 9 9
check 0 9 2 2 1
7 9 9 9 9
check 2 5 9 9 9
9 9 9 9 9
check 10 0 9 9 9
9 9 9 9 9
check 22 0 9 9 9
9 9 9 9 9
check 23 0 9 9 9
9 9 9 9 9
check 24 0 9 9 9
9 9 9 9 9
check 25 0 9 9 9
9 9 9 9 9
draw 0 9 9
40 00 00 40 00 00 40 00 00 kept 82
1 7
draw 0 9 90
40 00 00 40 00 00 40 00 00 40 00 00 40 00 00 40 00 00 \
41 00 00 03 00 00 41 01 00 03 00 00 \
41 01 00 04 00 00 41 01 00 05 00 00 \
41 02 00 05 00 00 41 03 00 00 00 00 \
41 03 00 01 00 00 41 03 00 05 00 00 \
41 04 00 01 00 00 41 05 00 01 00 00 \
41 05 00 02 00 00 41 05 00 03 00 00 kept 1
9 7
draw 0 9 90
40 00 00 40 00 00 40 00 00 40 00 00 40 00 00 40 00 00 \
41 00 00 03 00 00 41 01 00 03 00 00 \
41 01 00 04 00 00 41 01 00 05 00 00 \
41 02 00 05 00 00 41 03 00 00 00 00 \
41 03 00 01 00 00 41 03 00 05 00 00 \
41 04 00 01 00 00 41 05 00 01 00 00 \
41 05 00 02 00 00 41 05 00 03 00 00 kept 1
9 7
draw 21 0 9
kept 91
9 7
draw 26 0 9
kept 91
0 7
draw 27 0 9
kept 91
FFFFFFFFFFFFFFFF 7
draw 2 5 9
kept 91
7 7
draw 10 0 9
kept 91
7 7
2448 checked 9 0 9 9
CCCCCCCC00000000 CCCCCCCC00000000 9 9 9 9 9 9 9 9
25569 checked 9 0 9 9
D5D0D5D D5D0D5D 5D5D5D5D5D5D5D5D 5D5D5D5D5D5D5D5D C4C0D5D C4C0D5D 4C4C5D5D 4C4C5D5D 9 9
";

/// A file of the repository.
fn at(path: &str) -> PathBuf {
    Path::new(env!("CARGO_MANIFEST_DIR"))
        .join("../..")
        .join(path)
}

/// What a program of this folder writes, compiled with warnings as errors.
fn written_by(source: &str, compiler: &str, language: &[&str]) -> String {
    let name = format!("{source}-{compiler}");
    let program = Path::new(env!("CARGO_TARGET_TMPDIR")).join(name);
    let compiled = Command::new(compiler)
        .args(language)
        .args(["-pedantic", "-Wall", "-Wextra", "-Werror", "-I"])
        .arg(at("include"))
        .arg(at("rust/lodhrussi/tests/header").join(source))
        .args(["-x", "none"])
        .arg(env!("LODHRUSSI_LIBRARY"))
        .arg("-o")
        .arg(&program)
        .status()
        .expect("the compiler can be run");
    assert!(compiled.success(), "{compiler} refuses {source}");
    let output = Command::new(&program).output().expect("it can be run");
    assert!(output.status.success());
    String::from_utf8(output.stdout).expect("text")
}

const C: &[&str] = &["-std=c99", "-x", "c"];
const CPP: &[&str] = &["-std=c++11", "-x", "c++"];

#[test]
fn every_call_from_c() {
    assert_eq!(written_by("worked.c", "cc", C), WRITTEN);
}

#[test]
fn every_call_from_cpp() {
    assert_eq!(written_by("worked.c", "c++", CPP), WRITTEN);
}
