//! The C example is compiled against the header and the archive, and prints document 01's answers.

use std::path::{Path, PathBuf};
use std::process::Command;

const EXPECTED: &str = "\
open: number 0
image of 36 bytes, 24 addresses
write 5A at 0: number 0, 2 read, 2 written
write 0F at 1: number 0, 2 read, 2 written
parity at byte 18: 55
lose disk 0: number 0
read at 0: number 0, 5A, 2 read
write FF at 0: number 0, 1 read, 1 written
parity: F0
rebuild: number 0, units read: 0 6 6 6 0
0:0 holds FF
scrub: number 0, 0 wrong
";

const WARNINGS: [&str; 5] = ["-std=c11", "-Wall", "-Wextra", "-Werror", "-pedantic"];

fn file(path: &str) -> PathBuf {
    Path::new(env!("CARGO_MANIFEST_DIR")).join(path)
}

#[test]
fn the_c_example_prints_the_answers() {
    let program = Path::new(env!("CARGO_TARGET_TMPDIR")).join("shelf");
    let compiled = Command::new("cc")
        .args(WARNINGS)
        .arg("-I")
        .arg(file("include"))
        .arg(file("examples/shelf.c"))
        .arg(env!("SHQEMTULI_ARCHIVE"))
        .arg("-o")
        .arg(&program)
        .status()
        .expect("there is a C compiler, cc");
    assert!(compiled.success());
    let output = Command::new(&program).output().expect("the example runs");
    assert!(output.status.success());
    assert_eq!(String::from_utf8_lossy(&output.stdout), EXPECTED);
}
