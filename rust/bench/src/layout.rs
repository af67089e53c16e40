//! Printing a layout of a million stripes, each program in a process of its own.

use crate::figures::{hand_on, LIBRARY, PLAIN};
use crate::sheets::sheet;
use crate::time::{contestant, timed_programs, Clock};
use std::fs::File;
use std::path::{Path, PathBuf};
use std::process::{Command, Stdio};
use std::time::Duration;

pub fn measure(clock: &Clock) {
    // 9,524 full tables of 105 stripes.
    let sheet = sheet("projective plane of order 4", 9524, 12);
    let path = std::env::temp_dir().join(format!("shqemtuli-bench-{}", std::process::id()));
    std::fs::write(&path, &sheet).expect("a temporary file");
    let ours = program();
    if ours.exists() {
        compare(clock, &ours, &path);
    } else {
        eprintln!(
            "The layout program is not measured: there is no {}.",
            ours.display()
        );
    }
    std::fs::remove_file(&path).ok();
}

/// SHQEMTULI_LAYOUT, or where `rt run` in crates/print_layout writes it.
fn program() -> PathBuf {
    match std::env::var_os("SHQEMTULI_LAYOUT") {
        Some(path) => PathBuf::from(path),
        None => Path::new(env!("CARGO_MANIFEST_DIR")).join("../../crates/print_layout/out/print_layout"),
    }
}

fn compare(clock: &Clock, ours: &Path, sheet: &Path) {
    let own = std::env::current_exe().expect("this program");
    let (ours, plain) = ((ours, None), (own.as_path(), Some("plain-layout")));
    let text = output(ours, sheet);
    assert!(text == output(plain, sheet), "the layouts differ");
    let fewer = Clock {
        runs: clock.runs / 5,
    };
    let times = fewer.best([
        contestant(|| run(ours, sheet)),
        contestant(|| run(plain, sheet)),
    ]);
    hand_on(
        "layout",
        &text.len().to_string(),
        1,
        [LIBRARY, PLAIN],
        times,
    );
}

/// A program and its argument, if any.
type Program<'a> = (&'a Path, Option<&'a str>);

fn command((program, argument): Program, sheet: &Path) -> Command {
    let mut command = Command::new(program);
    command.args(argument);
    command.stdin(File::open(sheet).expect("the sheet"));
    command
}

fn output(program: Program, sheet: &Path) -> Vec<u8> {
    let output = command(program, sheet).output().expect("it runs");
    output.stdout
}

fn run(program: Program, sheet: &Path) -> Duration {
    let mut command = command(program, sheet);
    command.stdout(Stdio::null());
    timed_programs(|| assert!(command.status().expect("it runs").success()))
}
