//! The text that the program print_layout writes, for sheets valid and damaged, however its input comes.

use designs::{catalogue, damaged, from_hex, rounds, seeded, Sheet};
use std::io::Write;
use std::path::{Path, PathBuf};
use std::process::{Command, Stdio};

const PER_ROUND: u64 = 40;

/// How to start the program, or none where the tests of it are to be left out. SHQEMTULI_LAYOUT names one for this
/// machine; without it, it is what the kit linked, for x86-64, and another machine has an emulator run it.
fn program() -> Option<Vec<PathBuf>> {
    if std::env::var_os("SHQEMTULI_NO_LAYOUT").is_some() {
        eprintln!("SHQEMTULI_NO_LAYOUT is set: the layout program is not tried");
        return None;
    }
    if let Some(path) = std::env::var_os("SHQEMTULI_LAYOUT") {
        return Some(vec![PathBuf::from(path)]);
    }
    let here = Path::new(env!("CARGO_MANIFEST_DIR"));
    let program = here.join("../crates/print_layout/out/print_layout");
    assert!(
        program.exists(),
        "there is no {}: build it with `rt run` in crates/print_layout, or set SHQEMTULI_NO_LAYOUT",
        program.display()
    );
    if cfg!(target_arch = "x86_64") {
        return Some(vec![program]);
    }
    Some(vec![here.join("emulated/run"), program])
}

/// What the program writes when its input comes in pieces of this length.
fn printed(program: &[PathBuf], input: &[u8], piece: usize) -> String {
    let mut child = Command::new(&program[0])
        .args(&program[1..])
        .stdin(Stdio::piped())
        .stdout(Stdio::piped())
        .spawn()
        .expect("the layout program starts");
    let mut stdin = child.stdin.take().unwrap();
    let input = input.to_vec();
    let feeder = std::thread::spawn(move || {
        for part in input.chunks(piece) {
            // The program may close its input once it knows that the sheet is too long.
            if stdin.write_all(part).and_then(|()| stdin.flush()).is_err() {
                return;
            }
        }
    });
    let output = child.wait_with_output().expect("the layout program ends");
    feeder.join().unwrap();
    assert!(output.status.success(), "{}", output.status);
    String::from_utf8(output.stdout).expect("the layout is text")
}

fn alike(program: &[PathBuf], sheet: &[u8], piece: usize) {
    let (given, wanted) = (printed(program, sheet, piece), model::layout(sheet));
    if given != wanted {
        let line = given
            .lines()
            .zip(wanted.lines())
            .find(|(one, other)| one != other);
        panic!("sheet {sheet:02x?}: the layouts differ, first at {line:?}");
    }
}

#[test]
fn layouts_are_alike() {
    let program = match program() {
        Some(program) => program,
        None => return,
    };
    let mut random = seeded("layout");
    let all = catalogue();
    for design in &all {
        let sheet = Sheet::new(design, 1, random.below(13));
        alike(&program, &sheet.bytes(), 4096);
    }
    for _ in 0..PER_ROUND * rounds() {
        let design = random.pick(&all).shuffled(&mut random);
        let sheet = Sheet::new(&design, 1 + random.below(3), random.below(13));
        alike(&program, &sheet.bytes(), 1 + random.index(2000));
        let wrong = damaged(&sheet, &[1 + random.below(9)], &mut random);
        if model::open(&wrong).1.stripes() < 10_000 {
            alike(&program, &wrong, 1 + random.index(2000));
        }
    }
}

#[test]
fn input_of_any_length_is_read() {
    let program = match program() {
        Some(program) => program,
        None => return,
    };
    let b = from_hex("10 42 00 10 00 10 00 10");
    alike(&program, &b, 1);
    for length in 0..b.len() {
        alike(&program, &b[..length], 3);
    }
    let mut longest = from_hex("10 42 40 00 00 10");
    longest.extend(from_hex("00 10 01").repeat(512));
    assert_eq!(model::open(&longest).0, 0);
    alike(&program, &longest, 1);
    for surplus in [1, 2, 500, 10_000, 1_000_000] {
        let mut long = longest.clone();
        long.resize(longest.len() + surplus, 0);
        alike(&program, &long, 4096);
    }
}

#[test]
fn a_long_layout_is_alike() {
    let program = match program() {
        Some(program) => program,
        None => return,
    };
    let plane = catalogue()
        .into_iter()
        .find(|design| design.name == "projective plane of order 4")
        .unwrap();
    alike(&program, &Sheet::new(&plane, 2000, 0).bytes(), 4096);
}
