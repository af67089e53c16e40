//! The library beside plain Rust, ISA-L and a plain copy, as tables of figures. `tools/bench --help` says how it is used.
//!
//! All contestants of a row run in turn in one process, on warm buffers, and the best of several runs counts. Before a row is
//! timed, what they give is compared. The page is measured in several processes, one after another, since a process has its
//! memory in other places each time; the best of them counts.

mod bulk;
mod calls;
mod figures;
mod isal;
mod layout;
mod memory;
mod opening;
mod options;
mod plain;
mod sections;
mod sheet_a;
mod sheets;
mod stripes;
mod table;
mod time;
mod units;

use figures::Figures;
use options::Options;
use sections::{Section, SECTIONS};
use std::process::{exit, Command, Stdio};

fn main() {
    let words: Vec<String> = std::env::args().skip(1).collect();
    match words.first().map(String::as_str) {
        Some("plain-layout") => plain::layout::print(),
        Some("measure") => measure(&words[1], &words[2]),
        _ => page(&Options::of(&words)),
    }
}

/// Measures one section here and prints its figures.
fn measure(section: &str, runs: &str) {
    let section = SECTIONS.iter().find(|known| known.name == section);
    let runs = runs.parse().expect("a number of runs");
    (section.expect("a section").measure)(&time::Clock { runs });
}

/// Prints a table for each section.
fn page(options: &Options) {
    if shqemtuli::EMULATED {
        eprintln!(
            "Not measured: this machine is not x86-64, so the library runs under an emulator,"
        );
        eprintln!("and its times say nothing. tools/bench measures the same code compiled for it.");
        exit(2);
    }
    let before = options.before.as_deref().map(Figures::read);
    let mut all = Figures::default();
    for section in &options.sections {
        let mut now = Figures::default();
        for _ in 0..options.rounds {
            now.take_best(in_a_process(section, options.runs));
        }
        table::print(section, before.as_ref(), &now, options.markdown);
        all.take_best(now);
    }
    if let Some(path) = &options.save {
        all.write(path);
    }
}

fn in_a_process(section: &Section, runs: usize) -> Figures {
    let own = std::env::current_exe().expect("this program");
    let mut command = Command::new(own);
    command.args(["measure", section.name, &runs.to_string()]);
    let output = command.stderr(Stdio::inherit()).output().expect("it runs");
    if !output.status.success() {
        exit(1);
    }
    Figures::of(&String::from_utf8(output.stdout).expect("text"))
}
