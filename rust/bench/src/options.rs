//! What is asked for on the command line.

use crate::sections::{Section, SECTIONS};
use std::process::exit;

pub struct Options {
    pub sections: Vec<&'static Section>,
    /// How many processes measure each section.
    pub rounds: usize,
    /// How many times each contestant is timed in a process.
    pub runs: usize,
    pub markdown: bool,
    /// A file that an earlier run saved, to stand beside this one.
    pub before: Option<String>,
    pub save: Option<String>,
}

impl Options {
    pub fn of(words: &[String]) -> Options {
        let mut options = Options {
            sections: Vec::new(),
            rounds: 3,
            runs: 25,
            markdown: false,
            before: None,
            save: None,
        };
        let mut words = words.iter().map(String::as_str);
        while let Some(word) = words.next() {
            match word {
                "--quick" => (options.rounds, options.runs) = (1, 5),
                "--markdown" => options.markdown = true,
                "--rounds" => options.rounds = number(words.next()),
                "--before" => options.before = Some(path(words.next())),
                "--save" => options.save = Some(path(words.next())),
                _ => options.sections.push(section(word)),
            }
        }
        if options.sections.is_empty() {
            options.sections.extend(&SECTIONS);
        }
        options
    }
}

fn section(word: &str) -> &'static Section {
    let found = SECTIONS.iter().find(|section| section.name == word);
    found.unwrap_or_else(|| usage())
}

fn number(word: Option<&str>) -> usize {
    word.and_then(|word| word.parse().ok())
        .unwrap_or_else(|| usage())
}

fn path(word: Option<&str>) -> String {
    word.unwrap_or_else(|| usage()).to_string()
}

fn usage() -> ! {
    eprintln!("usage: tools/bench [--quick] [--markdown] [--rounds N] [--save FILE] [--before FILE] [SECTION..]");
    eprintln!("  --quick        one process and 5 runs of each contestant, for 3 and 25");
    eprintln!("  --markdown     tables as docs/BENCHMARKS.md has them");
    eprintln!("  --rounds N     N processes; 0 prints what --before has and measures nothing");
    eprintln!("  --save FILE    keeps the figures");
    eprintln!("  --before FILE  figures that were kept stand beside the new ones");
    let names: Vec<&str> = SECTIONS.iter().map(|section| section.name).collect();
    eprintln!("sections: {}", names.join(" "));
    exit(2);
}
