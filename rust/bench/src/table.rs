//! A section as a table.

use crate::figures::{Figures, Row, LIBRARY};
use crate::sections::{Section, Unit};

/// Prints the section's figures, beside those of before where there are any.
pub fn print(section: &Section, before: Option<&Figures>, now: &Figures, markdown: bool) {
    let rows = match before {
        Some(before) => both(section, before, now),
        None => one(section, now),
    };
    if markdown {
        print_markdown(section, &rows);
    } else {
        print_text(section, &rows);
    }
}

/// The headings and the rows of one run: every contestant's figure, then the ratios.
fn one(section: &Section, now: &Figures) -> Vec<Vec<String>> {
    let ratios = section.beside.iter().map(|name| format!("to {name}"));
    let names = [LIBRARY].into_iter().chain(section.beside.iter().copied());
    let mut rows = vec![heading(section, names.map(String::from).chain(ratios))];
    for head in now.heads(section.name) {
        let row = now.row(section.name, head);
        let names = [LIBRARY].into_iter().chain(section.beside.iter().copied());
        let times = names.map(|name| figure(&section.unit, row, name));
        let ratios = section.beside.iter().map(|name| ratio(row, name));
        rows.push(cells(head).chain(times).chain(ratios).collect());
    }
    rows
}

/// The same of two runs, without the figures of those that stand beside the library.
fn both(section: &Section, before: &Figures, now: &Figures) -> Vec<Vec<String>> {
    let mut names = vec!["before".to_string(), "after".to_string()];
    for name in section.beside {
        names.extend([format!("to {name}: before"), "after".to_string()]);
    }
    let mut rows = vec![heading(section, names)];
    let mut heads = now.heads(section.name);
    if heads.is_empty() {
        heads = before.heads(section.name);
    }
    for head in heads {
        let runs = [before, now].map(|figures| figures.row(section.name, head));
        let library = runs.map(|row| figure(&section.unit, row, LIBRARY));
        let ratios = |name: &&str| runs.map(|row| ratio(row, name));
        let ratios = section.beside.iter().flat_map(ratios);
        rows.push(cells(head).chain(library).chain(ratios).collect());
    }
    rows
}

fn heading(section: &Section, names: impl IntoIterator<Item = String>) -> Vec<String> {
    let head = section.head.iter().map(|word| word.to_string());
    head.chain(names).collect()
}

fn cells(head: &str) -> impl Iterator<Item = String> + '_ {
    head.split('|').map(String::from)
}

/// A contestant's figure; nothing where the row was not measured, and a dash where the contestant was not there.
fn figure(unit: &Unit, row: Option<&Row>, name: &str) -> String {
    shown(row, |row| {
        let time = row.for_each(name)?;
        Some(match unit {
            Unit::GigabytesASecond => format!("{:.1}", 1.0 / time),
            Unit::Nanoseconds => format!("{time:.0}"),
            Unit::Microseconds => format!("{:.2}", time / 1e3),
            Unit::Milliseconds => format!("{:.3}", time / 1e6),
        })
    })
}

fn ratio(row: Option<&Row>, name: &str) -> String {
    shown(row, |row| Some(format!("{:.2}", row.ratio(name)?)))
}

fn shown(row: Option<&Row>, text: impl Fn(&Row) -> Option<String>) -> String {
    match row {
        Some(row) => text(row).unwrap_or_else(|| "-".to_string()),
        None => String::new(),
    }
}

fn print_markdown(section: &Section, rows: &[Vec<String>]) {
    println!("### {}\n", section.title);
    let line = |row: &Vec<String>| println!("| {} |", row.join(" | "));
    line(&rows[0]);
    println!("|{}", "---:|".repeat(rows[0].len()));
    rows[1..].iter().for_each(line);
    println!();
}

fn print_text(section: &Section, rows: &[Vec<String>]) {
    println!("{}", section.title);
    let length = |text: &String| text.chars().count();
    let width = |column| rows.iter().map(move |row| length(&row[column])).max();
    let widths: Vec<usize> = (0..rows[0].len()).filter_map(width).collect();
    for row in rows {
        for (cell, width) in row.iter().zip(&widths) {
            print!("  {cell:>width$}");
        }
        println!();
    }
    println!();
}
