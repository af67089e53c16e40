//! The layout program in plain Rust: standard input to standard output, through a BufWriter.

use super::sheet::open;
use super::Shelf;
use std::io::{self, BufWriter, Read, Write};

pub fn print() {
    let mut sheet = Vec::new();
    io::stdin().read_to_end(&mut sheet).expect("a sheet");
    let mut out = BufWriter::new(io::stdout().lock());
    let written = match open(&sheet) {
        Ok(shelf) => write_layout(&shelf, &mut out),
        Err(number) => writeln!(out, "refused {number}"),
    };
    written.and_then(|()| out.flush()).expect("written");
}

fn write_layout(shelf: &Shelf, out: &mut impl Write) -> io::Result<()> {
    let (v, k, b, t) = (shelf.v, shelf.k, shelf.b, shelf.t);
    let (r, lambda, unit) = (shelf.r, shelf.lambda, shelf.unit());
    writeln!(out, "{v} {k} {b} {r} {lambda} {t} {unit}")?;
    let ranks = shelf.ranks();
    for stripe in 0..shelf.stripes() {
        let (row, start) = (stripe / b, stripe % b * k);
        let parity = shelf.parity(stripe);
        write!(out, "{stripe}")?;
        for position in [parity].into_iter().chain(0..parity).chain(parity + 1..k) {
            let offset = row * r + ranks[start + position];
            write!(out, " {}:{offset}", shelf.table[start + position])?;
        }
        writeln!(out)?;
    }
    Ok(())
}
