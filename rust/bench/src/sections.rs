//! The sections of the page.

use crate::figures::{COPY, ISAL, PLAIN};
use crate::time::Clock;
use crate::{bulk, calls, layout, opening, sheet_a, units};

pub struct Section {
    /// What it is called on the command line.
    pub name: &'static str,
    pub title: &'static str,
    /// What stands at the head of a row.
    pub head: &'static [&'static str],
    pub unit: Unit,
    /// What the library stands beside.
    pub beside: &'static [&'static str],
    pub measure: fn(&Clock),
}

/// What a time is shown as.
pub enum Unit {
    /// Thousand million bytes a second.
    GigabytesASecond,
    Nanoseconds,
    Microseconds,
    Milliseconds,
}

const BY_THE_BYTE: &[&str] = &[PLAIN, ISAL, COPY];
const SHEET: &[&str] = &["v", "k", "b", "T", "u"];

pub const SECTIONS: [Section; 9] = [
    Section {
        name: "sheet-a",
        title: "Whole rebuild of sheet A, T 100, u 12 (a disk of 3,686,400 bytes), milliseconds",
        head: &["disk"],
        unit: Unit::Milliseconds,
        beside: &[
            sheet_a::BY_BYTES,
            sheet_a::BY_UNITS,
            ISAL,
            sheet_a::COPY_OF_DISK,
        ],
        measure: sheet_a::measure,
    },
    Section {
        name: "rebuild",
        title: "Whole rebuild, GB/s read from the other disks",
        head: SHEET,
        unit: Unit::GigabytesASecond,
        beside: BY_THE_BYTE,
        measure: bulk::rebuild,
    },
    Section {
        name: "scrub",
        title: "Scrub of a right image, GB/s read",
        head: SHEET,
        unit: Unit::GigabytesASecond,
        beside: BY_THE_BYTE,
        measure: bulk::scrub,
    },
    Section {
        name: "read",
        title: "Read with the data disk lost, GB/s read from the k - 1 others, less the floor",
        head: SHEET,
        unit: Unit::GigabytesASecond,
        beside: BY_THE_BYTE,
        measure: calls::read,
    },
    Section {
        name: "write",
        title: "Unit write, GB/s written (data and parity), less the floor",
        head: SHEET,
        unit: Unit::GigabytesASecond,
        beside: BY_THE_BYTE,
        measure: calls::write,
    },
    Section {
        name: "stripe",
        title: "Stripe write, GB/s written (k units), less the floor",
        head: SHEET,
        unit: Unit::GigabytesASecond,
        beside: BY_THE_BYTE,
        measure: calls::write_stripe,
    },
    Section {
        name: "units",
        title: "Unit calls, nanoseconds for a call, the floor inside",
        head: &["v", "k", "b", "u", "call"],
        unit: Unit::Nanoseconds,
        beside: &[PLAIN],
        measure: units::measure,
    },
    Section {
        name: "opening",
        title: "Opening a sheet, and rule 10 alone (the floor of every call), microseconds",
        head: &["v", "k", "b", "call"],
        unit: Unit::Microseconds,
        beside: &[PLAIN],
        measure: opening::measure,
    },
    Section {
        name: "layout",
        title: "Printing the layout of 1,000,020 stripes of 5 units, milliseconds",
        head: &["bytes"],
        unit: Unit::Milliseconds,
        beside: &[PLAIN],
        measure: layout::measure,
    },
];
