//! The text of the layout program.

use crate::placing::for_every_stripe;
use crate::sheet::open;
use std::fmt::Write;

/// What the program prints for a sheet: a line for the shelf and one for each stripe, or the refusal.
pub fn layout(sheet: &[u8]) -> String {
    let (number, shelf) = open(sheet);
    if number != 0 {
        return format!("refused {number}\n");
    }
    let mut text = format!(
        "{} {} {} {} {} {} {}\n",
        shelf.v,
        shelf.k,
        shelf.b,
        shelf.r,
        shelf.lambda,
        shelf.t,
        shelf.unit_size()
    );
    for_every_stripe(&shelf, |number, stripe| {
        write!(text, "{number}").unwrap();
        for place in [&stripe.parity].into_iter().chain(&stripe.data) {
            write!(text, " {}:{}", place.disk, place.offset).unwrap();
        }
        text.push('\n');
    });
    text
}
