//! One call of the library and the same of the reference, on equal things lent.

use crate::lent::Lent;
use crate::reference;
use crate::tally::Tally;
use shqemtuli::calls;

#[derive(Clone, Copy, Debug, PartialEq, Eq, Hash, PartialOrd, Ord)]
pub enum Call {
    Open,
    WriteBack,
    SheetLength,
    ImageSize,
    UnitSize,
    Stripes,
    Addresses,
    Offsets,
    Place,
    LookUp,
    Run,
    Blank,
    Write,
    WriteStripe,
    Read,
    Lose,
    Rebuild,
    Scrub,
    ShowPlace,
    ShowAddress,
}

impl Call {
    pub const ALL: [Call; 20] = [
        Call::Open,
        Call::WriteBack,
        Call::SheetLength,
        Call::ImageSize,
        Call::UnitSize,
        Call::Stripes,
        Call::Addresses,
        Call::Offsets,
        Call::Place,
        Call::LookUp,
        Call::Run,
        Call::Blank,
        Call::Write,
        Call::WriteStripe,
        Call::Read,
        Call::Lose,
        Call::Rebuild,
        Call::Scrub,
        Call::ShowPlace,
        Call::ShowAddress,
    ];
}

/// Makes the call through the functions of a module.
macro_rules! made {
    ($library:ident, $call:expr, $lent:expr) => {{
        let Lent {
            shelf,
            image,
            buffer,
            out,
            numbers: [one, two],
        } = $lent;
        match $call {
            Call::Open => $library::open(buffer.bytes(), out.bytes_mut()),
            Call::WriteBack => $library::write_back(shelf.bytes(), out.bytes_mut()),
            Call::SheetLength => $library::sheet_length(shelf.bytes()),
            Call::ImageSize => $library::image_size(shelf.bytes()),
            Call::UnitSize => $library::unit_size(shelf.bytes()),
            Call::Stripes => $library::stripes(shelf.bytes()),
            Call::Addresses => $library::addresses(shelf.bytes()),
            Call::Offsets => $library::offsets(shelf.bytes()),
            Call::Place => $library::place(shelf.bytes(), *one, out.bytes_mut()),
            Call::LookUp => $library::look_up(shelf.bytes(), *one, *two, out.bytes_mut()),
            Call::Run => $library::run(shelf.bytes(), *one, out.bytes_mut()),
            Call::Blank => $library::blank(shelf.bytes(), image.bytes_mut()),
            Call::Write => {
                let (image, out) = (image.bytes_mut(), out.bytes_mut());
                $library::write(shelf.bytes(), image, *one, buffer.bytes(), out)
            }
            Call::WriteStripe => {
                let (image, out) = (image.bytes_mut(), out.bytes_mut());
                $library::write_stripe(shelf.bytes(), image, *one, buffer.bytes(), out)
            }
            Call::Read => {
                let (buffer, out) = (buffer.bytes_mut(), out.bytes_mut());
                $library::read(shelf.bytes(), image.bytes(), *one, buffer, out)
            }
            Call::Lose => $library::lose(shelf.bytes_mut(), *one),
            Call::Rebuild => {
                let (shelf, image) = (shelf.bytes_mut(), image.bytes_mut());
                $library::rebuild(shelf, image, out.bytes_mut())
            }
            Call::Scrub => $library::scrub(shelf.bytes(), image.bytes(), out.bytes_mut()),
            Call::ShowPlace => $library::show_place(shelf.bytes(), image.bytes(), *one, *two),
            Call::ShowAddress => {
                let (image, other) = (image.bytes(), buffer.bytes());
                $library::show_address(shelf.bytes(), image, *one, other)
            }
        }
    }};
}

/// Makes the call on both sides and holds the answers and everything lent against each other. What is lent is then as
/// the call left it.
pub fn compare(call: Call, lent: &mut Lent, tally: &mut Tally) {
    let entry = lent.clone();
    let mut expected = lent.clone();
    let answer = made!(calls, call, &mut *lent);
    let wanted = made!(reference, call, &mut expected);
    let differing = lent.differences(&expected);
    if answer != wanted || !differing.is_empty() {
        let shelf = crate::coding::decoded(entry.shelf.bytes());
        let lengths = [&entry.shelf, &entry.image, &entry.buffer, &entry.out].map(|b| b.length());
        panic!(
            "{call:?}: the library gave {answer}, the model {wanted}; different: {differing:?}\n\
             numbers {:?}, lengths of shelf bytes, image, buffer, out {lengths:?}\n{shelf:?}",
            entry.numbers
        );
    }
    tally.count(call, number(call, &entry, wanted));
}

/// The number of the answer, 0 for accepted; for a show the one that the boundary does not give.
fn number(call: Call, lent: &Lent, answer: u64) -> u64 {
    let [one, two] = lent.numbers;
    let (shelf, image) = (lent.shelf.bytes(), lent.image.bytes());
    match call {
        Call::SheetLength | Call::ImageSize | Call::UnitSize => refused_as_10(answer),
        Call::Stripes | Call::Addresses | Call::Offsets => refused_as_10(answer),
        Call::ShowPlace => {
            let shown = reference::why_place(shelf, image, one, two);
            shown.err().unwrap_or(0)
        }
        Call::ShowAddress => {
            let shown = reference::why_address(shelf, image, one, lent.buffer.bytes());
            shown.err().unwrap_or(0)
        }
        _ => answer,
    }
}

fn refused_as_10(answer: u64) -> u64 {
    if answer == 0 {
        10
    } else {
        0
    }
}
