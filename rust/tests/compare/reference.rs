//! What each function of the boundary must do, said with the model: the same signatures as `shqemtuli::calls`.

use crate::coding::{decoded, encoded, numbers, SHELF_BYTES};
use model::{Cost, Place, Record, Shelf, Shown};

const NOTHING: u64 = u64::MAX;
const OTHER: u64 = u64::MAX - 1;

/// Given before anything else where the buffer for an answer has another length.
const OTHER_BUFFER: u64 = 13;

/// The shelf that the bytes hold, which rule 10 has not passed; the empty shelf, which it refuses, for other bytes.
fn shelf_of(bytes: &[u8]) -> Shelf {
    decoded(bytes).unwrap_or_else(Shelf::empty)
}

pub fn open(sheet: &[u8], out: &mut [u8]) -> u64 {
    if out.len() != SHELF_BYTES {
        return OTHER_BUFFER;
    }
    let (number, shelf) = model::open(sheet);
    if number == 0 {
        out.copy_from_slice(&encoded(&shelf));
    }
    number
}

pub fn write_back(shelf: &[u8], sheet: &mut [u8]) -> u64 {
    model::write_back(&shelf_of(shelf), sheet)
        .err()
        .unwrap_or(0)
}

/// A number of a shelf, or 0.
fn of_shelf(bytes: &[u8], number: impl Fn(&Shelf) -> u64) -> u64 {
    let shelf = shelf_of(bytes);
    if shelf.is_shelf() {
        number(&shelf)
    } else {
        0
    }
}

pub fn sheet_length(shelf: &[u8]) -> u64 {
    of_shelf(shelf, model::sheet_length)
}

pub fn image_size(shelf: &[u8]) -> u64 {
    of_shelf(shelf, Shelf::image_size)
}

pub fn unit_size(shelf: &[u8]) -> u64 {
    of_shelf(shelf, Shelf::unit_size)
}

pub fn stripes(shelf: &[u8]) -> u64 {
    of_shelf(shelf, Shelf::stripes)
}

pub fn addresses(shelf: &[u8]) -> u64 {
    of_shelf(shelf, Shelf::addresses)
}

pub fn offsets(shelf: &[u8]) -> u64 {
    of_shelf(shelf, Shelf::offsets)
}

pub fn place(shelf: &[u8], address: u64, out: &mut [u8]) -> u64 {
    if out.len() != 16 {
        return OTHER_BUFFER;
    }
    let record = model::place(&shelf_of(shelf), address);
    give(out, record, |record| record_bytes(&record))
}

pub fn look_up(shelf: &[u8], disk: u64, offset: u64, out: &mut [u8]) -> u64 {
    if out.len() != 12 {
        return OTHER_BUFFER;
    }
    let found = model::look_up(&shelf_of(shelf), disk, offset);
    give(out, found, |found| {
        let kind = u64::from(found.address.is_none());
        numbers(&[found.stripe, found.address.unwrap_or(0), kind])
    })
}

pub fn run(shelf: &[u8], first: u64, out: &mut [u8]) -> u64 {
    if out.len() % 16 != 0 {
        return OTHER_BUFFER;
    }
    let nowhere = Place { disk: 0, offset: 0 };
    let unset = Record {
        data: nowhere,
        parity: nowhere,
    };
    let mut list = vec![unset; out.len() / 16];
    let answer = model::run(&shelf_of(shelf), first, &mut list);
    give(out, answer, |_| {
        list.iter().flat_map(record_bytes).collect()
    })
}

pub fn blank(shelf: &[u8], image: &mut [u8]) -> u64 {
    model::blank(&shelf_of(shelf), image).err().unwrap_or(0)
}

pub fn write(shelf: &[u8], image: &mut [u8], address: u64, unit: &[u8], out: &mut [u8]) -> u64 {
    if out.len() != 8 {
        return OTHER_BUFFER;
    }
    give_cost(out, model::write(&shelf_of(shelf), image, address, unit))
}

pub fn write_stripe(
    shelf: &[u8],
    image: &mut [u8],
    stripe: u64,
    buffer: &[u8],
    out: &mut [u8],
) -> u64 {
    if out.len() != 8 {
        return OTHER_BUFFER;
    }
    let cost = model::write_stripe(&shelf_of(shelf), image, stripe, buffer);
    give_cost(out, cost)
}

pub fn read(shelf: &[u8], image: &[u8], address: u64, buffer: &mut [u8], out: &mut [u8]) -> u64 {
    if out.len() != 8 {
        return OTHER_BUFFER;
    }
    give_cost(out, model::read(&shelf_of(shelf), image, address, buffer))
}

pub fn lose(bytes: &mut [u8], disk: u64) -> u64 {
    let mut shelf = shelf_of(bytes);
    let answer = model::lose(&mut shelf, disk);
    give(bytes, answer, |()| encoded(&shelf))
}

pub fn rebuild(bytes: &mut [u8], image: &mut [u8], out: &mut [u8]) -> u64 {
    if out.len() != 256 {
        return OTHER_BUFFER;
    }
    let mut shelf = shelf_of(bytes);
    let counts = model::rebuild(&mut shelf, image);
    out.fill(0);
    let number = give(out, counts, |counts| numbers(&counts));
    if number == 0 {
        bytes.copy_from_slice(&encoded(&shelf));
    }
    number
}

pub fn scrub(shelf: &[u8], image: &[u8], out: &mut [u8]) -> u64 {
    if out.len() != 4 {
        return OTHER_BUFFER;
    }
    out.fill(0);
    give(out, model::scrub(&shelf_of(shelf), image), |wrong| {
        numbers(&[wrong])
    })
}

pub fn show_place(shelf: &[u8], image: &[u8], disk: u64, offset: u64) -> u64 {
    position(why_place(shelf, image, disk, offset))
}

pub fn show_address(shelf: &[u8], image: &[u8], address: u64, other: &[u8]) -> u64 {
    position(why_address(shelf, image, address, other))
}

/// As `show_place`, with the number of a refusal, which the boundary does not give.
pub fn why_place(shelf: &[u8], image: &[u8], disk: u64, offset: u64) -> Result<Shown, u64> {
    model::show_place(&shelf_of(shelf), image, disk, offset)
}

/// As `show_address`, with the number of a refusal.
pub fn why_address(shelf: &[u8], image: &[u8], address: u64, other: &[u8]) -> Result<Shown, u64> {
    model::show_address(&shelf_of(shelf), image, address, other)
}

fn position(shown: Result<Shown, u64>) -> u64 {
    match shown {
        Ok(Shown::Image(at)) => at,
        Ok(Shown::Other) => OTHER,
        Err(_) => NOTHING,
    }
}

/// Fills the buffer with the bytes of an accepted call's answer; refused, it stays as it is.
fn give<T>(out: &mut [u8], answer: Result<T, u64>, to_bytes: impl FnOnce(T) -> Vec<u8>) -> u64 {
    match answer {
        Ok(answer) => {
            out.copy_from_slice(&to_bytes(answer));
            0
        }
        Err(number) => number,
    }
}

/// Fills the buffer with the units read and written, and with zeros where the call is refused.
fn give_cost(out: &mut [u8], cost: Result<Cost, u64>) -> u64 {
    out.fill(0);
    give(out, cost, |cost| numbers(&[cost.read, cost.written]))
}

fn record_bytes(record: &Record) -> Vec<u8> {
    numbers(&[
        record.data.disk,
        record.data.offset,
        record.parity.disk,
        record.parity.offset,
    ])
}
