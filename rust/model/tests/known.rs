//! The answers that document 01 gives: table P, the run by a program, the limits and the layout of sheet B.

use designs::{catalogue, from_hex, Sheet};
use model::*;

const A: &str = "10 83 00 40 00 10 00 10 80 04 30 02 0C 10 83";
const B: &str = "10 42 00 10 00 10 00 10";

fn opened(sheet: &[u8]) -> Shelf {
    let (number, shelf) = open(sheet);
    assert_eq!(number, 0);
    shelf
}

fn a() -> Shelf {
    opened(&from_hex(A))
}

fn b() -> Shelf {
    opened(&from_hex(B))
}

fn at(disk: u64, offset: u64) -> Place {
    Place { disk, offset }
}

/// The sheet of a design of the catalogue.
fn sheet_of(name: &str, t: u64, u: u64) -> Sheet {
    let design = catalogue().into_iter().find(|d| d.name == name).unwrap();
    Sheet::new(&design, t, u)
}

#[test]
fn opening_a_and_b() {
    let a = a();
    assert_eq!((a.v, a.k, a.b, a.t, a.u), (4, 3, 4, 1, 0));
    assert_eq!((a.r, a.lambda, a.addresses(), a.lost), (3, 2, 24, None));
    let b = b();
    assert_eq!((b.r, b.lambda, b.addresses()), (1, 1, 2));
}

#[test]
fn places_of_table_p() {
    let a_with_t_2 = opened(&from_hex("10 83 00 40 00 20 00 10 80 04 30 02 0C 10 83"));
    let answers = [
        (a(), 0, at(0, 0), at(2, 0)),
        (a(), 3, at(1, 1), at(3, 0)),
        (a(), 7, at(2, 2), at(3, 2)),
        (a(), 9, at(2, 3), at(1, 3)),
        (a(), 15, at(3, 5), at(2, 5)),
        (a(), 16, at(1, 6), at(0, 6)),
        (a(), 23, at(3, 8), at(1, 8)),
        (a_with_t_2, 24, at(0, 9), at(2, 9)),
        (b(), 1, at(1, 1), at(0, 1)),
    ];
    for (shelf, address, data, parity) in answers {
        assert_eq!(place(&shelf, address), Ok(Record { data, parity }));
    }
}

#[test]
fn refusals_of_table_p() {
    assert_eq!(place(&a(), 24), Err(12));
    let found = Found {
        stripe: 3,
        address: None,
    };
    assert_eq!(look_up(&a(), 3, 2), Ok(found));
    let pairs_uneven = from_hex("10 82 00 20 00 10 00 10 83");
    let disks_uneven = from_hex("10 62 00 10 00 10 00 10");
    assert_eq!(open(&pairs_uneven), (9, Shelf::empty()));
    assert_eq!(open(&disks_uneven), (8, Shelf::empty()));
}

#[test]
fn the_run_by_a_program() {
    let mut shelf = a();
    let mut image = vec![0xEE; 36];
    let parity = 2 * 9;
    blank(&shelf, &mut image).unwrap();
    assert_eq!(image, [0; 36]);
    let both = Cost {
        read: 2,
        written: 2,
    };
    assert_eq!(write(&shelf, &mut image, 0, &[0x5A]), Ok(both));
    assert_eq!(write(&shelf, &mut image, 1, &[0x0F]), Ok(both));
    assert_eq!(image[parity], 0x55);
    lose(&mut shelf, 0).unwrap();
    let mut unit = [0];
    let two = Cost {
        read: 2,
        written: 0,
    };
    assert_eq!(read(&shelf, &image, 0, &mut unit), Ok(two));
    assert_eq!(unit, [0x5A]);
    write(&shelf, &mut image, 0, &[0xFF]).unwrap();
    assert_eq!(image[parity], 0xF0);
    let counts = rebuild(&mut shelf, &mut image).unwrap();
    assert_eq!(image[0], 0xFF);
    assert_eq!(counts[..5], [0, 6, 6, 6, 0]);
    assert_eq!(counts.iter().sum::<u64>(), 18);
    assert_eq!(shelf, a());
}

#[test]
fn the_21_tuples_of_001() {
    let shelf = opened(&sheet_of("(7,3,3) of 001", 1, 0).bytes());
    assert_eq!((shelf.v, shelf.k, shelf.b), (7, 3, 21));
    assert_eq!((shelf.r, shelf.lambda), (9, 3));
    assert_eq!(place(&shelf, 2).unwrap().parity.disk, 4);
}

#[test]
fn limits() {
    let number = |name: &str, t: u64, u: u64| open(&sheet_of(name, t, u).bytes()).0;
    assert_eq!(number("all 3 of 4", 65535, 0), 0);
    assert_eq!(number("all 3 of 4", 0, 0), 3);
    assert_eq!(number("all 3 of 4", 1, 12), 0);
    assert_eq!(number("all 3 of 4", 1, 13), 3);
    assert_eq!(number("0 1, 1,024 times", 1, 0), 0);
    let mut past = sheet_of("A 170 times", 1, 0);
    past.b = 683;
    past.disks = [0, 1, 2].repeat(683);
    assert_eq!(open(&past.bytes()).0, 3);
}

#[test]
fn the_layout_of_b() {
    let text = "2 2 1 1 1 1 1\n0 1:0 0:0\n1 0:1 1:1\n";
    assert_eq!(layout(&from_hex(B)), text);
    assert_eq!(text.len(), 34);
}
