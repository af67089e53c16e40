//! The known answers of document 01 asked of the library itself, with no model between.

use shqemtuli::{Place, Refusal, Shelf, Unit};

const A: [u8; 15] = [
    0x10, 0x83, 0x00, 0x40, 0x00, 0x10, 0x00, 0x10, 0x80, 0x04, 0x30, 0x02, 0x0C, 0x10, 0x83,
];
const B: [u8; 8] = [0x10, 0x42, 0x00, 0x10, 0x00, 0x10, 0x00, 0x10];

fn a() -> Shelf {
    Shelf::open(&A).unwrap()
}

fn place(data: (u64, u64), parity: (u64, u64)) -> Result<Place, Refusal> {
    Ok(Place {
        disk: data.0,
        offset: data.1,
        parity_disk: parity.0,
        parity_offset: parity.1,
    })
}

#[test]
fn table_p() {
    let mut two_tables = A;
    two_tables[4] = 0x00;
    two_tables[5] = 0x20;
    let two_tables = Shelf::open(&two_tables).unwrap();
    assert_eq!(a().place(0), place((0, 0), (2, 0)));
    assert_eq!(a().place(3), place((1, 1), (3, 0)));
    assert_eq!(a().place(7), place((2, 2), (3, 2)));
    assert_eq!(a().place(9), place((2, 3), (1, 3)));
    assert_eq!(a().place(15), place((3, 5), (2, 5)));
    assert_eq!(a().place(16), place((1, 6), (0, 6)));
    assert_eq!(a().place(23), place((3, 8), (1, 8)));
    assert_eq!(a().place(24), Err(Refusal::OutOfRange));
    assert_eq!(two_tables.place(24), place((0, 9), (2, 9)));
    let found = a().look_up(3, 2).unwrap();
    assert_eq!((found.stripe, found.unit), (3, Unit::Parity));
    let b = Shelf::open(&B).unwrap();
    assert_eq!(b.place(1), place((1, 1), (0, 1)));
    let pairs_uneven = [0x10, 0x82, 0x00, 0x20, 0x00, 0x10, 0x00, 0x10, 0x83];
    assert_eq!(Shelf::open(&pairs_uneven), Err(Refusal::PairsUneven));
    let disks_uneven = [0x10, 0x62, 0x00, 0x10, 0x00, 0x10, 0x00, 0x10];
    assert_eq!(Shelf::open(&disks_uneven), Err(Refusal::DisksUneven));
}

#[test]
fn numbers_of_a_and_b() {
    let a = a();
    assert_eq!((a.r(), a.lambda(), a.addresses()), (3, 2, 24));
    let b = Shelf::open(&B).unwrap();
    assert_eq!((b.r(), b.lambda(), b.addresses()), (1, 1, 2));
}

#[test]
fn the_run_by_a_program() {
    let mut shelf = a();
    let mut image = [0xEE; 36];
    shelf.blank(&mut image).unwrap();
    shelf.write(&mut image, 0, &[0x5A]).unwrap();
    shelf.write(&mut image, 1, &[0x0F]).unwrap();
    assert_eq!(shelf.show_place(&image, 2, 0), Some(&[0x55][..]));
    shelf.lose(0).unwrap();
    let mut unit = [0];
    shelf.read(&image, 0, &mut unit).unwrap();
    assert_eq!(unit, [0x5A]);
    shelf.write(&mut image, 0, &[0xFF]).unwrap();
    assert_eq!(shelf.show_place(&image, 2, 0), Some(&[0xF0][..]));
    let mut expected = [0; 64];
    expected[1..4].fill(6);
    assert_eq!(shelf.rebuild(&mut image), Ok(expected));
    assert_eq!(shelf.show_place(&image, 0, 0), Some(&[0xFF][..]));
}

#[test]
fn limits_of_t_and_u() {
    let number = |t: u16, u: u8| {
        let mut sheet = A;
        let [high, low] = t.to_be_bytes();
        sheet[3] = 0x40 | high >> 4;
        sheet[4] = high << 4 | low >> 4;
        sheet[5] = low << 4 | u;
        Shelf::open(&sheet).err()
    };
    assert_eq!(number(65535, 0), None);
    assert_eq!(number(0, 0), Some(Refusal::OutsideLimits));
    assert_eq!(number(1, 12), None);
    assert_eq!(number(1, 13), Some(Refusal::OutsideLimits));
}

#[test]
fn shelf_bytes_that_no_opening_gives() {
    let shelf = a();
    let changed = |at: usize, to: u8| {
        let mut bytes = *shelf.as_bytes();
        bytes[at] = to;
        Shelf::from_bytes(&bytes).err()
    };
    let no_shelf = Some(Refusal::NotAShelf);
    // r, lambda, the lost disk 4, a lost disk that is no byte, and entries past b·k.
    for (at, to) in [(23, 4), (27, 1), (31, 5), (30, 2), (44, 1), (2079, 255)] {
        assert_eq!(changed(at, to), no_shelf, "byte {at}");
    }
    // Another T, or a lost disk, is another shelf.
    assert_eq!(changed(15, 2), None);
    assert_eq!(changed(31, 4), None);
    assert_eq!(Shelf::from_bytes(&[]).err(), no_shelf);
    assert_eq!(Shelf::from_bytes(&[0; 2080]).err(), no_shelf);
}
