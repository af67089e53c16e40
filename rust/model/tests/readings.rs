//! The cases under "Test" in the list of readings, B-1 to B-42; each test is named by its entry.

use designs::{catalogue, from_hex, Sheet};
use model::*;

const A: &str = "10 83 00 40 00 10 00 10 80 04 30 02 0C 10 83";
const B: &str = "10 42 00 10 00 10 00 10";

fn a() -> Shelf {
    open(&from_hex(A)).1
}

fn b() -> Shelf {
    open(&from_hex(B)).1
}

fn number(sheet: &str) -> u64 {
    open(&from_hex(sheet)).0
}

fn sheet_of(name: &str, t: u64, u: u64) -> Sheet {
    let design = catalogue().into_iter().find(|d| d.name == name).unwrap();
    Sheet::new(&design, t, u)
}

fn cost(read: u64, written: u64) -> Result<Cost, u64> {
    Ok(Cost { read, written })
}

#[test]
fn b_1_the_extent_of_number_10() {
    let changes: [fn(&mut Shelf); 5] = [
        |shelf| shelf.table[12] = 1,
        |shelf| shelf.table[2047] = 255,
        |shelf| shelf.r = 4,
        |shelf| shelf.lambda = 1,
        |shelf| shelf.lost = Some(4),
    ];
    for change in changes {
        let mut shelf = a();
        change(&mut shelf);
        assert_eq!(place(&shelf, 0), Err(10));
    }
    let mut two_tables = a();
    two_tables.t = 2;
    assert!(two_tables.is_shelf());
    assert_eq!(two_tables.addresses(), 48);
    let mut exchanged = a();
    exchanged.table.swap(0, 1);
    assert!(exchanged.is_shelf());
}

#[test]
fn b_2_the_empty_shelf() {
    assert_eq!(open(&[]), (1, Shelf::empty()));
    assert_eq!(lose(&mut Shelf::empty(), 0), Err(10));
}

#[test]
fn b_3_no_overflow_before_10() {
    let mut shelf = a();
    for large in [1 << 32, u64::MAX, 1 << 63] {
        (shelf.v, shelf.k, shelf.b, shelf.t) = (large, large, large, large);
        (shelf.u, shelf.r, shelf.lambda) = (large, large, large);
        assert_eq!(blank(&shelf, &mut []), Err(10));
        let mut of_b = a();
        of_b.b = large;
        assert_eq!(blank(&of_b, &mut []), Err(10));
    }
}

#[test]
fn b_4_each_rule_over_the_whole_sheet() {
    assert_eq!(number("108200200010000049"), 5);
    assert_eq!(number("1082001000100001"), 6);
    assert_eq!(number("1082001000100011"), 7);
}

#[test]
fn b_5_rule_3_is_one_rule() {
    let header = |v, k, b| {
        let mut sheet = sheet_of("all 3 of 4", 1, 0);
        (sheet.v, sheet.k, sheet.b) = (v, k, b);
        open(&sheet.bytes()).0
    };
    assert_eq!(header(3, 3, 683), 3);
    assert_eq!(header(2, 2, 1024), 4);
    assert_eq!(header(1, 2, 1), 3);
    assert_eq!(header(3, 4, 1), 3);
    assert_eq!(header(4, 3, 0), 3);
}

#[test]
fn b_6_surplus_bytes() {
    assert_eq!(number(&format!("{B}00")), 4);
    let a = from_hex(A);
    assert_eq!(open(&a[..14]).0, 4);
    assert_eq!(open(&a[..6]).0, 4);
    assert_eq!(number("10 42 00 00 00 10 77"), 3);
}

#[test]
fn b_7_filling() {
    for last in [0x11, 0x12, 0x14, 0x18] {
        let mut sheet = from_hex(B);
        sheet[7] = last;
        assert_eq!(open(&sheet).0, 7);
    }
}

#[test]
fn b_8_absent_disks() {
    let mut sheet = sheet_of("projective plane of order 2", 1, 0);
    sheet.v = 64;
    assert_eq!(open(&sheet.bytes()).0, 8);
}

#[test]
fn b_9_what_a_design_need_not_be() {
    let (number, shelf) = open(&sheet_of("0 1, 1,024 times", 1, 0).bytes());
    assert_eq!((number, shelf.r, shelf.lambda), (0, 1024, 1024));
    assert_eq!(sheet_length(&shelf), 1542);
    let turned = sheet_of("all 16 of 16, 128 times, turned", 1, 0);
    assert_eq!(open(&turned.bytes()).0, 0);
}

#[test]
fn b_13_k_is_2() {
    let mut image = [0x00, 0x00, 0x55, 0x00];
    assert_eq!(write(&b(), &mut image, 0, &[1]), cost(2, 2));
    assert_eq!(image, [0x01, 0x00, 0x54, 0x00]);
}

#[test]
fn b_14_the_data_disk_is_lost() {
    for left_behind in [0x00, 0x99] {
        let mut shelf = a();
        let mut image = [0; 36];
        (image[18], image[0]) = (0x55, left_behind);
        lose(&mut shelf, 0).unwrap();
        assert_eq!(write(&shelf, &mut image, 0, &[1]), cost(1, 1));
        assert_eq!((image[18], image[0]), (0x01, left_behind));
    }
}

#[test]
fn b_16_the_shelf_handed_back() {
    let mut shelf = a();
    shelf.r = 9;
    let before = shelf.clone();
    assert_eq!(lose(&mut shelf, 0), Err(10));
    assert_eq!(shelf, before);
}

#[test]
fn b_17_runs() {
    let kept = place(&a(), 5).unwrap();
    let mut list = [kept];
    assert_eq!(run(&a(), 24, &mut []), Ok(()));
    assert_eq!(run(&a(), 25, &mut []), Err(12));
    assert_eq!(run(&a(), u64::MAX, &mut []), Err(12));
    assert_eq!(run(&a(), 24, &mut list), Err(12));
    assert_eq!(run(&a(), u64::MAX, &mut list), Err(12));
    assert_eq!(list, [kept]);
    assert_eq!(run(&a(), 23, &mut list), Ok(()));
    assert_eq!(Ok(list[0]), place(&a(), 23));
}

#[test]
fn b_19_buffer_lengths() {
    let mut image = [0; 36];
    assert_eq!(write(&a(), &mut image, 0, &[1, 2]), Err(13));
    let mut buffer = [0xEE; 20];
    assert_eq!(write_back(&a(), &mut buffer), Ok(15));
    assert_eq!(buffer[..15], from_hex(A));
    assert_eq!(buffer[15..], [0xEE; 5]);
    let mut short = [0xEE; 14];
    assert_eq!(write_back(&a(), &mut short), Err(13));
    assert_eq!(short, [0xEE; 14]);
}

#[test]
fn b_20_which_rules_concern_show() {
    let mut shelf = a();
    assert_eq!(show_address(&shelf, &[0; 36], 0, &[]), Err(13));
    lose(&mut shelf, 0).unwrap();
    assert_eq!(show_address(&shelf, &[0; 35], 0, &[0]), Err(11));
}

#[test]
fn b_22_show_address_does_not_reconstruct() {
    let mut shelf = a();
    lose(&mut shelf, 0).unwrap();
    assert_eq!(show_address(&shelf, &[0; 36], 0, &[0xFF]), Ok(Shown::Other));
}

#[test]
fn b_23_show_place_on_the_lost_disk() {
    let mut shelf = a();
    lose(&mut shelf, 1).unwrap();
    assert_eq!(show_place(&shelf, &[0; 36], 1, 9), Err(12));
    assert_eq!(show_place(&shelf, &[0; 36], 1, 0), Err(14));
    assert_eq!(show_place(&shelf, &[0; 36], 0, 0), Ok(Shown::Image(0)));
}

#[test]
fn b_24_lose_twice() {
    let mut shelf = a();
    assert_eq!(lose(&mut shelf, 1), Ok(()));
    assert_eq!(lose(&mut shelf, 4), Err(12));
    assert_eq!(lose(&mut shelf, 1), Err(14));
    assert_eq!(lose(&mut shelf, 2), Err(14));
}

#[test]
fn b_25_rebuild_and_wrong_stripes() {
    let mut shelf = a();
    let mut image = [0; 36];
    image[0] = 1;
    assert_eq!(scrub(&shelf, &image), Ok(1));
    lose(&mut shelf, 0).unwrap();
    rebuild(&mut shelf, &mut image).unwrap();
    assert_eq!(scrub(&shelf, &image), Ok(0));
}

#[test]
fn b_29_a_lost_disk_changes_no_place() {
    let mut lost = a();
    lose(&mut lost, 2).unwrap();
    assert_eq!(place(&lost, 9), place(&a(), 9));
    assert_eq!(look_up(&lost, 2, 3), look_up(&a(), 2, 3));
    assert_eq!(write_back(&lost, &mut [0; 15]), Ok(15));
}

#[test]
fn b_30_layout_text() {
    let first_line = |sheet: &[u8]| layout(sheet).lines().next().unwrap().to_string();
    let b_with_u_12 = sheet_of("all 2 of 2", 1, 12).bytes();
    assert!(first_line(&b_with_u_12).ends_with("1 4096"));
    assert_eq!(layout(&[]), "refused 1\n");
}

#[test]
fn b_31_input_longer_than_any_sheet() {
    let mut longest = sheet_of("0 1, 1,024 times", 1, 0).bytes();
    assert_eq!(longest.len(), 1542);
    assert!(layout(&longest).starts_with("2 2 1024 1024 1024 1 1\n"));
    longest.push(0);
    assert_eq!(layout(&longest), "refused 4\n");
    let mut long = from_hex(B);
    long.resize(10_008, 0);
    assert_eq!(layout(&long), "refused 4\n");
    assert_eq!(layout(&from_hex(B)[..5]), "refused 1\n");
}

#[test]
fn b_35_design_1_of_004_as_printed() {
    let mut tuples = Vec::new();
    for base in [[0, 1, 3], [0, 4, 10], [0, 16, 19]] {
        tuples.extend((0..21).map(|by| base.map(|disk: u8| (disk + by) % 21).to_vec()));
    }
    tuples.extend((0..7).map(|by| vec![by, by + 7, by + 14]));
    let printed = designs::Design::new("printed", 21, tuples);
    assert_eq!(open(&Sheet::new(&printed, 1, 0).bytes()).0, 9);
}

#[test]
fn b_37_any_number_as_an_argument() {
    assert_eq!(place(&a(), u64::MAX), Err(12));
    assert_eq!(look_up(&a(), 3, u64::MAX), Err(12));
    assert_eq!(look_up(&a(), u64::MAX, 0), Err(12));
}

#[test]
fn b_38_accepted_but_unlendable() {
    let sheet = sheet_of("all 16 of 16, 128 times, turned", 65535, 12);
    let (number, shelf) = open(&sheet.bytes());
    assert_eq!((number, shelf.addresses()), (0, 2_013_235_200));
    assert_eq!(shelf.image_size(), 8_795_958_804_480);
    let last = place(&shelf, shelf.addresses() - 1).unwrap();
    assert_eq!(last.data.offset, 134_215_679);
}
