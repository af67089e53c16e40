//! Every design of the catalogue is balanced by a direct count, has the numbers of its name and fits a sheet.

use designs::{balance, catalogue, from_hex, Design, Random, Sheet};

#[test]
fn every_design_is_balanced() {
    let all = catalogue();
    assert!(all.len() >= 25);
    for design in &all {
        let (r, lambda) = balance(design).unwrap_or_else(|| panic!("{}", design.name));
        assert_eq!(r * design.v, design.k * design.tuples.len());
        assert_eq!(lambda * (design.v - 1), r * (design.k - 1));
        if let Some(numbers) = design.name.strip_prefix('(') {
            let said = format!("{},{},{lambda})", design.v, design.k);
            assert!(numbers.starts_with(&said), "{}", design.name);
        }
    }
}

#[test]
fn every_design_fits_a_sheet() {
    for design in catalogue() {
        assert!((2..=64).contains(&design.v), "{}", design.name);
        assert!((2..=16).contains(&design.k), "{}", design.name);
        assert!(design.tuples.len() * design.k <= 2048, "{}", design.name);
    }
}

#[test]
fn no_two_have_one_name() {
    let mut names: Vec<String> = catalogue().into_iter().map(|design| design.name).collect();
    let many = names.len();
    names.sort();
    names.dedup();
    assert_eq!(names.len(), many);
}

#[test]
fn shuffling_keeps_balance() {
    let mut random = Random::new(7);
    for design in catalogue().iter().take(30) {
        assert_eq!(balance(&design.shuffled(&mut random)), balance(design));
    }
}

#[test]
fn uneven_lists_are_told() {
    let pairs_uneven = Design::new("P 12", 4, vec![vec![0, 1], vec![2, 3]]);
    let disks_uneven = Design::new("P 13", 3, vec![vec![0, 1]]);
    let printed_in_004 = printed_design_1();
    assert_eq!(balance(&pairs_uneven), None);
    assert_eq!(balance(&disks_uneven), None);
    assert_eq!(balance(&printed_in_004), None);
}

/// Design 1 of the appendix of source document 004 as it is printed, which is not balanced.
fn printed_design_1() -> Design {
    let mut tuples = Vec::new();
    for base in [[0, 1, 3], [0, 4, 10], [0, 16, 19]] {
        tuples.extend((0..21).map(|by| base.map(|disk: u8| (disk + by) % 21).to_vec()));
    }
    tuples.extend((0..7).map(|by| vec![by, by + 7, by + 14]));
    Design::new("printed", 21, tuples)
}

#[test]
fn sheets_have_the_bytes_of_document_01() {
    let find = |name: &str| catalogue().into_iter().find(|d| d.name == name).unwrap();
    let a = from_hex("10 83 00 40 00 10 00 10 80 04 30 02 0C 10 83");
    let b = from_hex("10 42 00 10 00 10 00 10");
    assert_eq!(Sheet::new(&find("all 3 of 4"), 1, 0).bytes(), a);
    assert_eq!(Sheet::new(&find("all 2 of 2"), 1, 0).bytes(), b);
    let of_001 = from_hex(
        "10E3015000100010800440011800840021400C40031400C6005181\
         0830421410C50431811050441820C4083182106085183105105180",
    );
    assert_eq!(Sheet::new(&find("(7,3,3) of 001"), 1, 0).bytes(), of_001);
    assert_eq!(
        Sheet::new(&find("0 1, 1,024 times"), 1, 0).bytes().len(),
        1542
    );
}
