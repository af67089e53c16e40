//! The functions of the archive, as the crate `host` exports them. `include/shelf.h` has the same, with what each does.

#![allow(missing_docs)]

extern "C" {
    pub fn shqemtuli_open(sheet: *const u8, sheet_len: u64, shelf: *mut u8, shelf_len: u64) -> u64;

    pub fn shqemtuli_write_back(
        shelf: *const u8,
        shelf_len: u64,
        sheet: *mut u8,
        sheet_len: u64,
    ) -> u64;

    pub fn shqemtuli_sheet_length(shelf: *const u8, shelf_len: u64) -> u64;
    pub fn shqemtuli_image_size(shelf: *const u8, shelf_len: u64) -> u64;
    pub fn shqemtuli_unit_size(shelf: *const u8, shelf_len: u64) -> u64;
    pub fn shqemtuli_stripes(shelf: *const u8, shelf_len: u64) -> u64;
    pub fn shqemtuli_addresses(shelf: *const u8, shelf_len: u64) -> u64;
    pub fn shqemtuli_offsets(shelf: *const u8, shelf_len: u64) -> u64;

    pub fn shqemtuli_place(
        shelf: *const u8,
        shelf_len: u64,
        address: u64,
        place: *mut u8,
        place_len: u64,
    ) -> u64;

    pub fn shqemtuli_look_up(
        shelf: *const u8,
        shelf_len: u64,
        disk: u64,
        offset: u64,
        found: *mut u8,
        found_len: u64,
    ) -> u64;

    pub fn shqemtuli_run(
        shelf: *const u8,
        shelf_len: u64,
        first: u64,
        list: *mut u8,
        list_len: u64,
    ) -> u64;

    pub fn shqemtuli_blank(shelf: *const u8, shelf_len: u64, image: *mut u8, image_len: u64)
        -> u64;

    pub fn shqemtuli_write(
        shelf: *const u8,
        shelf_len: u64,
        image: *mut u8,
        image_len: u64,
        address: u64,
        unit: *const u8,
        unit_len: u64,
        cost: *mut u8,
        cost_len: u64,
    ) -> u64;

    pub fn shqemtuli_write_stripe(
        shelf: *const u8,
        shelf_len: u64,
        image: *mut u8,
        image_len: u64,
        stripe: u64,
        buffer: *const u8,
        buffer_len: u64,
        cost: *mut u8,
        cost_len: u64,
    ) -> u64;

    pub fn shqemtuli_read(
        shelf: *const u8,
        shelf_len: u64,
        image: *const u8,
        image_len: u64,
        address: u64,
        buffer: *mut u8,
        buffer_len: u64,
        cost: *mut u8,
        cost_len: u64,
    ) -> u64;

    pub fn shqemtuli_lose(shelf: *mut u8, shelf_len: u64, disk: u64) -> u64;

    pub fn shqemtuli_rebuild(
        shelf: *mut u8,
        shelf_len: u64,
        image: *mut u8,
        image_len: u64,
        counts: *mut u8,
        counts_len: u64,
    ) -> u64;

    pub fn shqemtuli_scrub(
        shelf: *const u8,
        shelf_len: u64,
        image: *const u8,
        image_len: u64,
        wrong: *mut u8,
        wrong_len: u64,
    ) -> u64;

    pub fn shqemtuli_show_place(
        shelf: *const u8,
        shelf_len: u64,
        image: *const u8,
        image_len: u64,
        disk: u64,
        offset: u64,
    ) -> u64;

    pub fn shqemtuli_show_address(
        shelf: *const u8,
        shelf_len: u64,
        image: *const u8,
        image_len: u64,
        address: u64,
        other: *const u8,
        other_len: u64,
    ) -> u64;
}
