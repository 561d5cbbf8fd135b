//! The exported functions as C sees them (`include/kinchoyu.h`): a slice is pointer and length.
#![allow(unsafe_code)]

#[link(name = "kinchoyu", kind = "static")]
extern "C" {
    pub fn kinchoyu_plan_words() -> u64;
    pub fn kinchoyu_state_words() -> u64;
    pub fn kinchoyu_plan(
        parameters: *const u64,
        parameters_length: usize,
        gates: *const u64,
        gates_length: usize,
        plan: *mut u64,
        plan_length: usize,
    ) -> u64;
    pub fn kinchoyu_path(
        plan: *const u64,
        plan_length: usize,
        gate: u64,
        out: *mut u64,
        out_length: usize,
    ) -> u64;
    pub fn kinchoyu_table_id(
        plan: *const u64,
        plan_length: usize,
        out: *mut u64,
        out_length: usize,
    ) -> u64;
    pub fn kinchoyu_stats(
        plan: *const u64,
        plan_length: usize,
        out: *mut u64,
        out_length: usize,
    ) -> u64;
    pub fn kinchoyu_label(n: u64, c: u64, cell: u64, out: *mut u64, out_length: usize) -> u64;
    pub fn kinchoyu_representatives(n: u64, c: u64, out: *mut u64, out_length: usize) -> u64;
    pub fn kinchoyu_open(
        plan: *const u64,
        plan_length: usize,
        state: *mut u64,
        state_length: usize,
        constants: *mut u64,
        constants_length: usize,
        copies: *mut u64,
        copies_length: usize,
        scratch: *mut u64,
        scratch_length: usize,
        tables: *mut u64,
        tables_length: usize,
    ) -> u64;
    pub fn kinchoyu_rows(
        state: *mut u64,
        state_length: usize,
        piece: *const u64,
        piece_length: usize,
        constants: *mut u64,
        constants_length: usize,
    ) -> u64;
    pub fn kinchoyu_s_words(
        state: *mut u64,
        state_length: usize,
        piece: *const u64,
        piece_length: usize,
        constants: *mut u64,
        constants_length: usize,
    ) -> u64;
    pub fn kinchoyu_cells(
        state: *mut u64,
        state_length: usize,
        piece: *const u64,
        piece_length: usize,
        copies: *mut u64,
        copies_length: usize,
        scratch: *mut u64,
        scratch_length: usize,
    ) -> u64;
    pub fn kinchoyu_tables(
        state: *mut u64,
        state_length: usize,
        piece: *const u64,
        piece_length: usize,
        tables: *mut u64,
        tables_length: usize,
    ) -> u64;
    pub fn kinchoyu_calls(
        state: *mut u64,
        state_length: usize,
        list: *const u64,
        list_length: usize,
        numbers: *mut u64,
        numbers_length: usize,
        constants: *mut u64,
        constants_length: usize,
        copies: *mut u64,
        copies_length: usize,
        scratch: *mut u64,
        scratch_length: usize,
        tables: *mut u64,
        tables_length: usize,
    ) -> u64;
    pub fn kinchoyu_run(
        listing: *const u64,
        listing_length: usize,
        plan: *mut u64,
        plan_length: usize,
        constants: *mut u64,
        constants_length: usize,
        copies: *mut u64,
        copies_length: usize,
        scratch: *mut u64,
        scratch_length: usize,
        tables: *mut u64,
        tables_length: usize,
    ) -> u64;
    pub fn kinchoyu_pad(
        listing: *const u64,
        listing_length: usize,
        out: *mut u64,
        out_length: usize,
        count: *mut u64,
        count_length: usize,
    ) -> u64;
    pub fn kinchoyu_finish(
        state: *mut u64,
        state_length: usize,
        copies: *mut u64,
        copies_length: usize,
        scratch: *const u64,
        scratch_length: usize,
    ) -> u64;
}
