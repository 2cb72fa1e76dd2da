//! The exported calls of the proved static library. Their contracts stand in `crates/kiqsaryn/src/lib.rt`, and `c/kiqsaryn.h` has them
//! for C.

extern "C" {
    pub fn kiqsaryn_check_trace(
        text: *const u8,
        text_len: usize,
        header: u32,
        model: u32,
        row_limit: u32,
        process_limit: u32,
        byte_limit: usize,
        rows: *mut u32,
        rows_len: usize,
        counts: *mut u16,
        counts_len: usize,
    ) -> u64;

    pub fn kiqsaryn_judge(
        text: *const u8,
        text_len: usize,
        header: u32,
        model: u32,
        row_limit: u32,
        process_limit: u32,
        byte_limit: usize,
        rows: *mut u32,
        rows_len: usize,
        counts: *mut u16,
        counts_len: usize,
    ) -> u64;

    pub fn kiqsaryn_fill_counts(rows: *const u32, rows_len: usize, n: u32, process_limit: u32, counts: *mut u16, counts_len: usize) -> u32;

    pub fn kiqsaryn_verdict(
        rows: *const u32,
        rows_len: usize,
        n: u32,
        process_limit: u32,
        model: u32,
        counts: *mut u16,
        counts_len: usize,
    ) -> u64;

    pub fn kiqsaryn_races(
        rows: *const u32,
        rows_len: usize,
        n: u32,
        process_limit: u32,
        model: u32,
        counts: *mut u16,
        counts_len: usize,
        list: *mut u32,
        list_len: usize,
    ) -> u64;

    pub fn kiqsaryn_list_races(
        text: *const u8,
        text_len: usize,
        header: u32,
        model: u32,
        row_limit: u32,
        process_limit: u32,
        byte_limit: usize,
        rows: *mut u32,
        rows_len: usize,
        counts: *mut u16,
        counts_len: usize,
        list: *mut u32,
        list_len: usize,
    ) -> u64;

    pub fn kiqsaryn_report(text: *const u8, text_len: usize, out: *mut u8, out_len: usize) -> usize;

    pub fn kiqsaryn_write(
        rows: *const u32,
        rows_len: usize,
        n: u32,
        header: u32,
        process_limit: u32,
        out: *mut u8,
        out_len: usize,
        place: usize,
    ) -> u64;

    pub fn kiqsaryn_read_file(
        text: *const u8,
        text_len: usize,
        header: u32,
        row_limit: u32,
        process_limit: u32,
        rows: *mut u32,
        rows_len: usize,
    ) -> u64;

    pub fn kiqsaryn_join(
        first: *const u8,
        first_len: usize,
        first_header: u32,
        second: *const u8,
        second_len: usize,
        second_header: u32,
        model: u32,
        row_limit: u32,
        process_limit: u32,
        rows: *mut u32,
        rows_len: usize,
        counts: *mut u16,
        counts_len: usize,
        parts: *mut u64,
        parts_len: usize,
    ) -> u64;

    pub fn kiqsaryn_make(model: u32, process_limit: u32, file: u32, map_space: u32, maps: *mut u32, maps_len: usize) -> u32;

    pub fn kiqsaryn_make_plain(process_limit: u32, file: u32, map_space: u32, map: *mut u32, map_len: usize) -> u32;

    pub fn kiqsaryn_step(
        model: u32,
        process_limit: u32,
        file: u32,
        map_space: u32,
        maps: *mut u32,
        maps_len: usize,
        process: u32,
        kind: u32,
        row_file: u32,
        offset: u32,
        size: u32,
        number: u32,
        out: *mut u32,
        out_len: usize,
    ) -> u64;

    pub fn kiqsaryn_step_plain(
        process_limit: u32,
        file: u32,
        map_space: u32,
        map: *mut u32,
        map_len: usize,
        process: u32,
        kind: u32,
        row_file: u32,
        offset: u32,
        size: u32,
        number: u32,
        out: *mut u32,
        out_len: usize,
    ) -> u64;

    pub fn kiqsaryn_replay(
        model: u32,
        process_limit: u32,
        file: u32,
        map_space: u32,
        maps: *mut u32,
        maps_len: usize,
        rows: *const u32,
        rows_len: usize,
        first: u32,
        n: u32,
        counts: *mut u32,
        counts_len: usize,
        out: *mut u32,
        out_len: usize,
    ) -> u64;

    pub fn kiqsaryn_replay_plain(
        process_limit: u32,
        file: u32,
        map_space: u32,
        map: *mut u32,
        map_len: usize,
        rows: *const u32,
        rows_len: usize,
        first: u32,
        n: u32,
        counts: *mut u32,
        counts_len: usize,
        out: *mut u32,
        out_len: usize,
    ) -> u64;

    pub fn kiqsaryn_lookup(map: *const u32, map_len: usize, byte: u32) -> u64;
}
