//! The C interface, as include/nakhshirul.h declares it.
extern "C" {
    pub fn nakhshirul_ask(
        a: *const u8,
        a_len: usize,
        b: *const u8,
        b_len: usize,
        c: *const u8,
        c_len: usize,
        who: u8,
        number: u64,
        code: u16,
        list: *mut u32,
        list_len: usize,
        reply: *mut u64,
    ) -> u64;
    pub fn nakhshirul_value(
        a: *const u8,
        a_len: usize,
        b: *const u8,
        b_len: usize,
        c: *const u8,
        c_len: usize,
        who: u8,
        number: u64,
        code: u16,
        reply: *mut u64,
    ) -> u64;
    pub fn nakhshirul_named(
        a: *const u8,
        a_len: usize,
        b: *const u8,
        b_len: usize,
        c: *const u8,
        c_len: usize,
        reply: *mut u64,
    ) -> u64;
    pub fn nakhshirul_export(
        a: *const u8,
        a_len: usize,
        b: *const u8,
        b_len: usize,
        c: *const u8,
        c_len: usize,
        out: *mut u8,
        out_len: usize,
        reply: *mut u64,
    ) -> u64;
    pub fn nakhshirul_export_length(
        a: *const u8,
        a_len: usize,
        b: *const u8,
        b_len: usize,
        c: *const u8,
        c_len: usize,
        reply: *mut u64,
    ) -> u64;
    pub fn nakhshirul_why(
        a: *const u8,
        a_len: usize,
        b: *const u8,
        b_len: usize,
        c: *const u8,
        c_len: usize,
        who: u8,
        number: u64,
        code: u16,
        reply: *mut u64,
    ) -> u64;
    pub fn nakhshirul_run_ask(
        run: *const u8,
        run_len: usize,
        who: u8,
        number: u64,
        code: u16,
        list: *mut u32,
        list_len: usize,
        reply: *mut u64,
    ) -> u64;
    pub fn nakhshirul_run_value(
        run: *const u8,
        run_len: usize,
        who: u8,
        number: u64,
        code: u16,
        reply: *mut u64,
    ) -> u64;
    pub fn nakhshirul_run_named(run: *const u8, run_len: usize, reply: *mut u64) -> u64;
    pub fn nakhshirul_run_why(
        run: *const u8,
        run_len: usize,
        who: u8,
        number: u64,
        code: u16,
        reply: *mut u64,
    ) -> u64;
}
