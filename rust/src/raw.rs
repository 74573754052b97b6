//! The functions that the library exports, as C sees them, unsafe to call; include/zaatarloft.h says what the caller owes.
//!
//! Made from that header by rust/declarations, and tested to be so.

extern "C" {
    pub fn zaatarloft_raw_compile(
        matrix: *const u8,
        matrix_length: usize,
        sample_width: u8,
        buffer: *mut u8,
        buffer_length: usize,
        place: *mut usize,
        written: *mut usize,
        operations: *mut u16,
        plain: *mut u16,
        divisors: *mut u16,
        replacements: *mut u16,
        depth: *mut u16,
        negated: *mut u16,
    ) -> u8;
}
extern "C" {
    pub fn zaatarloft_raw_read(
        netlist: *const u8,
        netlist_length: usize,
        place: *mut usize,
        m: *mut u8,
        n: *mut u8,
        operations: *mut u16,
        depth: *mut u16,
    ) -> u8;
}
extern "C" {
    pub fn zaatarloft_raw_sample_width(
        netlist: *const u8,
        netlist_length: usize,
        place: *mut usize,
        width: *mut u8,
    ) -> u8;
}
extern "C" {
    pub fn zaatarloft_raw_check(
        matrix: *const u8,
        matrix_length: usize,
        netlist: *const u8,
        netlist_length: usize,
        place: *mut usize,
    ) -> u8;
}
extern "C" {
    pub fn zaatarloft_raw_run(
        netlist: *const u8,
        netlist_length: usize,
        samples: *const i32,
        samples_length: usize,
        outputs: *mut i64,
        outputs_length: usize,
        place: *mut usize,
    ) -> u8;
}
extern "C" {
    pub fn zaatarloft_raw_step(
        bytes: *const u8,
        bytes_length: usize,
        at: usize,
        place: *mut usize,
        kind: *mut u16,
        next: *mut usize,
    ) -> u8;
}
extern "C" {
    pub fn zaatarloft_raw_generate(
        m: u8,
        n: u8,
        seed: u32,
        buffer: *mut u8,
        buffer_length: usize,
        place: *mut usize,
        written: *mut usize,
    ) -> u8;
}
extern "C" {
    pub fn zaatarloft_raw_read_matrix_market(
        text: *const u8,
        text_length: usize,
        buffer: *mut u8,
        buffer_length: usize,
        place: *mut usize,
        written: *mut usize,
    ) -> u8;
}
extern "C" {
    pub fn zaatarloft_raw_write_verilog(
        netlist: *const u8,
        netlist_length: usize,
        buffer: *mut u8,
        buffer_length: usize,
        place: *mut usize,
        written: *mut usize,
    ) -> u8;
}
extern "C" {
    pub fn zaatarloft_raw_registers(
        netlist: *const u8,
        netlist_length: usize,
        place: *mut usize,
        registers: *mut usize,
    ) -> u8;
}
extern "C" {
    pub fn zaatarloft_raw_clock(
        netlist: *const u8,
        netlist_length: usize,
        samples: *const i32,
        samples_length: usize,
        store: *mut i64,
        store_length: usize,
        outputs: *mut i64,
        outputs_length: usize,
        place: *mut usize,
    ) -> u8;
}
