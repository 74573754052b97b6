//! Zaatarloft's calls for Rust: safe wrappers of the proved library.
//!
//! A matrix record goes in as bytes, a netlist of additions, subtractions and shifts comes out as bytes; `generate` makes
//! matrix records from seeds, and `read_matrix_market` from Matrix Market files; `write_verilog` makes a netlist's Verilog module;
//! `clock` takes one vector every clock through a netlist whose values wait in registers, as many as `registers` says.
//! The calls are proved; these wrappers are not. Each returns what document 01 says, or the refusal with its number and place.
//!
//! ```
//! let matrix = [0x0A, 0, 1, 0, 1, 2, 3, 0, 0xFD, 0xFF]; // row 3, −3
//! let mut buffer = [0; zaatarloft::NETLIST_BYTES];
//! let compiled = zaatarloft::compile(&matrix, 16, &mut buffer)?; // for samples of 16 bits
//! assert_eq!((compiled.operations, compiled.depth, compiled.negated), (2, 2, 0));
//! let mut outputs = [0];
//! zaatarloft::run(&buffer[..compiled.written], &[32_767, -32_768], &mut outputs)?;
//! assert_eq!(outputs, [196_605]);
//! # Ok::<(), zaatarloft::Refusal>(())
//! ```
//!
//! Code written when all samples had 16 bits passes 16 to `compile` as the second argument, lends samples to `run` as `i32`, and gives
//! a netlist a buffer of 6,137 bytes, one more than before. include/zaatarloft.h says what else request A8 changed.

pub mod raw;

use std::error::Error;
use std::fmt;

/// So many bytes always suffice for a netlist.
pub const NETLIST_BYTES: usize = 6137;

/// So many bytes always suffice for a matrix record, of up to 8 by 8.
pub const MATRIX_BYTES: usize = 134;

/// So many bytes always suffice for the text of a Verilog module.
pub const VERILOG_BYTES: usize = 37987;

/// Why a record was declined: document 01's number and place.
#[derive(Debug, Clone, Copy, PartialEq, Eq)]
pub struct Refusal {
    /// From 1 to 21.
    pub number: u8,
    /// A place in the bytes lent; a row for 14, and a sample's index for 21, in `clock` that in the whole list.
    pub place: usize,
}

/// What calls return and when, a line each: `number, place | words`.
const REFUSALS: &str = include_str!("../../include/refusals.txt");

impl Refusal {
    /// When a call returns the number, in words.
    pub fn words(&self) -> &'static str {
        let words = REFUSALS.lines().find_map(|line| {
            let (returned, words) = line.split_once(" | ")?;
            let (number, _) = returned.split_once(", ")?;
            (number.parse() == Ok(self.number)).then_some(words)
        });
        words.unwrap_or("no refusal of document 01")
    }
}

impl fmt::Display for Refusal {
    fn fmt(&self, f: &mut fmt::Formatter<'_>) -> fmt::Result {
        write!(
            f,
            "refused {} at {}: {}",
            self.number,
            self.place,
            self.words()
        )
    }
}

impl Error for Refusal {}

/// What an accepted compile returns.
#[derive(Debug, Clone, Copy, PartialEq, Eq)]
pub struct Compiled {
    /// The netlist is the buffer's first `written` bytes; the bytes behind them are as they were.
    pub written: usize,
    pub operations: u16,
    pub plain: u16,
    pub divisors: u16,
    pub replacements: u16,
    pub depth: u16,
    /// Outputs with sign minus.
    pub negated: u16,
}

/// What an accepted read returns.
#[derive(Debug, Clone, Copy, PartialEq, Eq)]
pub struct Netlist {
    pub m: u8,
    pub n: u8,
    pub operations: u16,
    pub depth: u16,
}

/// What an accepted step returns.
#[derive(Debug, Clone, Copy, PartialEq, Eq)]
pub struct Record<'a> {
    pub kind: u16,
    /// The part of the lent bytes behind length and kind.
    pub payload: &'a [u8],
    /// The place behind the record.
    pub next: usize,
}

/// Where the number is 0, what was accepted.
fn accepted<T>(number: u8, place: usize, answer: T) -> Result<T, Refusal> {
    if number == 0 {
        Ok(answer)
    } else {
        Err(Refusal { number, place })
    }
}

/// From a matrix record and the width of a detector's samples, 8 to 24 bits, to the netlist, at the start of the buffer;
/// `NETLIST_BYTES` always suffice. Refusals 20, then 1 to 6, which leave the buffer as it was. No bytes are a bank of no rows and
/// no inputs:
///
/// ```
/// let mut buffer = [0; 16];
/// assert_eq!(zaatarloft::compile(&[], 16, &mut buffer)?.written, 16);
/// zaatarloft::check(&[], &buffer)?;
/// zaatarloft::run(&buffer, &[], &mut [])?;
/// # Ok::<(), zaatarloft::Refusal>(())
/// ```
pub fn compile(matrix: &[u8], sample_width: u8, buffer: &mut [u8]) -> Result<Compiled, Refusal> {
    let mut place = 0;
    let mut compiled = Compiled {
        written: 0,
        operations: 0,
        plain: 0,
        divisors: 0,
        replacements: 0,
        depth: 0,
        negated: 0,
    };
    // SAFETY: both slices are valid for their lengths, the buffer for writes, and all references are to distinct numbers. A
    // slice's pointer is aligned and not null, here and in the calls below, also where the slice is empty.
    let number = unsafe {
        raw::zaatarloft_raw_compile(
            matrix.as_ptr(),
            matrix.len(),
            sample_width,
            buffer.as_mut_ptr(),
            buffer.len(),
            &mut place,
            &mut compiled.written,
            &mut compiled.operations,
            &mut compiled.plain,
            &mut compiled.divisors,
            &mut compiled.replacements,
            &mut compiled.depth,
            &mut compiled.negated,
        )
    };
    accepted(number, place, compiled)
}

/// Reads a netlist, and with it tests every record of it. Refusals 7 to 12.
pub fn read(netlist: &[u8]) -> Result<Netlist, Refusal> {
    let mut place = 0;
    let mut read = Netlist {
        m: 0,
        n: 0,
        operations: 0,
        depth: 0,
    };
    // SAFETY: the slice is valid for its length, and all references are to distinct numbers.
    let number = unsafe {
        raw::zaatarloft_raw_read(
            netlist.as_ptr(),
            netlist.len(),
            &mut place,
            &mut read.m,
            &mut read.n,
            &mut read.operations,
            &mut read.depth,
        )
    };
    accepted(number, place, read)
}

/// The width of the samples that a netlist takes. Refusals 7 to 12, as `read`.
///
/// ```
/// let matrix = [0x0A, 0, 1, 0, 1, 2, 3, 0, 0xFD, 0xFF]; // row 3, −3
/// let mut buffer = [0; zaatarloft::NETLIST_BYTES];
/// let written = zaatarloft::compile(&matrix, 12, &mut buffer)?.written;
/// let netlist = &buffer[..written];
/// assert_eq!(zaatarloft::sample_width(netlist)?, 12);
/// let mut outputs = [0];
/// zaatarloft::run(netlist, &[2_047, -2_048], &mut outputs)?;
/// assert_eq!(outputs, [12_285]);
/// let refusal = zaatarloft::run(netlist, &[2_047, 2_048], &mut outputs).unwrap_err();
/// assert_eq!((refusal.number, refusal.place), (21, 1));
/// # Ok::<(), zaatarloft::Refusal>(())
/// ```
pub fn sample_width(netlist: &[u8]) -> Result<u8, Refusal> {
    let mut place = 0;
    let mut width = 0;
    // SAFETY: the slice is valid for its length, and both references are to distinct numbers.
    let number = unsafe {
        raw::zaatarloft_raw_sample_width(netlist.as_ptr(), netlist.len(), &mut place, &mut width)
    };
    accepted(number, place, width)
}

/// Accepts a netlist that computes the matrix, whoever made it. Refusals 1 to 5, 7 to 12, 13 and 14.
pub fn check(matrix: &[u8], netlist: &[u8]) -> Result<(), Refusal> {
    let mut place = 0;
    // SAFETY: both slices are valid for their lengths.
    let number = unsafe {
        raw::zaatarloft_raw_check(
            matrix.as_ptr(),
            matrix.len(),
            netlist.as_ptr(),
            netlist.len(),
            &mut place,
        )
    };
    accepted(number, place, ())
}

/// Runs a netlist on n samples, each of which fits the netlist's sample width, and fills m outputs. Refusals 7 to 12, 15, 16 and 21,
/// which leave the outputs as they were.
pub fn run(netlist: &[u8], samples: &[i32], outputs: &mut [i64]) -> Result<(), Refusal> {
    let mut place = 0;
    // SAFETY: all three slices are valid for their lengths, the outputs for writes, and none of them overlaps another.
    let number = unsafe {
        raw::zaatarloft_raw_run(
            netlist.as_ptr(),
            netlist.len(),
            samples.as_ptr(),
            samples.len(),
            outputs.as_mut_ptr(),
            outputs.len(),
            &mut place,
        )
    };
    accepted(number, place, ())
}

/// The record at a place, for any bytes and any place. Refusals 7, and 8 for a length below 4.
pub fn step(bytes: &[u8], place: usize) -> Result<Record<'_>, Refusal> {
    let mut refused_at = 0;
    let mut kind = 0;
    let mut next = 0;
    // SAFETY: the slice is valid for its length, and all references are to distinct numbers.
    let number = unsafe {
        raw::zaatarloft_raw_step(
            bytes.as_ptr(),
            bytes.len(),
            place,
            &mut refused_at,
            &mut kind,
            &mut next,
        )
    };
    accepted(number, refused_at, ())?;
    Ok(Record {
        kind,
        payload: &bytes[place + 4..next],
        next,
    })
}

/// From m, n and a seed to the matrix record that they name, at the start of the buffer; returns the bytes written. The bytes
/// behind them are as they were; `MATRIX_BYTES` always suffice. Refusals 4 and 6, which leave the buffer as it was.
pub fn generate(m: u8, n: u8, seed: u32, buffer: &mut [u8]) -> Result<usize, Refusal> {
    let mut place = 0;
    let mut written = 0;
    // SAFETY: the slice is valid for its length and for writes, and both references are to distinct numbers.
    let number = unsafe {
        raw::zaatarloft_raw_generate(
            m,
            n,
            seed,
            buffer.as_mut_ptr(),
            buffer.len(),
            &mut place,
            &mut written,
        )
    };
    accepted(number, place, written)
}

/// From the bytes of a Matrix Market file, `matrix array integer general`, to the matrix record of its matrix, at the start of
/// the buffer; returns the bytes written. The bytes behind them are as they were; `MATRIX_BYTES` always suffice. Refusals 4, 6 and
/// 17 to 19, which leave the buffer as it was.
///
/// ```
/// let file = b"%%MatrixMarket matrix array integer general\n% row 3, -3\n1 2\n3\n-3\n";
/// let mut buffer = [0; zaatarloft::MATRIX_BYTES];
/// let written = zaatarloft::read_matrix_market(file, &mut buffer)?;
/// assert_eq!(buffer[..written], [0x0A, 0, 1, 0, 1, 2, 3, 0, 0xFD, 0xFF]);
/// # Ok::<(), zaatarloft::Refusal>(())
/// ```
pub fn read_matrix_market(text: &[u8], buffer: &mut [u8]) -> Result<usize, Refusal> {
    let mut place = 0;
    let mut written = 0;
    // SAFETY: both slices are valid for their lengths, the buffer for writes, and both references are to distinct numbers.
    let number = unsafe {
        raw::zaatarloft_raw_read_matrix_market(
            text.as_ptr(),
            text.len(),
            buffer.as_mut_ptr(),
            buffer.len(),
            &mut place,
            &mut written,
        )
    };
    accepted(number, place, written)
}

/// From a netlist to the text of its Verilog module `bank` (IEEE 1364-2005), at the start of the buffer; returns the bytes written. The
/// bytes behind them are as they were; `VERILOG_BYTES` always suffice. Refusals 7 to 12, as `read`, then 6, which leave the buffer
/// as it was.
///
/// ```
/// let matrix = [0x0A, 0, 1, 0, 1, 2, 3, 0, 0xFD, 0xFF]; // row 3, −3
/// let mut netlist = [0; zaatarloft::NETLIST_BYTES];
/// let compiled = zaatarloft::compile(&matrix, 16, &mut netlist)?;
/// let mut buffer = [0; zaatarloft::VERILOG_BYTES];
/// let written = zaatarloft::write_verilog(&netlist[..compiled.written], &mut buffer)?;
/// let module = "\
/// module bank (
///   input signed [15:0] x0,
///   input signed [15:0] x1,
///   output signed [18:0] y0
/// );
///   wire signed [16:0] s2;
///   wire signed [18:0] s3;
///   assign s2 = (x0 <<< 0) - (x1 <<< 0);
///   assign s3 = (s2 <<< 2) - (s2 <<< 0);
///   assign y0 = (s3 <<< 0);
/// endmodule
/// ";
/// assert_eq!(&buffer[..written], module.as_bytes());
/// # Ok::<(), zaatarloft::Refusal>(())
/// ```
pub fn write_verilog(netlist: &[u8], buffer: &mut [u8]) -> Result<usize, Refusal> {
    let mut place = 0;
    let mut written = 0;
    // SAFETY: both slices are valid for their lengths, the buffer for writes, and both references are to distinct numbers.
    let number = unsafe {
        raw::zaatarloft_raw_write_verilog(
            netlist.as_ptr(),
            netlist.len(),
            buffer.as_mut_ptr(),
            buffer.len(),
            &mut place,
            &mut written,
        )
    };
    accepted(number, place, written)
}

/// How many registers a netlist's clocked form has: one for each operation, and for each symbol as many as its longest delay.
/// `clock` needs a store of so many numbers. Refusals 7 to 12, as `read`.
pub fn registers(netlist: &[u8]) -> Result<usize, Refusal> {
    let mut place = 0;
    let mut registers = 0;
    // SAFETY: the slice is valid for its length, and both references are to distinct numbers.
    let number = unsafe {
        raw::zaatarloft_raw_registers(netlist.as_ptr(), netlist.len(), &mut place, &mut registers)
    };
    accepted(number, place, registers)
}

/// Clocks a whole list of vectors through a netlist, n samples a clock, each of which fits the netlist's sample width, and fills m
/// outputs a clock. The first outputs are zero, for as many clocks as the netlist is deep; from there on a clock has `run`'s outputs
/// for the vector of so many clocks before.
///
/// The registers are the first numbers of the store. They are cleared, also for an empty list, and left as they are after the last
/// clock: the operations' by symbol, then each symbol's delays by symbol, newest first; the numbers behind them are as they were.
/// Refusals 7 to 12, as `read`, then 6, 15, 16 and 21, which leave store and outputs as they were.
///
/// ```
/// let matrix = [0x0A, 0, 1, 0, 1, 2, 3, 0, 0xFD, 0xFF]; // row 3, −3
/// let mut buffer = [0; zaatarloft::NETLIST_BYTES];
/// let compiled = zaatarloft::compile(&matrix, 16, &mut buffer)?;
/// let netlist = &buffer[..compiled.written];
/// assert_eq!((compiled.depth, zaatarloft::registers(netlist)?), (2, 2));
/// let vectors = [5, 1, 2, 2, 1, 0, 0, 9];
/// let (mut store, mut outputs) = ([7; 3], [7; 4]);
/// zaatarloft::clock(netlist, &vectors, &mut store, &mut outputs)?;
/// assert_eq!(outputs, [0, 0, 12, 0]); // 3 times 5 − 1, and 3 times 2 − 2, two clocks later each
/// assert_eq!(store, [-9, 3, 7]); // 0 − 9, and 3 times 1 − 0
/// # Ok::<(), zaatarloft::Refusal>(())
/// ```
pub fn clock(
    netlist: &[u8],
    samples: &[i32],
    store: &mut [i64],
    outputs: &mut [i64],
) -> Result<(), Refusal> {
    let mut place = 0;
    // SAFETY: all four slices are valid for their lengths, store and outputs for writes, and none of them overlaps another.
    let number = unsafe {
        raw::zaatarloft_raw_clock(
            netlist.as_ptr(),
            netlist.len(),
            samples.as_ptr(),
            samples.len(),
            store.as_mut_ptr(),
            store.len(),
            outputs.as_mut_ptr(),
            outputs.len(),
            &mut place,
        )
    };
    accepted(number, place, ())
}
