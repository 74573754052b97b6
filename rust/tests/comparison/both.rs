//! Each call made on both sides, compared and counted.

use std::fmt::Debug;

use cases::{Met, Random};

/// What stands around a lent buffer, to see that nothing is written there.
const MARGIN: usize = 32;

/// How often each answer was met, call by call.
#[derive(Default)]
pub struct Both {
    compile: Met,
    read: Met,
    sample_width: Met,
    check: Met,
    run: Met,
    step: Met,
    generate: Met,
    market: Met,
    verilog: Met,
    registers: Met,
    clock: Met,
}

/// A refusal's number and place, of either side.
type Refused = (u8, usize);

fn verified<T>(answer: Result<T, zaatarloft::Refusal>) -> Result<T, Refused> {
    answer.map_err(|refusal| (refusal.number, refusal.place))
}

fn independent<T>(answer: Result<T, reference::Refusal>) -> Result<T, Refused> {
    answer.map_err(|refusal| (refusal.number, refusal.place))
}

/// The number of an answer: 0 where it was accepted.
fn number<T>(answer: &Result<T, Refused>) -> u8 {
    match answer {
        Ok(_) => 0,
        Err((number, _)) => *number,
    }
}

/// Old bytes of a buffer, none of them 0, so that also a cleared one is seen.
pub fn old_bytes(random: &mut Random, room: usize) -> Vec<u8> {
    random.bytes(room).iter().map(|byte| byte | 1).collect()
}

/// Old numbers of outputs or of a store, none of them 0.
pub fn old_numbers(random: &mut Random, count: usize) -> Vec<i64> {
    (0..count).map(|_| random.number() as i64 | 1).collect()
}

/// Lends a call a buffer with these old contents, and returns its answer and the contents afterwards.
fn lend<T, R>(old: &[T], margin: T, call: impl FnOnce(&mut [T]) -> R) -> (R, Vec<T>)
where
    T: Copy + PartialEq + Debug,
{
    let mut whole = vec![margin; MARGIN];
    whole.extend_from_slice(old);
    whole.resize(old.len() + 2 * MARGIN, margin);
    let (before, rest) = whole.split_at_mut(MARGIN);
    let (lent, after) = rest.split_at_mut(old.len());
    let answer = call(lent);
    assert_eq!(before, [margin; MARGIN]);
    assert_eq!(after, [margin; MARGIN]);
    (answer, lent.to_vec())
}

impl Both {
    /// Compiles for samples of so many bits into a buffer with these old bytes, and returns the netlist where it was accepted.
    pub fn compile(&mut self, matrix: &[u8], width: u8, old: &[u8]) -> Option<Vec<u8>> {
        let (answer, buffer) = lend(old, 0x5A, |lent| zaatarloft::compile(matrix, width, lent));
        let (expected, contents) = lend(old, 0x5A, |lent| reference::compile(matrix, width, lent));
        let expected = independent(expected);
        let answer = verified(answer).map(|c| reference::Compiled {
            written: c.written,
            operations: c.operations,
            plain: c.plain,
            divisors: c.divisors,
            replacements: c.replacements,
            depth: c.depth,
            negated: c.negated,
        });
        assert_eq!(answer, expected, "compile of {matrix:?}, {width} bits");
        assert_eq!(buffer, contents, "buffer of {matrix:?}, {width} bits");
        self.compile.count(number(&answer));

        let written = answer.map_or(0, |compiled| compiled.written);
        assert_eq!(buffer[written..], old[written..]);
        answer.ok().map(|_| buffer[..written].to_vec())
    }

    pub fn read(&mut self, netlist: &[u8]) -> Option<reference::Netlist> {
        let expected = independent(reference::read(netlist));
        let answer = verified(zaatarloft::read(netlist)).map(|read| reference::Netlist {
            m: read.m,
            n: read.n,
            operations: read.operations,
            depth: read.depth,
        });
        assert_eq!(answer, expected, "read of {netlist:?}");
        self.read.count(number(&answer));
        answer.ok()
    }

    pub fn sample_width(&mut self, netlist: &[u8]) -> Option<u8> {
        let expected = independent(reference::sample_width(netlist));
        let answer = verified(zaatarloft::sample_width(netlist));
        assert_eq!(answer, expected, "sample width of {netlist:?}");
        self.sample_width.count(number(&answer));
        answer.ok()
    }

    pub fn check(&mut self, matrix: &[u8], netlist: &[u8]) -> bool {
        let expected = independent(reference::check(matrix, netlist));
        let answer = verified(zaatarloft::check(matrix, netlist));
        assert_eq!(answer, expected, "check of {matrix:?} and {netlist:?}");
        self.check.count(number(&answer));
        answer.is_ok()
    }

    /// Runs on outputs with these old contents, and returns the outputs where it was accepted.
    pub fn run(&mut self, netlist: &[u8], samples: &[i32], old: &[i64]) -> Option<Vec<i64>> {
        let (expected, values) = lend(old, -7, |lent| reference::run(netlist, samples, lent));
        let (answer, outputs) = lend(old, -7, |lent| zaatarloft::run(netlist, samples, lent));
        let (answer, expected) = (verified(answer), independent(expected));
        assert_eq!(answer, expected, "run of {netlist:?} on {samples:?}");
        assert_eq!(outputs, values, "outputs of {netlist:?} on {samples:?}");
        self.run.count(number(&answer));

        if answer.is_err() {
            assert_eq!(outputs, old);
        }
        answer.ok().map(|_| outputs)
    }

    pub fn step(&mut self, bytes: &[u8], place: usize) {
        let expected = independent(reference::step(bytes, place));
        let answer = verified(zaatarloft::step(bytes, place)).map(|record| reference::Record {
            kind: record.kind,
            payload: record.payload,
            next: record.next,
        });
        assert_eq!(answer, expected, "step at {place} of {bytes:?}");
        if let (Ok(record), Ok(other)) = (answer, expected) {
            let (payload, expected) = (record.payload.as_ptr(), other.payload.as_ptr());
            assert_eq!(payload, expected, "the payload is a part of the lent bytes");
        }
        self.step.count(number(&answer));
    }

    /// Generates into a buffer with these old bytes, and returns the matrix record where it was accepted.
    pub fn generate(&mut self, m: u8, n: u8, seed: u32, old: &[u8]) -> Option<Vec<u8>> {
        let (answer, buffer) = lend(old, 0x5A, |lent| zaatarloft::generate(m, n, seed, lent));
        let (expected, contents) = lend(old, 0x5A, |lent| reference::generate(m, n, seed, lent));
        let (answer, expected) = (verified(answer), independent(expected));
        let room = old.len();
        assert_eq!(answer, expected, "generate {m} {n} {seed}, {room} bytes");
        assert_eq!(buffer, contents, "buffer of {m} {n} {seed}, {room} bytes");
        self.generate.count(number(&answer));

        let written = answer.unwrap_or(0);
        assert_eq!(buffer[written..], old[written..]);
        answer.ok().map(|_| buffer[..written].to_vec())
    }

    /// Reads a Matrix Market file into a buffer with these old bytes, and returns the matrix record where it was accepted.
    pub fn read_matrix_market(&mut self, text: &[u8], old: &[u8]) -> Option<Vec<u8>> {
        let (answer, buffer) = lend(old, 0x5A, |lent| zaatarloft::read_matrix_market(text, lent));
        let (expected, contents) =
            lend(old, 0x5A, |lent| reference::read_matrix_market(text, lent));
        let (answer, expected) = (verified(answer), independent(expected));
        let (shown, room) = (text.escape_ascii(), old.len());
        assert_eq!(
            answer, expected,
            "read_matrix_market of {shown}, {room} bytes"
        );
        assert_eq!(buffer, contents, "buffer after {shown}, {room} bytes");
        self.market.count(number(&answer));

        let written = answer.unwrap_or(0);
        assert_eq!(buffer[written..], old[written..]);
        answer.ok().map(|_| buffer[..written].to_vec())
    }

    /// Writes a netlist's Verilog text into a buffer with these old bytes, and returns the text where it was accepted.
    pub fn write_verilog(&mut self, netlist: &[u8], old: &[u8]) -> Option<Vec<u8>> {
        let (answer, buffer) = lend(old, 0x5A, |lent| zaatarloft::write_verilog(netlist, lent));
        let (expected, contents) = lend(old, 0x5A, |lent| reference::write_verilog(netlist, lent));
        let (answer, expected) = (verified(answer), independent(expected));
        let room = old.len();
        assert_eq!(
            answer, expected,
            "write_verilog of {netlist:?}, {room} bytes"
        );
        assert!(
            buffer == contents,
            "buffer after {netlist:?}, {room} bytes:\n{}\nand not\n{}",
            buffer.escape_ascii(),
            contents.escape_ascii()
        );
        self.verilog.count(number(&answer));

        let written = answer.unwrap_or(0);
        assert_eq!(buffer[written..], old[written..]);
        answer.ok().map(|_| buffer[..written].to_vec())
    }

    pub fn registers(&mut self, netlist: &[u8]) -> Option<usize> {
        let expected = independent(reference::registers(netlist));
        let answer = verified(zaatarloft::registers(netlist));
        assert_eq!(answer, expected, "registers of {netlist:?}");
        self.registers.count(number(&answer));
        answer.ok()
    }

    /// Clocks a list on a store and outputs with these old contents, and returns the outputs where it was accepted. A refusal leaves both
    /// as they were, and what is behind the registers stays.
    pub fn clock(
        &mut self,
        netlist: &[u8],
        samples: &[i32],
        store: &[i64],
        outputs: &[i64],
    ) -> Option<Vec<i64>> {
        let ((answer, filled), left) = lend(store, -7, |store| {
            lend(outputs, -9, |outputs| {
                zaatarloft::clock(netlist, samples, store, outputs)
            })
        });
        let ((expected, values), numbers) = lend(store, -7, |store| {
            lend(outputs, -9, |outputs| {
                reference::clock(netlist, samples, store, outputs)
            })
        });
        let (answer, expected) = (verified(answer), independent(expected));
        let room = store.len();
        let case = || format!("clock of {netlist:?} on {samples:?} with {room} registers");
        assert_eq!(answer, expected, "{}", case());
        assert_eq!(filled, values, "outputs of {}", case());
        assert_eq!(left, numbers, "store of {}", case());
        self.clock.count(number(&answer));

        match answer {
            Ok(()) => {
                let total = reference::registers(netlist).unwrap();
                assert_eq!(left[total..], store[total..]);
                Some(filled)
            }
            Err(_) => {
                assert_eq!((&left[..], &filled[..]), (store, outputs));
                None
            }
        }
    }

    pub fn assert_compile(&self, numbers: &[u8], least: u64) {
        self.compile.assert_exactly("compile", numbers, least);
    }

    pub fn assert_read(&self, numbers: &[u8], least: u64) {
        self.read.assert_exactly("read", numbers, least);
    }

    pub fn assert_sample_width(&self, numbers: &[u8], least: u64) {
        self.sample_width
            .assert_exactly("sample_width", numbers, least);
    }

    pub fn assert_check(&self, numbers: &[u8], least: u64) {
        self.check.assert_exactly("check", numbers, least);
    }

    pub fn assert_run(&self, numbers: &[u8], least: u64) {
        self.run.assert_exactly("run", numbers, least);
    }

    pub fn assert_step(&self, numbers: &[u8], least: u64) {
        self.step.assert_exactly("step", numbers, least);
    }

    pub fn assert_generate(&self, numbers: &[u8], least: u64) {
        self.generate.assert_exactly("generate", numbers, least);
    }

    pub fn assert_market(&self, numbers: &[u8], least: u64) {
        let call = "read_matrix_market";
        self.market.assert_exactly(call, numbers, least);
    }

    pub fn assert_verilog(&self, numbers: &[u8], least: u64) {
        self.verilog.assert_exactly("write_verilog", numbers, least);
    }

    pub fn assert_registers(&self, numbers: &[u8], least: u64) {
        self.registers.assert_exactly("registers", numbers, least);
    }

    pub fn assert_clock(&self, numbers: &[u8], least: u64) {
        self.clock.assert_exactly("clock", numbers, least);
    }
}
