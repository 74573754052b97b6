//! Comparison with a second program by another author, run by hand:
//!
//!     BANK=path/to/bank.py cargo test --release -p reference --test oracle -- --ignored
//!
//! The program's functions are called in one process for each test. COUNT chooses how many cases are made.

use std::env;
use std::io::{BufRead, BufReader, Write};
use std::process::{Child, ChildStdin, ChildStdout, Command, Stdio};

use cases::{any_bank, any_list, any_matrix, any_netlist, damage, damage_head, damage_matrix};
use cases::{damaged_market_file, deep_netlist, each, market_file, other_heads, plain_netlist};
use cases::{Matrix, Met, Random};
use reference::{compile, Refusal};

/// How many of the later requests are in force: the program's level.
const REQUESTS: &str = "10";

/// The bytes that suffice for every netlist.
const ROOM: usize = 6137;

/// The bytes that suffice for every Verilog text.
const TEXT_ROOM: usize = 37_987;

/// A line of a call's name and its arguments goes in, and one of the numbers of its answer or of the refusal comes out. Bytes are
/// hexadecimal, behind a letter, since there may be none, and so are lists of numbers behind another, with commas between them.
const CALLS: &str = "
import sys
from importlib import util
spec = util.spec_from_file_location('bank', sys.argv[1])
bank = util.module_from_spec(spec)
spec.loader.exec_module(bank)
level = int(sys.argv[2])

def compile(matrix, width, room):
    compiled = bank.compile(level, matrix, width, room)
    return 'x' + compiled.netlist.hex(), *compiled.counts(level)

def read(netlist):
    net = bank.Netlist(level, netlist)
    return net.m, net.n, net.count, net.depth, net.sample_width

def check(matrix, netlist):
    return bank.check(level, matrix, netlist) or ()

def run(netlist, outputs, *samples):
    return bank.run(level, netlist, samples, outputs)

def generate(m, n, seed, room):
    return 'x' + bank.generate(m, n, seed, room).hex(),

def market(text, room):
    return 'x' + bank.market(text, room).hex(),

def verilog(netlist, room):
    return 'x' + bank.verilog(level, netlist, room).hex(),

def registers(netlist):
    return bank.registers(level, netlist),

def clock(netlist, samples, store, outputs):
    filled, left = bank.clock(level, netlist, samples, outputs, store)
    return *filled, 'store', *left

def argument(word):
    if word[0] == 'x':
        return bytes.fromhex(word[1:])
    if word[0] == 'n':
        return [int(number) for number in word[1:].split(',') if number]
    return int(word)

calls = {call.__name__: call for call in
         (compile, read, check, run, generate, market, verilog, registers, clock)}
for line in sys.stdin:
    name, *words = line.split()
    try:
        print('accepted', *calls[name](*map(argument, words)), flush=True)
    except bank.Refused as refused:
        print(refused.text(), flush=True)
";

fn bytes(bytes: &[u8]) -> String {
    let digits: String = bytes.iter().map(|byte| format!("{byte:02x}")).collect();
    format!("x{digits}")
}

/// A list of numbers, each behind a separator but for the first.
fn separated<T: ToString>(numbers: &[T], separator: &str) -> String {
    let words: Vec<String> = numbers.iter().map(T::to_string).collect();
    words.join(separator)
}

/// The process of the second program, and what was met, call by call.
struct Bank {
    child: Child,
    questions: ChildStdin,
    answers: BufReader<ChildStdout>,
    compile: Met,
    read: Met,
    check: Met,
    run: Met,
    generate: Met,
    market: Met,
    verilog: Met,
    registers: Met,
    clock: Met,
}

impl Bank {
    fn start() -> Self {
        let program = env::var("BANK").expect("BANK is the path of bank.py");
        let mut child = Command::new("python3")
            .args(["-c", CALLS, &program, REQUESTS])
            .stdin(Stdio::piped())
            .stdout(Stdio::piped())
            .spawn()
            .unwrap();
        Bank {
            questions: child.stdin.take().unwrap(),
            answers: BufReader::new(child.stdout.take().unwrap()),
            child,
            compile: Met::default(),
            read: Met::default(),
            check: Met::default(),
            run: Met::default(),
            generate: Met::default(),
            market: Met::default(),
            verilog: Met::default(),
            registers: Met::default(),
            clock: Met::default(),
        }
    }

    /// Asks the program, and compares with what we answer: the words behind `accepted`. Returns the number to count.
    fn ask(&mut self, question: String, ours: Result<String, Refusal>) -> u8 {
        writeln!(self.questions, "{question}").unwrap();
        let mut theirs = String::new();
        self.answers.read_line(&mut theirs).unwrap();
        let (number, words) = match ours {
            Ok(words) => (0, format!("accepted {words}")),
            Err(Refusal { number, place }) => (number, format!("refused {number} at {place}")),
        };
        assert_eq!(theirs.trim_end(), words.trim_end(), "{question}");
        number
    }

    /// Compares compile and returns the netlist, if there is one.
    fn compile(&mut self, record: &[u8], width: u8, room: usize) -> Option<Vec<u8>> {
        let mut buffer = vec![0; room];
        let ours = compile(record, width, &mut buffer).map(|c| {
            buffer.truncate(c.written);
            let counts = [c.operations, c.plain, c.divisors, c.replacements];
            let listed = counts.map(|count| count.to_string()).join(" ");
            let netlist = bytes(&buffer);
            format!("{netlist} {} {listed} {} {}", c.written, c.depth, c.negated)
        });
        let netlist = ours.is_ok().then_some(buffer);
        let number = self.ask(format!("compile {} {width} {room}", bytes(record)), ours);
        self.compile.count(number);
        netlist
    }

    /// Compares read, and what sample_width says beside it.
    fn read(&mut self, netlist: &[u8]) {
        let (read, width) = (reference::read(netlist), reference::sample_width(netlist));
        assert_eq!(width.err(), read.err());
        let ours = read.map(|r| {
            let numbers = [r.m.into(), r.n.into(), r.operations, r.depth];
            let listed = numbers.map(|number: u16| number.to_string()).join(" ");
            format!("{listed} {}", width.unwrap())
        });
        let number = self.ask(format!("read {}", bytes(netlist)), ours);
        self.read.count(number);
    }

    fn check(&mut self, record: &[u8], netlist: &[u8]) {
        let ours = reference::check(record, netlist).map(|()| String::new());
        let question = format!("check {} {}", bytes(record), bytes(netlist));
        let number = self.ask(question, ours);
        self.check.count(number);
    }

    fn run(&mut self, netlist: &[u8], samples: &[i32], m: usize) {
        let mut outputs = vec![5; m];
        let ours = reference::run(netlist, samples, &mut outputs);
        let ours = ours.map(|()| separated(&outputs, " "));
        let samples = separated(samples, " ");
        let question = format!("run {} {m} {samples}", bytes(netlist));
        let number = self.ask(question, ours);
        self.run.count(number);
    }

    fn generate(&mut self, m: u8, n: u8, seed: u32, room: usize) {
        let mut buffer = vec![0; room];
        let ours = reference::generate(m, n, seed, &mut buffer);
        let ours = ours.map(|written| bytes(&buffer[..written]));
        let number = self.ask(format!("generate {m} {n} {seed} {room}"), ours);
        self.generate.count(number);
    }

    fn market(&mut self, file: &[u8], room: usize) {
        let mut buffer = vec![0; room];
        let ours = reference::read_matrix_market(file, &mut buffer);
        let ours = ours.map(|written| bytes(&buffer[..written]));
        let number = self.ask(format!("market {} {room}", bytes(file)), ours);
        self.market.count(number);
    }

    /// Compares the Verilog text in a buffer of so many bytes, and returns the bytes written.
    fn verilog(&mut self, netlist: &[u8], room: usize) -> usize {
        let mut buffer = vec![0; room];
        let ours = reference::write_verilog(netlist, &mut buffer);
        let written = ours.unwrap_or(0);
        let ours = ours.map(|written| bytes(&buffer[..written]));
        let number = self.ask(format!("verilog {} {room}", bytes(netlist)), ours);
        self.verilog.count(number);
        written
    }

    fn registers(&mut self, netlist: &[u8]) {
        let ours = reference::registers(netlist).map(|total| total.to_string());
        let number = self.ask(format!("registers {}", bytes(netlist)), ours);
        self.registers.count(number);
    }

    /// Compares clock on so many outputs and a store of these numbers: the outputs, and the whole store afterwards.
    fn clock(&mut self, netlist: &[u8], samples: &[i32], store: &[i64], count: usize) {
        let (mut outputs, mut left) = (vec![5; count], store.to_vec());
        let ours = reference::clock(netlist, samples, &mut left, &mut outputs);
        let ours = ours.map(|()| {
            let (outputs, left) = (separated(&outputs, " "), separated(&left, " "));
            format!("{outputs} store {left}").trim_start().to_owned()
        });
        let (samples, store) = (separated(samples, ","), separated(store, ","));
        let netlist = bytes(netlist);
        let question = format!("clock {netlist} n{samples} n{store} {count}");
        let number = self.ask(question, ours);
        self.clock.count(number);
    }

    fn end(self) {
        drop(self.questions);
        let mut child = self.child;
        assert!(child.wait().unwrap().success());
    }
}

/// How many cases are made: COUNT chooses.
fn count() -> u64 {
    env::var("COUNT").map_or(500, |count| count.parse().unwrap())
}

/// The netlist of a bank is compiled, read, checked and run, on buffers, samples and outputs of right numbers and of wrong ones.
fn compare_bank(bank: &mut Bank, random: &mut Random, matrix: &Matrix, width: u8) -> Vec<u8> {
    let (record, m, n) = (matrix.record(), matrix.m(), matrix.n());
    let netlist = bank.compile(&record, width, ROOM).unwrap();
    let short = netlist.len() - 1;
    bank.compile(&record, width, short);
    bank.read(&netlist);
    bank.check(&record, &netlist);
    let samples = random.samples(width, n);
    bank.run(&netlist, &samples, m);
    let samples = random.near_samples(width, n);
    bank.run(&netlist, &samples, m);
    let outputs = random.between(0, 9);
    bank.run(&netlist, &samples, outputs);
    netlist
}

#[test]
#[ignore = "needs BANK, the path of a second program"]
fn oracle_agrees() {
    let mut bank = Bank::start();
    each(0, count(), |random| {
        let matrix = any_bank(random, 8, 8);
        let (record, width) = (matrix.record(), random.sample_width());
        let netlist = compare_bank(&mut bank, random, &matrix, width);

        let other = any_bank(random, 8, 8);
        let bad_record = damage_matrix(random, &record, &other.record());
        bank.compile(&bad_record, random.any_width(), ROOM);
        bank.compile(&bad_record, width, ROOM);
        bank.check(&bad_record, &netlist);

        let (m, n) = (matrix.m(), matrix.n());
        let operations = random.between(0, 60);
        let any = any_netlist(random, width, m, n, operations);
        let plain = plain_netlist(random, width, &matrix).unwrap_or_else(|| any.clone());
        let damaged = damage(random, &netlist, &any);
        let other_head = damage_head(random, &netlist);
        for netlist in [&any, &plain, &damaged, &other_head] {
            bank.read(netlist);
            bank.check(&record, netlist);
            let count = random.between(n.saturating_sub(1), n.max(1));
            let samples = random.near_samples(width, count);
            bank.run(netlist, &samples, m);
        }
    });
    let compile_numbers = [0, 1, 2, 3, 4, 5, 6, 20];
    bank.compile.assert_exactly("compile", &compile_numbers, 1);
    bank.read
        .assert_exactly("read", &[0, 7, 8, 9, 10, 11, 12], 1);
    let check_numbers = [0, 1, 2, 3, 4, 5, 7, 8, 9, 10, 11, 12, 13, 14];
    bank.check.assert_exactly("check", &check_numbers, 1);
    let run_numbers = [0, 7, 8, 9, 10, 11, 12, 15, 16, 21];
    bank.run.assert_exactly("run", &run_numbers, 1);
    bank.end();
}

/// Every width that compile may be given, with a right record, a wrong one and none.
#[test]
#[ignore = "needs BANK, the path of a second program"]
fn oracle_agrees_on_every_width() {
    let mut bank = Bank::start();
    let right = Matrix::of_rows(&[&[3, -3], &[-1, 0]]).record();
    for width in 0..=255 {
        for record in [&right[..], &right[..5], &[]] {
            for room in [0, 16, 17, ROOM] {
                bank.compile(record, width, room);
            }
        }
    }
    bank.compile.assert_exactly("compile", &[0, 1, 6, 20], 17);
    bank.end();
}

/// At each width heads that are damaged in each byte, and each of two samples at the ends and one past them.
#[test]
#[ignore = "needs BANK, the path of a second program"]
fn oracle_agrees_on_heads_and_samples() {
    let mut bank = Bank::start();
    let matrices = [
        Matrix::of_rows(&[]),
        Matrix::of_rows(&[&[-1]]),
        Matrix::of_rows(&[&[3, -3], &[257, -257]]),
    ];
    for (width, matrix) in (8..=24).flat_map(|w| matrices.iter().map(move |m| (w, m))) {
        let netlist = bank.compile(&matrix.record(), width, ROOM).unwrap();
        for other in other_heads(&netlist) {
            bank.read(&other);
            bank.check(&matrix.record(), &other);
            bank.run(&other, &vec![0; matrix.n()], matrix.m());
        }
        let end = 1 << (width - 1);
        let samples = [-end - 1, -end, 0, end - 1, end, i32::MIN, i32::MAX];
        for (x, y) in samples.iter().flat_map(|&x| samples.map(|y| (x, y))) {
            bank.run(&netlist, &[x, y][..matrix.n()], matrix.m());
        }
    }
    bank.read.assert_exactly("read", &[0, 7, 8, 9, 10], 17);
    bank.run
        .assert_exactly("run", &[0, 7, 8, 9, 10, 15, 21], 17);
    bank.end();
}

/// Records with rows, the first bytes of one, and sizes of 0.
fn records_beside_no_bytes() -> Vec<Vec<u8>> {
    let right = Matrix::of_rows(&[&[3, -3]]).record();
    let mut all: Vec<Vec<u8>> = (0..=6).map(|length| right[..length].to_vec()).collect();
    for size in [[0, 0], [0, 2], [1, 0]] {
        all.push([&[6, 0, 1, 0], &size[..]].concat());
        all.push([&right[..4], &size, &right[6..]].concat());
    }
    all.extend([right, Matrix::of_rows(&[&[1]]).record()]);
    all
}

/// The netlist of no rows with other totals, shorter and longer; then heads with 0, without and with an operation behind them.
fn netlists_beside_no_rows() -> Vec<Vec<u8>> {
    let right = [8, 0, 2, 0, 0, 0, 0, 0, 8, 0, 5, 0, 0, 0, 0, 0, 0];
    let mut all: Vec<Vec<u8>> = (0..=17).map(|length| right[..length].to_vec()).collect();
    let operation = [12, 0, 3, 0, 0, 0, 0, 0, 0, 0, 0, 17];
    for size in [[0, 0], [0, 1], [1, 0]] {
        for operations in [[0, 0], [1, 0], [0xF9, 1]] {
            let head = [&right[..4], &size, &operations].concat();
            let totals = [&right[8..12], &operations, &[1, 0]].concat();
            all.push([&head[..], &totals].concat());
            all.push([&head[..], &operation, &totals].concat());
        }
    }
    all
}

#[test]
#[ignore = "needs BANK, the path of a second program"]
fn oracle_agrees_beside_no_rows() {
    let mut bank = Bank::start();
    let (records, mut netlists) = (records_beside_no_bytes(), netlists_beside_no_rows());
    for record in &records {
        let netlist = bank.compile(record, 16, ROOM);
        bank.check(record, &netlists[16]);
        netlists.extend(netlist);
    }
    for netlist in &netlists {
        bank.read(netlist);
        bank.check(&[], netlist);
        bank.check(&records[records.len() - 1], netlist);
        let m = reference::read(netlist).map_or(0, |read| usize::from(read.m));
        bank.run(netlist, &[], m);
        bank.run(netlist, &[1], m);
    }
    bank.compile.assert_exactly("compile", &[0, 1, 2, 4], 1);
    bank.read.assert_exactly("read", &[0, 7, 8, 9, 11, 12], 1);
    let check_numbers = [0, 1, 2, 4, 7, 8, 9, 11, 12, 13];
    bank.check.assert_exactly("check", &check_numbers, 1);
    bank.run.assert_exactly("run", &[0, 7, 8, 9, 11, 12, 15], 1);
    bank.end();
}

#[test]
#[ignore = "needs BANK, the path of a second program"]
fn oracle_generates_the_same() {
    let mut bank = Bank::start();
    each(0, count(), |random| {
        let (m, n) = (random.between(0, 9) as u8, random.between(0, 9) as u8);
        let seed = random.number() as u32;
        let length = 6 + 2 * usize::from(m) * usize::from(n);
        let room = random.choose(&[0, length - 1, length, length + 1, 134]);
        bank.generate(m, n, seed, room);
    });
    bank.generate.assert_exactly("generate", &[0, 4, 6], 1);
    bank.end();
}

/// 20 files for each case: half of them right, each in a buffer of a length around the record's.
#[test]
#[ignore = "needs BANK, the path of a second program"]
fn oracle_reads_the_same_files() {
    let mut bank = Bank::start();
    each(0, 10 * count(), |random| {
        let matrix = any_matrix(random, 8, 8);
        let length = matrix.record().len();
        for file in [
            market_file(random, &matrix),
            damaged_market_file(random, &matrix),
        ] {
            let room = random.choose(&[0, length - 1, length, length + 1, 134, 134, 134]);
            bank.market(&file, room);
        }
    });
    let numbers = [0, 4, 6, 17, 18, 19];
    bank.market
        .assert_exactly("read_matrix_market", &numbers, 100);
    bank.end();
}

/// Netlists of compile, others that are right, and damaged ones; the text's own length, and a byte less.
#[test]
#[ignore = "needs BANK, the path of a second program"]
fn oracle_writes_the_same_modules() {
    let mut bank = Bank::start();
    each(0, count(), |random| {
        let (matrix, width) = (any_bank(random, 8, 8), random.sample_width());
        let most = random.choose(&[5, 30, 120, 504]);
        let operations = random.between(0, most);
        let any = any_netlist(random, width, matrix.m(), matrix.n(), operations);
        let mut compiled = vec![0; ROOM];
        let written = compile(&matrix.record(), width, &mut compiled);
        compiled.truncate(written.unwrap().written);
        let plain = plain_netlist(random, width, &matrix).unwrap_or_else(|| any.clone());
        let damaged = damage(random, &compiled, &any);
        let other_head = damage_head(random, &plain);
        for netlist in [&compiled, &any, &plain, &damaged, &other_head] {
            let written = bank.verilog(netlist, TEXT_ROOM);
            for room in [written.saturating_sub(1), written, written + 1] {
                bank.verilog(netlist, room);
            }
        }
    });
    let numbers = [0, 6, 7, 8, 9, 10, 11, 12];
    bank.verilog.assert_exactly("write_verilog", &numbers, 1);
    bank.end();
}

/// A netlist's registers; then a list on a store of just so many, of more and of one less, and lists that are refused or empty.
fn compare_clocked(bank: &mut Bank, random: &mut Random, netlist: &[u8], width: u8) {
    bank.registers(netlist);
    let read = reference::read(netlist).unwrap_or_default();
    let (m, n) = (usize::from(read.m), usize::from(read.n));
    let total = reference::registers(netlist).unwrap_or(2);
    let room = total + random.between(0, 5);
    let store: Vec<i64> = (0..room).map(|_| random.number() as i64).collect();

    let clocks = random.between(0, usize::from(read.depth) + 6);
    let samples = any_list(random, width, n, clocks);
    bank.clock(netlist, &samples, &store, m * clocks);
    bank.clock(netlist, &samples, &store[..total], m * clocks);
    let few = random.between(0, total.saturating_sub(1));
    bank.clock(netlist, &samples, &store[..few], m * clocks);
    bank.clock(netlist, &[], &store, 0);

    let clocks = random.between(1, 3);
    let samples = random.near_samples(width, n * clocks);
    bank.clock(netlist, &samples, &store, m * clocks);
    let count = random.choose(&[0, 1, m, m * clocks + 1, m * clocks + m]);
    bank.clock(netlist, &samples, &store, count);
    let most = n * clocks + 1;
    let other = random.choose(&[1, most - 1, most, most + n]);
    let samples = random.near_samples(width, other);
    bank.clock(netlist, &samples, &store, m * clocks);
}

/// Netlists of compile, others that are right, deep ones and damaged ones. Every depth from 0 to 20 is met, and larger ones.
#[test]
#[ignore = "needs BANK, the path of a second program"]
fn oracle_clocks_the_same() {
    let mut bank = Bank::start();
    let mut depths = Met::default();
    each(0, count(), |random| {
        let (matrix, width) = (any_bank(random, 8, 8), random.sample_width());
        let (m, n) = (matrix.m(), matrix.n());
        let most = random.choose(&[3, 12, 30, 60]);
        let operations = random.between(0, most);
        let any = any_netlist(random, width, m, n, operations);
        let deep = match n {
            0 => any.clone(),
            _ => deep_netlist(random, width, m, n, operations),
        };
        let small = any_bank(random, 3, 3);
        let mut compiled = vec![0; ROOM];
        let written = compile(&small.record(), width, &mut compiled);
        compiled.truncate(written.unwrap().written);
        let plain = plain_netlist(random, width, &small).unwrap_or_else(|| any.clone());
        let damaged = damage(random, &deep, &compiled);
        let other_head = damage_head(random, &compiled);
        for netlist in [&compiled, &any, &deep, &plain, &damaged, &other_head] {
            compare_clocked(&mut bank, random, netlist, width);
            if let Ok(read) = reference::read(netlist) {
                depths.count(read.depth.min(21) as u8);
            }
        }
    });
    let read = [0, 7, 8, 9, 10, 11, 12];
    bank.registers.assert_exactly("registers", &read, 1);
    let numbers = [&read[..], &[6, 15, 16, 21]].concat();
    bank.clock.assert_exactly("clock", &numbers, 1);
    depths.assert_exactly("depths", &Vec::from_iter(0..=21), 1);
    bank.end();
}

/// The largest: 8 by 8 banks and chains of hundreds of operations, for one seed in ten.
#[test]
#[ignore = "needs BANK, the path of a second program"]
fn oracle_clocks_the_same_large_netlists() {
    let mut bank = Bank::start();
    each(0, count().div_euclid(10).max(1), |random| {
        let width = random.sample_width();
        let (m, n) = (random.between(1, 8), random.between(1, 8));
        let operations = random.between(100, 504);
        let deep = deep_netlist(random, width, m, n, operations);
        bank.registers(&deep);
        let read = reference::read(&deep).unwrap();
        let total = reference::registers(&deep).unwrap();
        let clocks = usize::from(read.depth) + 3;
        let samples = any_list(random, width, n, clocks);
        bank.clock(&deep, &samples, &vec![-1; total + 1], m * clocks);

        let matrix = any_matrix(random, 8, 8);
        let netlist = bank.compile(&matrix.record(), width, ROOM).unwrap();
        compare_clocked(&mut bank, random, &netlist, width);
    });
    bank.clock.assert_exactly("clock", &[0, 6, 15, 16, 21], 1);
    bank.end();
}
