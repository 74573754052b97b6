//! Clocked netlists: totals of registers, outputs clock by clock, the store that is left, and the order of refusals. Numbers are
//! worked out by hand.

use cases::{any_list, any_netlist, deep_netlist, each, Matrix, Met, Random};
use reference::{clock, compile, read, registers, returned, run, Refusal};

/// What a store holds before.
const OLD: i64 = -99;

/// The netlist of a matrix for samples of so many bits.
fn compiled(rows: &[&[i16]], width: u8) -> Vec<u8> {
    let mut buffer = vec![0; 6137];
    let compiled = compile(&Matrix::of_rows(rows).record(), width, &mut buffer);
    buffer.truncate(compiled.expect("a right record").written);
    buffer
}

/// Rows 3 −3, −1 0 and 0 0: symbol 2 is x0 − x1, symbol 3 is 3 times symbol 2, and row 1, which is −x0, has to wait for two clocks.
fn three_rows() -> Vec<u8> {
    compiled(&[&[3, -3], &[-1, 0], &[0, 0]], 16)
}

/// Clocks a list of a netlist that is taken, and returns outputs and the whole store, which has so many numbers.
fn clocked(netlist: &[u8], samples: &[i32], room: usize) -> (Vec<i64>, Vec<i64>) {
    let read = read(netlist).expect("a netlist");
    let (m, n) = (usize::from(read.m), usize::from(read.n));
    let mut outputs = vec![OLD; m * (samples.len() / n)];
    let mut store = vec![OLD; room];
    let answer = clock(netlist, samples, &mut store, &mut outputs);
    assert_eq!(answer, Ok(()));
    (outputs, store)
}

#[test]
fn rows_of_depth_two() {
    let netlist = three_rows();
    assert_eq!(registers(&netlist), Ok(4));
    let (outputs, store) = clocked(&netlist, &[1, 0, 0, 1, 5, 2, 9, 9], 4);
    let expected = [[0, 0, 0], [0, 0, 0], [3, -1, 0], [-3, 0, 0]];
    assert_eq!(outputs, expected.concat());
    // x0 − x1 of the last vector, 3 times that of the one before, x0 of both, newest first
    assert_eq!(store, [0, 9, 9, 5]);
}

/// The list of before, cut off behind each clock: the registers that are left go on as the outputs show.
#[test]
fn registers_behind_each_clock() {
    let netlist = three_rows();
    let left = [
        [0, 0, 0, 0],
        [1, 0, 1, 0],
        [-1, 3, 0, 1],
        [3, -3, 5, 0],
        [0, 9, 9, 5],
    ];
    for (clocks, expected) in left.iter().enumerate() {
        let (_, store) = clocked(&netlist, &[1, 0, 0, 1, 5, 2, 9, 9][..2 * clocks], 6);
        assert_eq!(store[..4], expected[..]);
        assert_eq!(store[4..], [OLD; 2]);
    }
}

/// Inputs that are outputs, shifted and with a minus: no operations and no delays, and the output of a vector comes in its own clock.
#[test]
fn nothing_to_wait_for() {
    let netlist = compiled(&[&[4, 0], &[0, -1], &[0, 0]], 8);
    assert_eq!(registers(&netlist), Ok(0));
    let (outputs, store) = clocked(&netlist, &[127, -128, -128, 127], 1);
    assert_eq!(outputs, [508, 128, 0, -512, -127, 0]);
    assert_eq!(store, [OLD]);
}

/// One input: symbols 1 to 3 are 2, 3 and 4 times it, of depths 1 to 3; 2 and 3 each add the input to the one before.
const CHAIN: [&[u8]; 4] = [
    &[8, 0, 2, 0, 4, 1, 3, 0],
    &[12, 0, 3, 0, 0, 0, 0, 0, 0, 0, 0, 17],
    &[12, 0, 3, 0, 0, 1, 0, 0, 0, 0, 0, 18],
    &[12, 0, 3, 0, 0, 2, 0, 0, 0, 0, 0, 18],
];

/// The chain with these four outputs.
fn chain(outputs: [[u8; 9]; 4]) -> Vec<u8> {
    let totals = [8, 0, 5, 0, 3, 0, 3, 0];
    [CHAIN.concat(), outputs.concat(), totals.to_vec()].concat()
}

const INPUT: [u8; 9] = [9, 0, 4, 0, 0, 0, 0, 0, 16];
const TWICE_MINUS: [u8; 9] = [9, 0, 4, 0, 1, 1, 0, 1, 19];
const TWICE_LATE: [u8; 9] = [9, 0, 4, 0, 0, 1, 0, 0, 17];
const FOUR_TIMES: [u8; 9] = [9, 0, 4, 0, 0, 3, 0, 0, 18];
const ZERO: [u8; 9] = [9, 0, 4, 0, 2, 0, 0, 0, 1];

/// The input waits for one clock at symbol 2, for two at symbol 3 and for three at the output: three registers serve all. Symbol 1
/// waits for two clocks at two outputs.
#[test]
fn delays_are_shared() {
    let netlist = chain([INPUT, TWICE_MINUS, TWICE_LATE, FOUR_TIMES]);
    assert_eq!(registers(&netlist), Ok(3 + 3 + 2));
    let (outputs, store) = clocked(&netlist, &[1, 10, 100, 1_000, 10_000], 8);
    let zeros = [0; 4 * 3];
    let expected = [&zeros[..], &[1, -4, 2, 4], &[10, -40, 20, 40]].concat();
    assert_eq!(outputs, expected);
    let operations = [20_000, 3_000, 400];
    let delays = [10_000, 1_000, 100, 2_000, 200];
    assert_eq!(store, [&operations[..], &delays].concat());
}

/// Zero outputs wait for nothing, so there are only the delays that operations need. Operations that no output uses have their
/// registers too, and an output waits for them.
#[test]
fn zero_outputs_and_unused_operations() {
    let netlist = chain([ZERO; 4]);
    assert_eq!(registers(&netlist), Ok(3 + 2));
    let (outputs, store) = clocked(&netlist, &[1, 10, 100, 1_000, 10_000], 5);
    assert_eq!(outputs, [0; 20]);
    assert_eq!(store, [20_000, 3_000, 400, 10_000, 1_000]);

    let netlist = chain([INPUT, ZERO, ZERO, ZERO]);
    assert_eq!(registers(&netlist), Ok(3 + 3));
    let (outputs, _) = clocked(&netlist, &[7, 8, 9, 10], 6);
    assert_eq!(outputs[12..], [7, 0, 0, 0]);
}

/// Delays hold a value as it is, without the shift of the output that waits, nor its minus.
#[test]
fn delays_hold_no_shift() {
    let netlist = chain([TWICE_MINUS, ZERO, ZERO, ZERO]);
    let (outputs, store) = clocked(&netlist, &[1, 10, 100, 1_000], 7);
    assert_eq!(outputs[12..], [-4, 0, 0, 0]);
    assert_eq!(store[5..], [200, 20]);
}

/// The store is cleared, whatever it held, so a list gives the same behind any other; what is behind the registers stays.
#[test]
fn every_list_starts_anew() {
    let netlist = three_rows();
    let mut store = [1 << 40, -3, 7, i64::MIN, i64::MAX, 0, -1];
    for _ in 0..3 {
        let mut outputs = [OLD; 9];
        let answer = clock(&netlist, &[1, 0, 0, 1, 5, 2], &mut store, &mut outputs);
        assert_eq!(answer, Ok(()));
        assert_eq!(outputs, [0, 0, 0, 0, 0, 0, 3, -1, 0]);
        assert_eq!(store, [3, -3, 5, 0, i64::MAX, 0, -1]);
    }
    assert_eq!(clock(&netlist, &[], &mut store, &mut []), Ok(()));
    assert_eq!(store, [0, 0, 0, 0, i64::MAX, 0, -1]);
}

#[test]
fn no_rows() {
    for width in [8, 16, 24] {
        let netlist = compiled(&[], width);
        assert_eq!(registers(&netlist), Ok(0));
        let mut store = [5, 6];
        let mut answer = |samples: &[i32], outputs: &mut [i64]| {
            returned(&clock(&netlist, samples, &mut store, outputs))
        };
        assert_eq!(answer(&[], &mut []), (0, 0));
        assert_eq!(answer(&[1], &mut []), (15, 0));
        assert_eq!(answer(&[1; 8], &mut [0]), (15, 0));
        assert_eq!(answer(&[], &mut [0]), (16, 0));
        assert_eq!(store, [5, 6]);
    }
}

/// The netlist of three rows with the byte at a place set to another.
fn changed(place: usize, byte: u8) -> Vec<u8> {
    let mut netlist = three_rows();
    netlist[place] = byte;
    netlist
}

/// Asserts a refusal, and that it leaves outputs and store as they were.
fn refuses(netlist: &[u8], samples: &[i32], room: usize, outputs: usize, expected: (u8, usize)) {
    let (mut store, mut filled) = (vec![OLD; room], vec![OLD; outputs]);
    let answer = clock(netlist, samples, &mut store, &mut filled);
    assert_eq!(returned(&answer), expected, "{netlist:?} on {samples:?}");
    assert_eq!(store, vec![OLD; room]);
    assert_eq!(filled, vec![OLD; outputs]);
}

/// Both calls refuse as read does; in clock that comes before all else. Operations stand at 8 and 20, outputs at 32, 41 and 50,
/// totals at 59, the end is 67.
#[test]
fn refusals_of_read() {
    let netlist = three_rows();
    let longer = [&netlist[..], &[0]].concat();
    for (netlist, expected) in [
        (vec![], (7, 0)),
        (netlist[..66].to_vec(), (7, 59)),
        (changed(34, 3), (8, 32)),
        (changed(15, 16), (9, 8)),
        (changed(40, 18), (10, 32)),
        (changed(65, 1), (11, 59)),
        (longer, (12, 67)),
    ] {
        assert_eq!(returned(&registers(&netlist)), expected);
        refuses(&netlist, &[40_000], 0, 1, expected);
        refuses(&netlist, &[1, 2], 4, 3, expected);
    }
}

/// 6, 15, 16 and 21, each with all that is tested behind it wrong as well.
#[test]
fn refusals_in_order() {
    let netlist = three_rows();
    refuses(&netlist, &[40_000, 1, 1], 3, 2, (6, 0));
    refuses(&netlist, &[], 0, 0, (6, 0));
    refuses(&netlist, &[40_000, 1, 1], 4, 2, (15, 0));
    refuses(&netlist, &[1], 5, 3, (15, 0));
    refuses(&netlist, &[40_000, 1, 1, 1], 4, 3, (16, 0));
    refuses(&netlist, &[1, 1], 4, 6, (16, 0));
    refuses(&netlist, &[], 4, 3, (16, 0));
    refuses(&netlist, &[40_000, 1, 1, 1], 4, 6, (21, 0));
    refuses(&netlist, &[1, 1, 1, -32_769, 40_000, 1], 4, 9, (21, 3));
    refuses(&netlist, &[1, 1, 1, 1, 1, i32::MAX], 9, 9, (21, 5));
}

/// What the request says of every netlist that is read: in clock t + depth comes run's answer for the vector of clock t, before it
/// zeros.
fn assert_pipelined(netlist: &[u8], samples: &[i32]) {
    let read = read(netlist).expect("a netlist");
    let (m, n) = (usize::from(read.m), usize::from(read.n));
    let room = registers(netlist).expect("a netlist");
    let (outputs, _) = clocked(netlist, samples, room);
    let mut expected = vec![0; m * usize::from(read.depth)];
    for vector in samples.chunks_exact(n) {
        let mut values = vec![OLD; m];
        assert_eq!(run(netlist, vector, &mut values), Ok(()));
        expected.extend(values);
    }
    expected.truncate(outputs.len());
    assert_eq!(outputs, expected, "{netlist:?} on {samples:?}");
}

fn list(random: &mut Random, width: u8, n: usize, depth: u16) -> Vec<i32> {
    let clocks = random.between(0, usize::from(depth) + 8);
    any_list(random, width, n, clocks)
}

/// Netlists of every depth from 0 to 20, and of larger ones.
#[test]
fn outputs_are_those_of_run() {
    let mut depths = Met::default();
    each(0, 4_000, |random| {
        let (m, n) = (random.between(1, 8), random.between(1, 8));
        let (width, most) = (random.sample_width(), random.choose(&[4, 12, 40]));
        let operations = random.between(0, most);
        let deep = deep_netlist(random, width, m, n, operations);
        let any = any_netlist(random, width, m, n, operations);
        for netlist in [deep, any] {
            if let Ok(read) = read(&netlist) {
                let samples = list(random, width, n, read.depth);
                assert_pipelined(&netlist, &samples);
                depths.count(read.depth.min(21) as u8);
            }
        }
    });
    depths.assert_exactly("depths", &Vec::from_iter(0..=21), 10);
}

/// 504 operations in one chain, each the input and the one before: the input waits for 503 clocks at the last, and for 504 at an
/// output.
#[test]
fn longest_chain() {
    let mut netlist = vec![8, 0, 2, 0, 2, 1, 0xF8, 1];
    for symbol in 0..504u16 {
        let [low, high] = symbol.to_le_bytes();
        let width = 16 + (symbol + 2).next_power_of_two().trailing_zeros() as u8;
        netlist.extend([12, 0, 3, 0, 0, low, high, 0, 0, 0, 0, width]);
    }
    netlist.extend([9, 0, 4, 0, 0, 0xF8, 1, 0, 25]);
    let totals = [8, 0, 5, 0, 0xF8, 1, 0xF8, 1];
    let zero = [&netlist[..], &ZERO, &totals].concat();
    assert_eq!(registers(&zero), Ok(504 + 503));
    let input = [&netlist[..], &INPUT, &totals].concat();
    assert_eq!(registers(&input), Ok(504 + 504));

    let samples: Vec<i32> = (0..600).map(|clock| 54 * clock - 32_768).collect();
    assert_pipelined(&input, &samples);
    let (_, store) = clocked(&input, &samples, 1_010);
    assert_eq!(store[..3], [-844, -1_428, -2_120]);
    assert_eq!(store[503..506], [-505 * (32_768 - 54 * 96), -422, -476]);
    assert_eq!(store[1_007..], [-32_768 + 54 * 96, OLD, OLD]);

    let refused = Refusal {
        number: 6,
        place: 0,
    };
    let answer = clock(&input, &[], &mut [OLD; 1_007], &mut []);
    assert_eq!(answer, Err(refused));
}
