//! Requests A4 and A5: rows are summed in the shallowest order, and of a positive and a negative term the positive one is the first
//! operand.

use cases::{any_matrix, filled, Matrix, Random};
use reference::literal::{Elimination, Term};
use reference::{compile_by, step, Compiled, Operands, Rules, Sums};

/// What compile answers, and the payloads of operations and of outputs without their widths.
struct Netlist {
    compiled: Compiled,
    operations: Vec<Vec<u8>>,
    outputs: Vec<Vec<u8>>,
}

fn netlist(matrix: &Matrix) -> Netlist {
    netlist_by(Rules::default(), matrix)
}

fn netlist_by(rules: Rules, matrix: &Matrix) -> Netlist {
    let mut buffer = vec![0; 6137];
    let compiled = compile_by(rules, &matrix.record(), 16, &mut buffer).unwrap();
    buffer.truncate(compiled.written);
    assert_eq!(reference::check(&matrix.record(), &buffer), Ok(()));
    Netlist {
        compiled,
        operations: payloads(&buffer, 3),
        outputs: payloads(&buffer, 4),
    }
}

fn payloads(netlist: &[u8], kind: u16) -> Vec<Vec<u8>> {
    let (mut found, mut place) = (Vec::new(), 0);
    while let Ok(record) = step(netlist, place) {
        if record.kind == kind {
            let (_width, payload) = record.payload.split_last().unwrap();
            found.push(payload.to_vec());
        }
        place = record.next;
    }
    found
}

fn symbol(bytes: &[u8]) -> usize {
    usize::from(u16::from_le_bytes([bytes[0], bytes[1]]))
}

/// The depth of each symbol.
fn depths(netlist: &Netlist, n: usize) -> Vec<u32> {
    let mut depths = vec![0; n];
    for operation in &netlist.operations {
        let (a, b) = (symbol(&operation[1..]), symbol(&operation[4..]));
        depths.push(1 + depths[a].max(depths[b]));
    }
    depths
}

/// The least d for which the sum of 2^depth over the terms is at most 2^d: a term of that depth takes the place of so many inputs
/// in a tree of depth d.
fn least(terms: &[u32]) -> u32 {
    let inputs: u64 = terms.iter().map(|depth| 1 << depth).sum();
    inputs.next_power_of_two().trailing_zeros()
}

/// The least depth over all ways of joining the terms two at a time.
fn least_of_all(terms: &[u32]) -> u32 {
    if let [only] = terms {
        return *only;
    }
    let pairs = (1..terms.len()).flat_map(|j| (0..j).map(move |i| (i, j)));
    let ways = pairs.map(|(i, j)| {
        let mut joined = terms.to_vec();
        let (b, a) = (joined.remove(j), joined.remove(i));
        joined.push(1 + a.max(b));
        least_of_all(&joined)
    });
    ways.min().unwrap()
}

#[test]
fn least_depth_is_that_of_all_ways() {
    for number in 0..4u32.pow(6) {
        let digits = (0..6).map(|place| number / 4u32.pow(place) % 4);
        let terms: Vec<u32> = digits.collect();
        for count in 1..=6 {
            if count < 6 || terms.windows(2).all(|two| two[0] <= two[1]) {
                assert_eq!(least(&terms[..count]), least_of_all(&terms[..count]));
            }
        }
    }
}

#[test]
fn no_way_of_joining_is_shallower() {
    let mut random = Random::new(20_261_118);
    let mut shallower = 0;
    let chain = Rules {
        sums: Sums::Chain,
        ..Rules::default()
    };
    for _ in 0..1_000 {
        let matrix = any_matrix(&mut random, 8, 8);
        let now = netlist(&matrix);
        let chains = netlist_by(chain, &matrix);
        let depths = depths(&now, matrix.n());
        let elimination = Elimination::of_record(&matrix.record()).unwrap();
        let remaining = &elimination.states.last().unwrap().rows;
        for (row, output) in remaining.iter().zip(&now.outputs) {
            let depth = |symbol| depths[usize::from(symbol)];
            let terms: Vec<u32> = row.iter().map(|term| depth(term.symbol)).collect();
            if !terms.is_empty() {
                assert_eq!(depths[symbol(&output[1..])], least(&terms));
            }
        }

        let divisors = elimination.divisors.len();
        assert_eq!(now.operations[..divisors], chains.operations[..divisors]);
        assert!(now.compiled.depth <= chains.compiled.depth);
        shallower += usize::from(now.compiled.depth < chains.compiled.depth);
        let depth = now.compiled.depth;
        assert_eq!(
            now.compiled,
            Compiled {
                depth,
                ..chains.compiled
            }
        );
    }
    println!("{shallower} of 1,000 matrices have a smaller depth than with chains");
    assert!(shallower >= 300);
}

/// The operations of a matrix, as sign, a, ea, b and eb; then the outputs, as sign, symbol and shift.
fn listed(rows: &[&[i16]]) -> (Vec<[usize; 5]>, Vec<[usize; 3]>) {
    let netlist = netlist(&Matrix::of_rows(rows));
    let operation = |o: &Vec<u8>| {
        let (a, b) = (symbol(&o[1..]), symbol(&o[4..]));
        [o[0].into(), a, o[3].into(), b, o[6].into()]
    };
    let output = |o: &Vec<u8>| [o[0].into(), symbol(&o[1..]), o[3].into()];
    (
        netlist.operations.iter().map(operation).collect(),
        netlist.outputs.iter().map(output).collect(),
    )
}

/// x4 is left when two sums of depth 1 are there, and is joined with the first of them.
#[test]
fn five_inputs() {
    let sums = [
        [0, 0, 0, 1, 0],
        [0, 2, 0, 3, 0],
        [0, 4, 0, 5, 0],
        [0, 6, 0, 7, 0],
    ];
    assert_eq!(listed(&[&[1; 5]]), (sums.to_vec(), vec![[0, 8, 0]]));
}

/// −x0 and x1 give x1 − x0, to which x2 is added; x0 and −x1 give x0 − x1, from which x2 is subtracted.
#[test]
fn positive_one_of_two_is_first() {
    let sums = [[1, 1, 0, 0, 0], [0, 2, 0, 3, 0]];
    assert_eq!(listed(&[&[-1, 1, 1]]), (sums.to_vec(), vec![[0, 4, 0]]));
    let sums = [[1, 0, 0, 1, 0], [1, 3, 0, 2, 0]];
    assert_eq!(listed(&[&[1, -1, -1]]), (sums.to_vec(), vec![[0, 4, 0]]));
}

/// Digits at 0, 2, 5 and 9, of which no two pairs have one distance: exponents alone decide.
#[test]
fn exponents_of_one_symbol() {
    let sums = [[0, 0, 0, 0, 2], [0, 0, 5, 0, 9], [0, 1, 0, 2, 0]];
    assert_eq!(listed(&[&[549]]), (sums.to_vec(), vec![[0, 3, 0]]));
}

/// x0 + x1 is a divisor and comes before x2 + x3, which has its depth and the later symbol.
#[test]
fn divisor_before_a_sum_of_its_depth() {
    let sums = [[0, 0, 0, 1, 0], [0, 2, 0, 3, 0], [0, 4, 0, 5, 0]];
    let outputs = vec![[0, 6, 0], [1, 4, 3]];
    assert_eq!(
        listed(&[&[1, 1, 1, 1], &[-8, -8, 0, 0]]),
        (sums.to_vec(), outputs)
    );
}

/// Terms of the remaining row are −(2<<0) and +(2<<2), and 2 is x0 − x1.
#[test]
fn three_minus_three() {
    let sums = [[1, 0, 0, 1, 0], [1, 2, 2, 2, 0]];
    assert_eq!(listed(&[&[3, -3]]), (sums.to_vec(), vec![[0, 3, 0]]));
}

#[test]
fn negative_terms_alone() {
    assert_eq!(listed(&[&[-4]]), (vec![], vec![[1, 0, 2]]));
    assert_eq!(listed(&[&[-1], &[1]]), (vec![], vec![[1, 0, 0], [0, 0, 0]]));
    let sums = [[0, 0, 0, 1, 1], [0, 2, 0, 3, 0]];
    assert_eq!(listed(&[&[-1, -2, -1]]), (sums.to_vec(), vec![[1, 4, 0]]));
}

/// Divisors keep their order: 3 is x0 − x1, also where each row has it negated. A row that is left with −(3<<0) alone has the output
/// minus; beside x2 it is subtracted.
#[test]
fn divisors_of_negated_rows() {
    let divisor = [1, 0, 0, 1, 0];
    assert_eq!(
        listed(&[&[-1, 1, 0], &[-4, 4, 0]]),
        (vec![divisor], vec![[1, 3, 0], [1, 3, 2]])
    );
    assert_eq!(
        listed(&[&[-1, 1, 0], &[-4, 4, 1], &[4, -4, -8]]),
        (
            vec![divisor, [1, 2, 0, 3, 2], [1, 3, 2, 2, 3]],
            vec![[1, 3, 0], [0, 4, 0], [0, 5, 0]]
        )
    );
    // Two rows of mixed signs that share all: 4 is a divisor too, and the second row is left with −(4<<0).
    assert_eq!(
        listed(&[&[-4, 4, 1], &[4, -4, -1], &[-1, 1, 0]]),
        (
            vec![divisor, [1, 2, 0, 3, 2]],
            vec![[0, 4, 0], [1, 4, 0], [1, 3, 0]]
        )
    );
}

/// The sign of an output, from the terms that are left in its row.
#[test]
fn outputs_are_minus_exactly_where_all_terms_are_negative() {
    let mut random = Random::new(20_261_119);
    let (mut outputs, mut minus, mut before) = (0, 0, 0);
    let in_order = Rules {
        operands: Operands::InOrder,
        ..Rules::default()
    };
    for _ in 0..1_000 {
        let matrix = any_matrix(&mut random, 8, 8);
        let now = netlist(&matrix);
        let elimination = Elimination::of_record(&matrix.record()).unwrap();
        let remaining = &elimination.states.last().unwrap().rows;
        let sign = |row: &Vec<Term>| match row.len() {
            0 => 2,
            _ => u8::from(row.iter().all(|term| term.minus)),
        };
        let signs: Vec<u8> = remaining.iter().map(sign).collect();
        let written: Vec<u8> = now.outputs.iter().map(|output| output[0]).collect();
        assert_eq!(written, signs, "{matrix:?}");
        let count = signs.iter().filter(|&&sign| sign == 1).count();
        assert_eq!(usize::from(now.compiled.negated), count);

        let old = netlist_by(in_order, &matrix).compiled;
        assert!(now.compiled.negated <= old.negated);
        outputs += matrix.m();
        minus += usize::from(now.compiled.negated);
        before += usize::from(old.negated);
    }
    println!("of {outputs} outputs {minus} are minus, {before} before request A5");
    assert!(minus >= 300 && before - minus >= 300);
}

/// With every row negated all counts are the same but that of negated outputs, and no row is minus in both.
#[test]
fn negated_matrices_take_as_many_operations() {
    let mut random = Random::new(20_261_120);
    for _ in 0..1_000 {
        let mut matrix = any_matrix(&mut random, 8, 8);
        for coefficient in matrix.rows.iter_mut().flatten() {
            *coefficient = (*coefficient).max(-i16::MAX);
        }
        let (m, n) = (matrix.m(), matrix.n());
        let mut coefficients = matrix.rows.iter().flatten();
        let turned = netlist(&filled(m, n, || -coefficients.next().unwrap()));
        let one = netlist(&matrix);
        let negated = turned.compiled.negated;
        assert_eq!(
            turned.compiled,
            Compiled {
                negated,
                ..one.compiled
            }
        );
        let divisors = usize::from(one.compiled.divisors);
        assert_eq!(one.operations[..divisors], turned.operations[..divisors]);
        for (output, other) in one.outputs.iter().zip(&turned.outputs) {
            assert_eq!(output[1..], other[1..]);
            assert_eq!(output[0] == 2, other[0] == 2);
            assert_ne!((output[0], other[0]), (1, 1));
        }
    }
}
