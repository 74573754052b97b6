//! Cases of test_scores: matrix records one after another. Printed are, for each matrix, a line for each state of elimination, from the
//! matrix's rows to the remaining rows, and then an empty line. A line has three numbers: how many divisors have an occurrence, the sum
//! of their scores, and the sum of key times score. They come from a scorer that keeps nothing from one state to the next.

use std::collections::HashSet;
use std::fmt::Write;

use cases::{any_matrix, bank, filled, Matrix, Random};
use reference::literal::{Elimination, State};
use reference::Divisor;

use crate::case::Case;
use crate::matrices::{banks_with_equal_scores, matrices, MATRIX_ROOM};

/// Columns of a row that has the most terms, 64.
const MOST_COLUMNS: usize = 8;

/// The two different banks of the seeds 0 to 999, and three of spread seeds.
const BURN_IN_SEEDS: [u32; 5] = [0, 979, 19_088_743, 38_177_486, 57_266_229];

pub fn test_scores() -> Case {
    let mut case = Case::default();
    for record in records() {
        case.stdout.extend(printed(&record).into_bytes());
        case.stdin.extend(record);
    }
    case
}

/// Different matrices: those of all sizes, those with equal scores, small ones whose digits repeat, spread ones, rows with the most
/// terms, and banks of the burn-in.
fn records() -> Vec<Vec<u8>> {
    let mut random = Random::new(20_261_117);
    let mut matrices = [matrices(), banks_with_equal_scores()].concat();
    matrices.extend(small(&mut random));
    matrices.extend(spread(&mut random));
    matrices.extend(full(&mut random));
    let mut records: Vec<Vec<u8>> = matrices.iter().map(Matrix::record).collect();
    records.extend(BURN_IN_SEEDS.map(generated));
    let mut met = HashSet::new();
    records.retain(|record| met.insert(record.clone()));
    records
}

/// Every repeated coefficient alone, and matrices of up to three rows and columns that draw from them.
fn small(random: &mut Random) -> Vec<Matrix> {
    let mut coefficients = repeated();
    let mut all: Vec<Matrix> = coefficients.iter().map(|&c| filled(1, 1, || c)).collect();
    coefficients.extend([0, 1, -1, 21, -86, 1_365]);
    for (m, n) in sizes(3) {
        for _ in 0..60 {
            all.push(filled(m, n, || random.choose(&coefficients)));
        }
    }
    all
}

/// Coefficients whose digits stand at equal distances: all plus, all minus, or in turn; from the lowest position on, or up to the
/// highest. From three digits on, which is up to distance 7, pairs of one divisor overlap.
fn repeated() -> Vec<i16> {
    let mut all = Vec::new();
    for distance in 2..=7 {
        for count in 2..=15 / distance + 1 {
            let highest = 15 - distance * (count - 1);
            for lowest in [0, highest] {
                for signs in [[1, 1], [-1, -1], [1, -1], [-1, 1]] {
                    let digit = |i: i32| signs[(i % 2) as usize] << (lowest + distance * i);
                    let sum: i32 = (0..count).map(digit).sum();
                    all.extend(i16::try_from(sum));
                }
            }
        }
    }
    all
}

/// Matrices of all kinds, and random ones of several sizes and coefficient sizes.
fn spread(random: &mut Random) -> Vec<Matrix> {
    let mut all: Vec<Matrix> = (0..240).map(|_| any_matrix(random, 5, 5)).collect();
    for (m, n) in sizes(6) {
        for bits in [3, 7, 11, 16] {
            all.push(bank(random, m, n, bits));
        }
    }
    all
}

/// Matrices of each number of rows in which every row has 64 terms: eight columns of eight digits.
fn full(random: &mut Random) -> Vec<Matrix> {
    let mut all = Vec::new();
    for m in 1..=8 {
        all.push(filled(m, MOST_COLUMNS, || {
            random.choose(&[21_845, -21_845])
        }));
        for _ in 0..3 {
            all.push(filled(m, MOST_COLUMNS, || eight_digits(random)));
        }
    }
    all
}

/// A coefficient of eight digits: every other position from 0 on, but that behind some digit one position more is left out.
fn eight_digits(random: &mut Random) -> i16 {
    loop {
        let behind = random.between(0, 8);
        let digit = |i| random.choose(&[1, -1]) << (2 * i + usize::from(i >= behind));
        let sum: i32 = (0..8).map(digit).sum();
        if let Ok(coefficient) = i16::try_from(sum) {
            return coefficient;
        }
    }
}

/// The record of an 8 by 8 bank that the generator makes.
fn generated(seed: u32) -> Vec<u8> {
    let mut record = vec![0; MATRIX_ROOM];
    let written = reference::generate(8, 8, seed, &mut record);
    assert_eq!(written, Ok(MATRIX_ROOM));
    record
}

/// All sizes of up to so many rows and columns.
fn sizes(most: usize) -> impl Iterator<Item = (usize, usize)> {
    (1..=most).flat_map(move |m| (1..=most).map(move |n| (m, n)))
}

fn literal(record: &[u8]) -> Elimination {
    Elimination::of_record(record).expect("a right record")
}

fn printed(record: &[u8]) -> String {
    let mut text = String::new();
    for state in literal(record).states {
        let [scores, digest] = sums(&state);
        let _ = writeln!(text, "{} {scores} {digest}", state.scores.len());
    }
    text.push('\n');
    text
}

/// The sum of the scores, and the sum of key times score.
fn sums(state: &State) -> [u64; 2] {
    let mut sums = [0, 0];
    for &(divisor, score) in &state.scores {
        sums[0] += score as u64;
        sums[1] += key(divisor) * score as u64;
    }
    sums
}

/// A divisor as one number, in the order among equal scores and depths.
fn key(divisor: Divisor) -> u64 {
    let [a, b] = [divisor.a, divisor.b].map(u64::from);
    let [ea, eb] = [divisor.ea, divisor.eb].map(u64::from);
    (((a * 512 + b) * 32 + ea) * 32 + eb) * 2 + u64::from(divisor.minus)
}

#[cfg(test)]
mod tests {
    use super::*;
    use crate::matrices::{three_minus_three, ROOM};

    /// The divisors of a netlist: its first operations.
    fn divisors(netlist: &[u8], count: u16) -> Vec<Divisor> {
        let (mut divisors, mut place) = (Vec::new(), 8);
        for _ in 0..count {
            let operation = reference::step(netlist, place).expect("an operation");
            let bytes = operation.payload;
            divisors.push(Divisor {
                a: u16::from_le_bytes([bytes[1], bytes[2]]),
                b: u16::from_le_bytes([bytes[4], bytes[5]]),
                ea: bytes[3],
                eb: bytes[6],
                minus: bytes[0] == 1,
            });
            place = operation.next;
        }
        divisors
    }

    #[test]
    fn literal_elimination_gives_the_divisors_of_compile() {
        for record in records() {
            let mut netlist = [0; ROOM];
            let compiled = reference::compile(&record, 16, &mut netlist).expect("a right record");
            let literal = literal(&record);
            let expected = divisors(&netlist, compiled.divisors);
            assert_eq!(literal.divisors, expected, "{record:?}");
            assert_eq!(literal.replacements, usize::from(compiled.replacements));
        }
    }

    #[test]
    fn matrices_are_many_and_of_all_kinds() {
        let records = records();
        assert!(records.len() >= 1000, "only {} matrices", records.len());
        let of_one_symbol =
            |&(divisor, score): &(Divisor, usize)| divisor.a == divisor.b && score >= 2;
        let (mut states, mut repeating, mut full_rows) = (0, 0, 0);
        for record in &records {
            let literal = literal(record);
            full_rows += literal.states[0]
                .rows
                .iter()
                .filter(|row| row.len() == 64)
                .count();
            for state in &literal.states {
                states += 1;
                repeating += usize::from(state.scores.iter().any(of_one_symbol));
            }
        }
        println!("{} matrices, {states} states", records.len());
        println!("{repeating} states in which a divisor with a = b has a score of 2 or more");
        println!("{full_rows} rows of 64 terms");
        assert!(repeating > 0 && full_rows > 0);
    }

    /// Row 3, −3 has six pairs. The two with equal exponents are of one divisor, which gets symbol 2, with terms at 0 and 2.
    #[test]
    fn lines_of_three_minus_three() {
        let key = |a, b, ea, eb, minus| {
            key(Divisor {
                a,
                b,
                ea,
                eb,
                minus,
            })
        };
        let once = [
            key(0, 0, 0, 2, true),
            key(0, 1, 0, 2, false),
            key(0, 1, 2, 0, false),
            key(1, 1, 0, 2, true),
        ];
        assert_eq!(once, [5, 2052, 2176, 1_050_629]);
        let twice = key(0, 1, 0, 0, true);
        let digest = once.iter().sum::<u64>() + 2 * twice;
        let last = key(2, 2, 0, 2, true);
        let expected = format!("5 6 {digest}\n1 1 {last}\n\n");
        assert_eq!(printed(&three_minus_three().record()), expected);
    }
}
