//! Cases of compile: the lengths of buffer and record, the sample width (1 byte), then the record. Printed are the answer and what the
//! buffer then holds.

use std::fmt::Write;

use cases::{filled, Matrix};
use reference::returned;

use crate::case::{Call, Case};
use crate::matrices::{
    banks_with_equal_depths, banks_with_equal_scores, banks_with_negative_terms, matrices, netlist,
    netlist_at, no_rows, refused_records, three_minus_three, ROOM,
};
use crate::widths::{banks_and_widths, REFUSED_WIDTHS};

/// What a lent buffer holds before.
const OLD: u8 = 0xA5;

pub fn cases() -> Vec<Case> {
    let sixteen = inputs().into_iter().map(|(room, record)| Input {
        room,
        width: 16,
        record,
    });
    let others = inputs_of_other_widths();
    sixteen.chain(others).map(|input| case(&input)).collect()
}

/// The length of the buffer, the sample width and a matrix record.
struct Input {
    room: usize,
    width: u8,
    record: Vec<u8>,
}

fn banks() -> Vec<Matrix> {
    [
        matrices(),
        banks_with_equal_scores(),
        banks_with_equal_depths(),
        banks_with_negative_terms(),
    ]
    .concat()
}

/// Lengths of the buffer, and matrix records, for samples of 16 bits.
fn inputs() -> Vec<(usize, Vec<u8>)> {
    let mut all = Vec::new();
    for matrix in banks() {
        let record = matrix.record();
        all.push((netlist(&record).len() + matrix.m(), record));
    }
    all.extend(refused_records().into_iter().map(|record| (64, record)));
    for matrix in [filled(1, 1, || 0), three_minus_three(), filled(1, 1, || 85)] {
        let record = matrix.record();
        let length = netlist(&record).len();
        for room in [0, length - 1, length] {
            all.push((room, record.clone())); // 6
        }
    }
    all.push((ROOM, Matrix::of_rows(&[&[1, 2], &[3, 4]]).record()));
    all.extend([0, 15, 16, 17, 64].map(|room| (room, no_rows().record()))); // 6 in the first two
    all
}

fn inputs_of_other_widths() -> Vec<Input> {
    let mut all = Vec::new();
    let mut push = |room, width, record: &[u8]| {
        all.push(Input {
            room,
            width,
            record: record.to_vec(),
        });
    };
    for (matrix, width) in banks_and_widths() {
        let record = matrix.record();
        push(
            netlist_at(width, &record).len() + matrix.m(),
            width,
            &record,
        );
    }
    let right = three_minus_three().record();
    for width in REFUSED_WIDTHS {
        push(64, width, &right); // 20, also before 6 and 1 to 5
        push(0, width, &right);
        push(64, width, &[]);
        for record in refused_records() {
            push(64, width, &record);
        }
    }
    for record in refused_records() {
        push(64, 12, &record);
    }
    for (room, width) in [(0, 8), (48, 24), (49, 24), (50, 24), (51, 24)] {
        push(room, width, &right); // 6 in the first three
    }
    for (room, width) in [(0, 24), (16, 8), (17, 8), (18, 20)] {
        push(room, width, &[]); // 6 in the first two
    }
    all
}

fn case(input: &Input) -> Case {
    let (room, record) = (input.room, &input.record);
    let mut buffer = vec![OLD; room];
    let answer = reference::compile(record, input.width, &mut buffer);
    let (number, place) = returned(&answer);
    let compiled = answer.unwrap_or_default();
    let mut printed = format!(
        "{number} {place} {} {} {} {} {} {} {}\n",
        compiled.written,
        compiled.operations,
        compiled.plain,
        compiled.divisors,
        compiled.replacements,
        compiled.depth,
        compiled.negated
    );
    for byte in buffer {
        let _ = write!(printed, "{byte:02x}");
    }
    printed.push('\n');
    let bytes = [&[input.width], &record[..]].concat();
    Case::of_call(Call::Compile, [room, record.len()], &bytes, printed)
}

/// The records that are compiled, once each.
#[cfg(test)]
pub fn compiled_records() -> Vec<Vec<u8>> {
    let mut records: Vec<Vec<u8>> = inputs().into_iter().map(|(_, record)| record).collect();
    records.retain(|record| reference::compile(record, 16, &mut [0; ROOM]).is_ok());
    records.sort();
    records.dedup();
    records
}

#[cfg(test)]
mod tests {
    use super::*;
    use reference::{compile_by, Compiled, Operands, Order, Rules, Sums};

    /// The answer and the netlist of a record, by some rules.
    fn compiled(rules: Rules, record: &[u8]) -> (Compiled, Vec<u8>) {
        let mut buffer = vec![OLD; ROOM];
        let answer = compile_by(rules, record, 16, &mut buffer);
        (answer.expect("a right record"), buffer)
    }

    /// Before request A2 the depth of a divisor's operation did not count among equal scores.
    #[test]
    fn at_least_fifty_stored_matrices_have_other_bytes_where_depth_does_not_count() {
        let rules = Rules {
            order: Order::DivisorAlone,
            ..Rules::default()
        };
        let differs = |record: &&Vec<u8>| {
            let now = compiled(Rules::default(), record);
            now.1 != compiled(rules, record).1
        };
        let count = compiled_records().iter().filter(differs).count();
        println!("{count} stored matrices have other bytes where depth does not count");
        assert!(count >= 50, "only {count} stored matrices have other bytes");
    }

    /// Chains were what request A4 has replaced.
    #[test]
    fn at_least_fifty_stored_matrices_are_shallower_than_with_chains() {
        let rules = Rules {
            sums: Sums::Chain,
            ..Rules::default()
        };
        let (mut others, mut shallower, records) = (0, 0, compiled_records());
        for record in &records {
            let (now, netlist) = compiled(Rules::default(), record);
            let (before, chains) = compiled(rules, record);
            assert_eq!(now.operations, before.operations);
            assert!(now.depth <= before.depth);
            others += usize::from(netlist != chains);
            shallower += usize::from(now.depth < before.depth);
        }
        let all = records.len();
        println!("of {all} stored matrices {others} have other bytes than with chains");
        println!("and {shallower} a smaller depth");
        assert!(
            shallower >= 50,
            "only {shallower} stored matrices are shallower"
        );
    }

    /// Before request A5 the term that comes first was the first operand, also where it was the negative one of two.
    #[test]
    fn at_least_fifty_stored_matrices_have_fewer_minus_outputs_than_with_operands_in_order() {
        let rules = Rules {
            operands: Operands::InOrder,
            ..Rules::default()
        };
        let (mut others, mut fewer, mut minus, records) = (0, 0, 0, compiled_records());
        for record in &records {
            let (now, netlist) = compiled(Rules::default(), record);
            let (before, in_order) = compiled(rules, record);
            assert!(now.negated <= before.negated);
            let negated = now.negated;
            assert_eq!(now, Compiled { negated, ..before });
            others += usize::from(netlist != in_order);
            fewer += usize::from(now.negated < before.negated);
            minus += usize::from(now.negated > 0);
        }
        let all = records.len();
        println!("of {all} stored matrices {others} have other bytes than with operands in order");
        println!("and {fewer} fewer minus outputs; {minus} have some still");
        assert!(fewer >= 50, "only {fewer} have fewer minus outputs");
        assert!(minus >= 30, "only {minus} have a minus output");
    }
}
