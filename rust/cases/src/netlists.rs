//! Netlists that no compiler made: any operations at all, and plain sums of a matrix's rows.

use crate::matrices::Matrix;
use crate::random::Random;

/// An entry of the board machine: its coefficients, depth and width.
#[derive(Clone, Copy)]
struct Entry {
    form: [i128; 8],
    depth: u16,
    width: u8,
}

/// An entry and the shift to the left.
type Operand = (usize, u32);

/// A netlist under construction.
struct Builder {
    n: usize,
    sample_width: u8,
    records: Vec<u8>,
    entries: Vec<Entry>,
}

impl Builder {
    fn new(n: usize, sample_width: u8) -> Self {
        let input = |j: usize| {
            let mut form = [0; 8];
            form[j] = 1;
            Entry {
                form,
                depth: 0,
                width: sample_width,
            }
        };
        Builder {
            n,
            sample_width,
            records: Vec::new(),
            entries: (0..n).map(input).collect(),
        }
    }

    fn operations(&self) -> usize {
        self.entries.len() - self.n
    }

    fn record(&mut self, kind: u8, payload: &[u8]) {
        self.records.extend([payload.len() as u8 + 4, 0, kind, 0]);
        self.records.extend(payload);
    }

    /// Appends an operation and returns its symbol.
    fn operation(&mut self, subtract: bool, a: Operand, b: Operand) -> usize {
        let (entry_a, entry_b) = (self.entries[a.0], self.entries[b.0]);
        let sign = if subtract { -1 } else { 1 };
        let mut form = [0; 8];
        for (j, c) in form.iter_mut().enumerate() {
            *c = (entry_a.form[j] << a.1) + sign * (entry_b.form[j] << b.1);
        }
        let entry = Entry {
            form,
            depth: 1 + entry_a.depth.max(entry_b.depth),
            width: width(&form, self.sample_width),
        };
        let [a0, a1] = (a.0 as u16).to_le_bytes();
        let [b0, b1] = (b.0 as u16).to_le_bytes();
        let (sa, sb) = (a.1 as u8, b.1 as u8);
        let payload = [u8::from(subtract), a0, a1, sa, b0, b1, sb, entry.width];
        self.record(3, &payload);
        self.entries.push(entry);
        self.entries.len() - 1
    }

    fn output(&mut self, minus: bool, operand: Operand) {
        let sign = if minus { -1 } else { 1 };
        let form = self.entries[operand.0]
            .form
            .map(|c| sign * (c << operand.1));
        let [low, high] = (operand.0 as u16).to_le_bytes();
        let width = width(&form, self.sample_width);
        let payload = [u8::from(minus), low, high, operand.1 as u8, width];
        self.record(4, &payload);
    }

    fn zero(&mut self) {
        self.record(4, &[2, 0, 0, 0, 1]);
    }

    /// The netlist with head and totals.
    fn finish(self, m: usize) -> Vec<u8> {
        let [low, high] = (self.operations() as u16).to_le_bytes();
        let depth = self.entries.iter().map(|entry| entry.depth).max();
        let [d0, d1] = depth.unwrap_or(0).to_le_bytes();
        let mut bytes = head(m as u8, self.n as u8, [low, high], self.sample_width);
        bytes.extend(self.records);
        bytes.extend([8, 0, 5, 0, low, high, d0, d1]);
        bytes
    }
}

/// The head of kind 2 for samples of 16 bits, else that of kind 6, which says the width.
fn head(m: u8, n: u8, [low, high]: [u8; 2], sample_width: u8) -> Vec<u8> {
    match sample_width {
        16 => vec![8, 0, 2, 0, m, n, low, high],
        _ => vec![9, 0, 6, 0, m, n, low, high, sample_width],
    }
}

/// The smallest width of a form over all samples, or 255 where it is larger than 100.
fn width(form: &[i128; 8], sample_width: u8) -> u8 {
    let (least, most) = (-(1 << (sample_width - 1)), (1 << (sample_width - 1)) - 1);
    let end = |[negative, positive]: [i128; 2]| {
        let sample = |&c: &i128| if c > 0 { positive } else { negative };
        form.iter().map(|c| c * sample(c)).sum::<i128>()
    };
    let (highest, lowest) = (end([least, most]), end([most, least]));
    let holds = |w: &u8| lowest >= -(1i128 << (w - 1)) && highest < 1i128 << (w - 1);
    (1..=100).find(holds).unwrap_or(255)
}

/// Any operations on any entries, right in every field, but that a width may exceed 44. Without inputs there are no operations.
pub fn any_netlist(
    random: &mut Random,
    sample_width: u8,
    m: usize,
    n: usize,
    operations: usize,
) -> Vec<u8> {
    let mut builder = Builder::new(n, sample_width);
    let operations = if n == 0 { 0 } else { operations };
    let most_shift = random.choose(&[0, 1, 4, 15]);
    let most_width = random.choose(&[30, 40, 42, 43, 44, 45]);
    for _ in 0..operations {
        let a = operand(random, &builder, most_shift, most_width);
        let b = operand(random, &builder, most_shift, most_width);
        builder.operation(random.once_in(2), a, b);
    }
    for _ in 0..m {
        let entry = operand(random, &builder, most_shift, most_width);
        if random.once_in(8) {
            builder.zero();
        } else {
            builder.output(random.once_in(2), entry);
        }
    }
    builder.finish(m)
}

/// A chain of operations in which each takes what came before it three times in four, so that it is deep, and any other entry,
/// which may have to wait long. Outputs are any entries, inputs and the chain's end among them. No width exceeds 44.
pub fn deep_netlist(
    random: &mut Random,
    sample_width: u8,
    m: usize,
    n: usize,
    operations: usize,
) -> Vec<u8> {
    let mut builder = Builder::new(n, sample_width);
    for _ in 0..operations {
        let latest = builder.entries.len() - 1;
        let any = operand(random, &builder, 2, 40);
        let before = if random.once_in(4) {
            operand(random, &builder, 2, 40)
        } else {
            (latest, 0)
        };
        // a chain that is too wide goes on from zero, as deep as it was
        let wide = [before, any]
            .iter()
            .any(|o| builder.entries[o.0].width > 42);
        let (subtract, second) = if wide {
            (true, before)
        } else {
            (random.once_in(2), any)
        };
        let (a, b) = random.choose(&[(before, second), (second, before)]);
        builder.operation(subtract, a, b);
    }
    for _ in 0..m {
        let latest = builder.entries.len() - 1;
        match random.between(0, 5) {
            0 => builder.zero(),
            1 => builder.output(random.once_in(2), (latest, 0)),
            2 => builder.output(random.once_in(2), (random.between(0, n - 1), 1)),
            _ => {
                let entry = operand(random, &builder, 2, 40);
                builder.output(random.once_in(2), entry);
            }
        }
    }
    builder.finish(m)
}

/// A chain over one input in which each operation takes the one before it and the one so far `back`, or the input where there is
/// none, with the sign that keeps it narrow and not zero: what is taken from so far back waits for so many clocks. Outputs are the
/// chain's end and the input.
pub fn waiting_netlist(sample_width: u8, operations: usize, back: usize) -> Vec<u8> {
    let mut builder = Builder::new(1, sample_width);
    for before in 0..operations {
        let earlier = before.saturating_sub(back);
        let [a, b] = [before, earlier].map(|entry| builder.entries[entry].form[0]);
        let (sum, difference) = ((a + b).abs(), (a - b).abs());
        let subtract = sum == 0 || difference != 0 && difference < sum;
        builder.operation(subtract, (before, 0), (earlier, 0));
    }
    builder.output(false, (operations, 0));
    builder.output(true, (0, 0));
    builder.finish(2)
}

/// An entry, rather a narrow one, with a shift that keeps it within a width where it can.
fn operand(random: &mut Random, builder: &Builder, most_shift: usize, most_width: u8) -> Operand {
    let most = builder.entries.len() - 1;
    let (one, other) = (random.between(0, most), random.between(0, most));
    let width = |entry: usize| builder.entries[entry].width;
    let entry = if width(one) <= width(other) {
        one
    } else {
        other
    };
    let room = usize::from(most_width.saturating_sub(width(entry)));
    (entry, random.between(0, most_shift.min(room)) as u32)
}

/// A netlist that computes the matrix from binary digits, row by row, in an order that the random numbers choose; none where
/// it would have more than 504 operations.
pub fn plain_netlist(random: &mut Random, sample_width: u8, matrix: &Matrix) -> Option<Vec<u8>> {
    let mut builder = Builder::new(matrix.n(), sample_width);
    let mut outputs = Vec::new();
    for row in &matrix.rows {
        outputs.push(row_sum(random, &mut builder, row));
    }
    for output in outputs {
        match output {
            None => builder.zero(),
            Some((minus, entry)) => builder.output(minus, entry),
        }
    }
    (builder.operations() <= 504).then(|| builder.finish(matrix.m()))
}

/// Sums the binary digits of a row's coefficients two at a time, in any order; minus stands before the sum.
fn row_sum(random: &mut Random, builder: &mut Builder, row: &[i16]) -> Option<(bool, Operand)> {
    let mut terms = Vec::new();
    for (symbol, &coefficient) in row.iter().enumerate() {
        let size = coefficient.unsigned_abs();
        let positions = (0..16).filter(|p| size >> p & 1 == 1);
        terms.extend(positions.map(|p| (coefficient < 0, (symbol, p))));
    }
    while terms.len() > 1 {
        let (minus, a) = terms.swap_remove(random.between(0, terms.len() - 1));
        let (minus_b, b) = terms.swap_remove(random.between(0, terms.len() - 1));
        let sum = builder.operation(minus != minus_b, a, b);
        terms.push((minus, (sum, 0)));
    }
    terms.pop()
}
