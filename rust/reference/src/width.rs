//! Netlist and board machine: the coefficients, the width and the depth of each entry.

use crate::board::{Operand, Operation, Output};
use crate::matrix::MOST;
use crate::samples::Samples;

/// The largest width that a netlist may record.
pub(crate) const MOST_WIDTH: u32 = 44;

/// The coefficients of an entry or output: it is the sum over the columns of coefficient times sample.
#[derive(Clone, Copy, Debug, Default, PartialEq, Eq)]
pub(crate) struct Form(pub [i64; MOST]);

impl Form {
    fn input(column: usize) -> Self {
        let mut form = Form::default();
        form.0[column] = 1;
        form
    }

    fn shifted(mut self, shift: u8) -> Self {
        self.0.iter_mut().for_each(|c| *c <<= shift);
        self
    }

    fn negated(mut self) -> Self {
        self.0.iter_mut().for_each(|c| *c = -*c);
        self
    }

    fn plus(mut self, other: Form) -> Self {
        self.0.iter_mut().zip(other.0).for_each(|(c, o)| *c += o);
        self
    }

    /// The smallest width that holds every value, over all samples.
    pub fn width(&self, samples: Samples) -> u32 {
        let positive: i64 = self.0.iter().map(|&c| c.max(0)).sum();
        let negative: i64 = self.0.iter().map(|&c| c.max(0) - c).sum();
        let highest = positive * samples.highest() - negative * samples.lowest();
        let lowest = positive * samples.lowest() - negative * samples.highest();
        bits(highest).max(bits(lowest))
    }
}

/// The smallest w with `value` between −2^(w−1) and 2^(w−1) − 1.
fn bits(value: i64) -> u32 {
    let magnitude = if value < 0 { !value } else { value };
    1 + i64::BITS - magnitude.leading_zeros()
}

/// Form and depth of the inputs and of the operations so far.
///
/// Widths up to 44 keep the forms small: over samples of 8 bits or more a coefficient is then at most 2^36, and no sum comes near 64 bits.
pub(crate) struct Entries {
    entries: Vec<(Form, u16)>,
    samples: Samples,
    /// The largest depth.
    pub depth: u16,
}

impl Entries {
    /// The n inputs, with room for `operations` more entries.
    pub fn inputs(n: usize, operations: usize, samples: Samples) -> Self {
        let mut entries = Vec::with_capacity(n + operations);
        entries.extend((0..n).map(|column| (Form::input(column), 0)));
        Entries {
            entries,
            samples,
            depth: 0,
        }
    }

    pub fn count(&self) -> usize {
        self.entries.len()
    }

    fn operand(&self, operand: Operand) -> (Form, u16) {
        let (form, depth) = &self.entries[usize::from(operand.symbol)];
        (form.shifted(operand.shift), *depth)
    }

    /// Appends an operation's entry and returns its width.
    pub fn append(&mut self, operation: &Operation) -> u32 {
        let (a, depth_a) = self.operand(operation.a);
        let (b, depth_b) = self.operand(operation.b);
        let form = a.plus(if operation.subtract { b.negated() } else { b });
        let depth = 1 + depth_a.max(depth_b);
        self.entries.push((form, depth));
        self.depth = self.depth.max(depth);
        form.width(self.samples)
    }

    /// An output's coefficients and its width.
    pub fn output(&self, output: &Output) -> (Form, u32) {
        let form = self.output_form(output);
        (form, form.width(self.samples))
    }

    fn output_form(&self, output: &Output) -> Form {
        match *output {
            Output::Zero => Form::default(),
            Output::Entry { minus, operand } => {
                let (form, _) = self.operand(operand);
                if minus {
                    form.negated()
                } else {
                    form
                }
            }
        }
    }
}

#[cfg(test)]
mod tests {
    use super::*;

    fn of_width(sample_width: u8) -> Samples {
        Samples::of_width(sample_width).expect("a width of samples")
    }

    /// Of x0, x0 + x1, −x0, eight times −32,768 and 32,768 summed, and 0.
    fn marked(sample_width: u8) -> [u32; 6] {
        let input = Form::input(0);
        let forms = [
            input,
            input.plus(Form::input(1)),
            input.negated(),
            Form([-32_768; MOST]),
            Form([32_768; MOST]),
            Form::default(),
        ];
        forms.map(|form| form.width(of_width(sample_width)))
    }

    #[test]
    fn marked_widths() {
        assert_eq!(marked(8), [8, 9, 9, 27, 26, 1]);
        assert_eq!(marked(12), [12, 13, 13, 31, 30, 1]);
        assert_eq!(marked(16), [16, 17, 17, 35, 34, 1]);
        assert_eq!(marked(20), [20, 21, 21, 39, 38, 1]);
        assert_eq!(marked(24), [24, 25, 25, 43, 42, 1]);
    }

    /// The smallest w ≥ 1 with every value between −2^(w−1) and 2^(w−1) − 1, where each sample is at one of its ends: between these a sum
    /// only lies between its values.
    fn width_as_defined(form: &Form, samples: Samples) -> u32 {
        let ends = [samples.lowest(), samples.highest()];
        let holds = |w: &u32| {
            (0..1usize << MOST).all(|vector| {
                let sample = |column| ends[vector >> column & 1];
                let products = form.0.iter().enumerate().map(|(j, c)| c * sample(j));
                let (value, end) = (products.sum::<i64>(), 1 << (w - 1));
                (-end..end).contains(&value)
            })
        };
        (1..64).find(holds).expect("a width")
    }

    #[test]
    fn widths_as_defined() {
        let mut random = cases::Random::new(20_261_121);
        for sample_width in 8..=24 {
            for _ in 0..100 {
                let (bits, spread) = (random.between(1, 16) as u32, random.between(0, 9));
                let mut coefficient = || i64::from(random.coefficient(bits)) << spread;
                let form = Form([(); MOST].map(|()| coefficient()));
                let samples = of_width(sample_width);
                assert_eq!(form.width(samples), width_as_defined(&form, samples));
            }
        }
    }
}
