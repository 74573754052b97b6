//! Verilog: the module `bank` of a netlist, for the board tool.

use std::fmt;
use std::fmt::Write;

use crate::board::{Board, Operand, Output};
use crate::read::Contents;
use crate::refusal::{require, Refusal};
use crate::samples::Samples;
use crate::width::Entries;

/// Writes the Verilog text of a netlist into the first bytes of `buffer`, and returns how many these are.
pub fn write_verilog(netlist: &[u8], buffer: &mut [u8]) -> Result<usize, Refusal> {
    let contents = Contents::of_netlist(netlist)?;
    let mut text = String::new();
    write_module(&contents.board, contents.samples, &mut text).expect("a string takes all");
    require(buffer.len() >= text.len(), 6, 0)?;
    buffer[..text.len()].copy_from_slice(text.as_bytes());
    Ok(text.len())
}

/// The module's lines: ports, wires, assignments. The widths that read took are the recorded ones.
fn write_module(board: &Board, samples: Samples, text: &mut String) -> fmt::Result {
    let mut entries = Entries::inputs(board.n, board.operations.len(), samples);
    let widths: Vec<u32> = board.operations.iter().map(|o| entries.append(o)).collect();
    let inputs = (0..board.n).map(|j| (u32::from(samples.width()), "input", 'x', j));
    let outputs = (0..).zip(&board.outputs);
    let outputs = outputs.map(|(i, output)| (entries.output(output).1, "output", 'y', i));
    write!(text, "module bank (")?;
    let mut separator = "\n";
    for (width, direction, letter, number) in inputs.chain(outputs) {
        write!(
            text,
            "{separator}  {direction} {} {letter}{number}",
            Signed(width)
        )?;
        separator = ",\n";
    }
    let end = if board.outputs.is_empty() { "" } else { "\n" };
    writeln!(text, "{end});")?;
    for (symbol, width) in (board.n..).zip(widths) {
        writeln!(text, "  wire {} s{symbol};", Signed(width))?;
    }
    write_assignments(board, text)?;
    writeln!(text, "endmodule")
}

fn write_assignments(board: &Board, text: &mut String) -> fmt::Result {
    for (symbol, operation) in (board.n..).zip(&board.operations) {
        let sign = if operation.subtract { '-' } else { '+' };
        let (a, b) = (Shifted(board, operation.a), Shifted(board, operation.b));
        writeln!(text, "  assign s{symbol} = {a} {sign} {b};")?;
    }
    for (row, output) in board.outputs.iter().enumerate() {
        write!(text, "  assign y{row} = ")?;
        match *output {
            // a bare 0 would be an operand of 32 bits, so zero has its one bit
            Output::Zero => writeln!(text, "1'sb0;")?,
            Output::Entry { minus, operand } => {
                let sign = if minus { "-" } else { "" };
                writeln!(text, "{sign}{};", Shifted(board, operand))?;
            }
        }
    }
    Ok(())
}

/// A signed net of so many bits.
struct Signed(u32);

impl fmt::Display for Signed {
    fn fmt(&self, f: &mut fmt::Formatter<'_>) -> fmt::Result {
        write!(f, "signed [{}:0]", self.0 - 1)
    }
}

/// An input or a wire, shifted, also where that is by 0.
struct Shifted<'a>(&'a Board, Operand);

impl fmt::Display for Shifted<'_> {
    fn fmt(&self, f: &mut fmt::Formatter<'_>) -> fmt::Result {
        let Operand { symbol, shift } = self.1;
        let letter = if usize::from(symbol) < self.0.n {
            'x'
        } else {
            's'
        };
        write!(f, "({letter}{symbol} <<< {shift})")
    }
}
