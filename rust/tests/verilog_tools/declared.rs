//! What the module of a netlist has to declare, and the adders that it needs.

use crate::tools::Cells;

/// Widths and adders, as a netlist records them.
pub struct Declared {
    pub sample_width: u8,
    pub inputs: usize,
    /// The width of each output.
    pub outputs: Vec<u8>,
    /// Yosys's name for the adder of each operation and each minus output: its kind and the width at which it works, which is the
    /// largest one of the operands and the target.
    pub adders: Cells,
    /// How many operations and minus outputs have a target narrower than an operand.
    pub narrower: usize,
}

impl Declared {
    pub fn of_netlist(netlist: &[u8]) -> Self {
        let sample_width = reference::sample_width(netlist).unwrap();
        let inputs = usize::from(reference::read(netlist).unwrap().n);
        let mut declared = Declared {
            sample_width,
            inputs,
            outputs: Vec::new(),
            adders: Cells::new(),
            narrower: 0,
        };
        let mut symbols = vec![sample_width; inputs];
        let mut place = 0;
        while let Ok(record) = reference::step(netlist, place) {
            let payload = record.payload;
            let width_at =
                |at| symbols[usize::from(u16::from_le_bytes([payload[at], payload[at + 1]]))];
            match (record.kind, payload[0]) {
                (3, sign) => {
                    let kind = if sign == 1 { "$sub" } else { "$add" };
                    let operands = width_at(1).max(width_at(4));
                    declared.adder(kind, operands, payload[7]);
                    symbols.push(payload[7]);
                }
                (4, sign) => {
                    if sign == 1 {
                        declared.adder("$neg", width_at(1), payload[4]);
                    }
                    declared.outputs.push(payload[4]);
                }
                _ => {}
            }
            place = record.next;
        }
        declared
    }

    fn adder(&mut self, kind: &str, operands: u8, target: u8) {
        let cell = format!("{kind}_{}", operands.max(target));
        *self.adders.entry(cell).or_default() += 1;
        self.narrower += usize::from(target < operands);
    }

    /// Names and widths of the input ports.
    pub fn input_ports(&self) -> Vec<(String, u8)> {
        let port = |j| (format!("x{j}"), self.sample_width);
        (0..self.inputs).map(port).collect()
    }

    /// Names and widths of the output ports.
    pub fn output_ports(&self) -> Vec<(String, u8)> {
        let port = |(i, &width)| (format!("y{i}"), width);
        self.outputs.iter().enumerate().map(port).collect()
    }

    /// An instance of the module, each port bound to the signal of its name.
    pub fn instance(&self) -> String {
        let ports = [self.input_ports(), self.output_ports()].concat();
        let bound = ports.iter().map(|(name, _)| format!(".{name}({name})"));
        format!("  bank bank ({});\n", bound.collect::<Vec<_>>().join(", "))
    }
}

/// A declaration of a signed signal.
pub fn signal(kind: &str, (name, width): &(String, u8)) -> String {
    format!("  {kind} signed [{}:0] {name};\n", width - 1)
}
