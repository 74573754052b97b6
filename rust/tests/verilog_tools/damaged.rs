//! Wrong texts are noticed, each by the test that is there for it.

use cases::Random;

use crate::banks::{three_outputs, Bank};
use crate::simulate::simulate;
use crate::synthesise::{count_adders, prove};
use crate::tools::Fault;

/// Texts of which Icarus says nothing but that compute something else: what stands in the module, and what instead of it.
const COMPUTE_OTHERWISE: [(&str, &str); 7] = [
    ("input signed [15:0] x0", "input [15:0] x0"),
    ("wire signed [16:0] s2", "wire [16:0] s2"),
    ("wire signed [16:0] s2", "wire signed [15:0] s2"),
    ("wire signed [18:0] s3", "wire signed [17:0] s3"),
    ("= -(x0 <<< 0)", "= 1'b0 - (x0 <<< 0)"),
    ("(x0 <<< 0) - (x1 <<< 0)", "x0 <<< 0 - x1 <<< 0"),
    ("(s2 <<< 2) - (s2 <<< 0)", "(s2 <<< 2) + (s2 <<< 0)"),
];

/// Texts that compute the right outputs from other adders: a bare 0 has 32 bits, and a product is a multiplier.
const OTHER_ADDERS: [(&str, &str); 3] = [
    ("= -(x0 <<< 0)", "= 0 - (x0 <<< 0)"),
    ("(s2 <<< 2) - (s2 <<< 0)", "(s2 <<< 1) + (s2 <<< 0)"),
    ("(s2 <<< 2) - (s2 <<< 0)", "s2 * 3"),
];

/// The example's bank at 16 bits.
fn example() -> Bank {
    Bank::compiled(three_outputs(), 16)
}

/// The module with a part of it replaced, which stands there once.
fn replaced(module: &str, (part, other): (&str, &str)) -> String {
    assert_eq!(module.matches(part).count(), 1, "{part} in {module}");
    module.replace(part, other)
}

fn simulated(bank: &Bank, module: &str) -> Result<(), Fault> {
    simulate(bank, module, &mut Random::new(1))
}

#[test]
fn simulation_notices_other_outputs() {
    let bank = example();
    for change in COMPUTE_OTHERWISE {
        let found = simulated(&bank, &replaced(&bank.module(), change));
        let noticed = matches!(found, Err(Fault::Outputs { .. }));
        assert!(noticed, "{change:?}: {found:?}");
    }
}

#[test]
fn the_count_notices_other_adders() {
    let bank = example();
    for change in OTHER_ADDERS {
        let module = replaced(&bank.module(), change);
        simulated(&bank, &module).unwrap();
        let found = count_adders(&bank, &module);
        let noticed = matches!(found, Err(Fault::Adders { .. }));
        assert!(noticed, "{change:?}: {found:?}");
    }
}

/// A port that is narrower than the netlist says is one thing that Icarus warns of; a wire left undeclared is another.
#[test]
fn icarus_warns_of_ports() {
    let bank = example();
    for change in [
        ("output signed [18:0] y0", "output signed [17:0] y0"),
        ("  wire signed [16:0] s2;\n", ""),
    ] {
        let found = simulated(&bank, &replaced(&bank.module(), change));
        let noticed = matches!(found, Err(Fault::Said(_)));
        assert!(noticed, "{change:?}: {found:?}");
    }
}

#[test]
fn the_proof_notices_a_narrow_wire() {
    let bank = Bank::compiled(three_outputs(), 8);
    let change = ("wire signed [8:0] s2", "wire signed [7:0] s2");
    let found = prove(&bank, &replaced(&bank.module(), change));
    assert!(matches!(found, Err(Fault::Unequal)), "{found:?}");
}
