//! Verilog modules: the text line by line, the order of refusals, and buffers that just suffice or do not.

use cases::Matrix;
use reference::{compile, read, returned, write_verilog, Refusal};

/// The netlist of a matrix for samples of so many bits.
fn netlist(rows: &[&[i16]], width: u8) -> Vec<u8> {
    let mut buffer = vec![0; 6137];
    let compiled = compile(&Matrix::of_rows(rows).record(), width, &mut buffer);
    buffer.truncate(compiled.expect("a right record").written);
    buffer
}

/// The text of a netlist that is taken; the rest of the buffer must be as it was.
fn module(netlist: &[u8]) -> String {
    let mut buffer = vec![0xA5; 37_987];
    let written = write_verilog(netlist, &mut buffer).expect("a netlist");
    assert!(buffer[written..].iter().all(|&byte| byte == 0xA5));
    buffer.truncate(written);
    String::from_utf8(buffer).expect("text")
}

/// The module of rows 3 −3, −1 0 and 0 0, for samples of 16 bits.
const THREE_ROWS: &str = "\
module bank (
  input signed [15:0] x0,
  input signed [15:0] x1,
  output signed [18:0] y0,
  output signed [16:0] y1,
  output signed [0:0] y2
);
  wire signed [16:0] s2;
  wire signed [18:0] s3;
  assign s2 = (x0 <<< 0) - (x1 <<< 0);
  assign s3 = (s2 <<< 2) - (s2 <<< 0);
  assign y0 = (s3 <<< 0);
  assign y1 = -(x0 <<< 0);
  assign y2 = 1'sb0;
endmodule
";

fn three_rows() -> Vec<u8> {
    netlist(&[&[3, -3], &[-1, 0], &[0, 0]], 16)
}

#[test]
fn ports_wires_and_assignments() {
    assert_eq!(module(&three_rows()), THREE_ROWS);
}

/// Of 12 bits every value of these rows has four fewer than of 16, but zero has one bit.
#[test]
fn widths_are_those_of_the_samples() {
    let narrow = netlist(&[&[3, -3], &[-1, 0], &[0, 0]], 12);
    let expected = THREE_ROWS
        .replace("[15:0]", "[11:0]")
        .replace("[16:0]", "[12:0]")
        .replace("[18:0]", "[14:0]");
    assert_eq!(module(&narrow), expected);
}

#[test]
fn no_ports_without_rows() {
    for width in [8, 16, 24] {
        assert_eq!(module(&netlist(&[], width)), "module bank ();\nendmodule\n");
    }
}

#[test]
fn no_wires_without_operations() {
    let expected = "\
module bank (
  input signed [7:0] x0,
  output signed [9:0] y0,
  output signed [22:0] y1,
  output signed [0:0] y2
);
  assign y0 = (x0 <<< 2);
  assign y1 = -(x0 <<< 14);
  assign y2 = 1'sb0;
endmodule
";
    let rows: [&[i16]; 3] = [&[4], &[-16_384], &[0]];
    assert_eq!(module(&netlist(&rows, 8)), expected);
}

/// Bytes that compile would not write: s1 is 0 and so has one bit, whatever its operands have, and no output uses s2.
#[test]
fn netlists_of_others() {
    let records: [&[u8]; 5] = [
        &[8, 0, 2, 0, 1, 1, 2, 0],
        &[12, 0, 3, 0, 1, 0, 0, 15, 0, 0, 15, 1],
        &[12, 0, 3, 0, 0, 0, 0, 0, 1, 0, 15, 16],
        &[9, 0, 4, 0, 1, 1, 0, 15, 1],
        &[8, 0, 5, 0, 2, 0, 2, 0],
    ];
    let expected = "\
module bank (
  input signed [15:0] x0,
  output signed [0:0] y0
);
  wire signed [0:0] s1;
  wire signed [15:0] s2;
  assign s1 = (x0 <<< 15) - (x0 <<< 15);
  assign s2 = (x0 <<< 0) + (s1 <<< 15);
  assign y0 = -(s1 <<< 15);
endmodule
";
    assert_eq!(module(&records.concat()), expected);
}

/// The longest chain: each of 504 operations takes the one before from itself.
#[test]
fn symbols_of_three_digits() {
    let mut netlist = vec![8, 0, 2, 0, 1, 8, 0xF8, 1];
    for symbol in 7..511u16 {
        let [low, high] = symbol.to_le_bytes();
        netlist.extend([12, 0, 3, 0, 1, low, high, 0, low, high, 0, 1]);
    }
    netlist.extend([9, 0, 4, 0, 0, 0xFF, 1, 0, 1]);
    netlist.extend([8, 0, 5, 0, 0xF8, 1, 0xF8, 1]);
    let text = module(&netlist);
    let lines: Vec<&str> = text.lines().collect();
    assert_eq!(lines.len(), 11 + 504 + 504 + 2);
    assert_eq!(lines[11], "  wire signed [0:0] s8;");
    assert_eq!(lines[514], "  wire signed [0:0] s511;");
    assert_eq!(lines[515], "  assign s8 = (x7 <<< 0) - (x7 <<< 0);");
    assert_eq!(lines[516], "  assign s9 = (s8 <<< 0) - (s8 <<< 0);");
    assert_eq!(lines[517], "  assign s10 = (s9 <<< 0) - (s9 <<< 0);");
    assert_eq!(lines[607], "  assign s100 = (s99 <<< 0) - (s99 <<< 0);");
    assert_eq!(lines[1018], "  assign s511 = (s510 <<< 0) - (s510 <<< 0);");
    assert_eq!(lines[1019], "  assign y0 = (s511 <<< 0);");
}

#[test]
fn buffers_around_the_text() {
    let (netlist, length) = (three_rows(), THREE_ROWS.len());
    for room in 0..length {
        let mut buffer = vec![0xA5; room];
        let refused = Refusal {
            number: 6,
            place: 0,
        };
        assert_eq!(write_verilog(&netlist, &mut buffer), Err(refused));
        assert_eq!(buffer, vec![0xA5; room]);
    }
    for room in length..length + 3 {
        let mut buffer = vec![0xA5; room];
        assert_eq!(write_verilog(&netlist, &mut buffer), Ok(length));
        let (text, behind) = buffer.split_at(length);
        assert_eq!(text, THREE_ROWS.as_bytes());
        assert!(behind.iter().all(|&byte| byte == 0xA5));
    }
}

/// The netlist of three rows with the byte at a place set to another.
fn changed(place: usize, byte: u8) -> Vec<u8> {
    let mut netlist = three_rows();
    netlist[place] = byte;
    netlist
}

/// Read's refusals, 7 to 12, come before 6: operations stand at 8 and 20, outputs at 32, 41 and 50, totals at 59, the end is 67.
#[test]
fn refusals_are_those_of_read() {
    let netlist = three_rows();
    let longer = [&netlist[..], &[0]].concat();
    let refused = [
        (vec![], (7, 0)),
        (netlist[..66].to_vec(), (7, 59)),
        (changed(2, 6), (8, 0)),
        (changed(34, 3), (8, 32)),
        (changed(6, 1), (8, 20)),
        (changed(23, 1), (8, 20)),
        (changed(15, 16), (9, 8)),
        (changed(54, 3), (9, 50)),
        (changed(19, 18), (10, 8)),
        (changed(40, 18), (10, 32)),
        (changed(65, 1), (11, 59)),
        (longer, (12, 67)),
    ];
    for (netlist, expected) in refused {
        for room in [0, 37_987] {
            let mut buffer = vec![0xA5; room];
            let answer = write_verilog(&netlist, &mut buffer);
            assert_eq!(returned(&answer), expected, "{netlist:?}");
            assert_eq!(returned(&read(&netlist)), expected);
            assert_eq!(buffer, vec![0xA5; room]);
        }
    }
}
