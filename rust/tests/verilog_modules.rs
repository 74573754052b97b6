//! The netlists of tests/verilog: the library gives what stands beside each, the text of its Verilog module or a refusal, and so does
//! the independent implementation.

mod stored_files;

use stored_files::Stored;

#[test]
fn each_gives_what_stands_beside_it() {
    let files = Stored {
        folder: "verilog",
        input: "netlist",
        output: "v",
        room: zaatarloft::VERILOG_BYTES,
    };
    let numbers = files.compare(zaatarloft::write_verilog, reference::write_verilog);
    assert_eq!(numbers, (42, 12));
}
