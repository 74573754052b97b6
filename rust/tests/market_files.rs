//! The Matrix Market files of tests/matrix-market: the library gives what stands beside each, a matrix record or a refusal, and so
//! does the independent implementation.

mod stored_files;

use stored_files::Stored;

#[test]
fn each_gives_what_stands_beside_it() {
    let files = Stored {
        folder: "matrix-market",
        input: "mtx",
        output: "out",
        room: zaatarloft::MATRIX_BYTES,
    };
    let numbers = files.compare(
        zaatarloft::read_matrix_market,
        reference::read_matrix_market,
    );
    assert_eq!(numbers, (80, 60));
}
