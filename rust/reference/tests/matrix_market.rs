//! Matrix Market files: the forms of lines, the order of refusals and their places, from the request's sentences.

use cases::Matrix;
use reference::{read_matrix_market, Refusal};

/// The first line, of 44 bytes, and what follows it.
fn file(behind: &str) -> String {
    format!("%%MatrixMarket matrix array integer general\n{behind}")
}

/// The record's bytes, or the refusal's number and place; the rest of the buffer must be as it was.
fn read(text: impl AsRef<[u8]>) -> Result<Vec<u8>, (u8, usize)> {
    let mut buffer = [0xA5; 140];
    match read_matrix_market(text.as_ref(), &mut buffer) {
        Ok(written) => {
            assert!(buffer[written..].iter().all(|&byte| byte == 0xA5));
            Ok(buffer[..written].to_vec())
        }
        Err(Refusal { number, place }) => {
            assert_eq!(buffer, [0xA5; 140]);
            Err((number, place))
        }
    }
}

fn matrix(rows: &[&[i16]]) -> Result<Vec<u8>, (u8, usize)> {
    Ok(Matrix::of_rows(rows).record())
}

#[test]
fn entries_stand_column_by_column() {
    let rows: [&[i16]; 2] = [&[11, 12, 13], &[21, 22, 23]];
    assert_eq!(read(file("2 3\n11\n21\n12\n22\n13\n23\n")), matrix(&rows));
    let columns: [&[i16]; 3] = [&[11, 22], &[21, 13], &[12, 23]];
    assert_eq!(
        read(file("3 2\n11\n21\n12\n22\n13\n23\n")),
        matrix(&columns)
    );
    assert_eq!(
        read(file("1 2\n3\n-3\n")),
        Ok(vec![0x0A, 0, 1, 0, 1, 2, 3, 0, 0xFD, 0xFF])
    );
}

#[test]
fn every_size() {
    for (m, n) in (1..=8).flat_map(|m| (1..=8).map(move |n| (m, n))) {
        let entry = |i, j| 1_000 * i as i16 - 7 * j as i16;
        let rows: Vec<Vec<i16>> = (0..m)
            .map(|i| (0..n).map(|j| entry(i, j)).collect())
            .collect();
        let mut text = file(&format!("{m} {n}\n"));
        for (j, i) in (0..n).flat_map(|j| (0..m).map(move |i| (j, i))) {
            text += &format!("{}\n", entry(i, j));
        }
        assert_eq!(read(text), Ok(Matrix { rows }.record()));
    }
}

#[test]
fn lines_that_start_with_percent() {
    let one = matrix(&[&[5]]);
    assert_eq!(read(file("%\n1 1\n5\n")), one);
    assert_eq!(read(file("%\n% 9 9\n%%%\n%\r\n1 1\n5\n")), one);
    assert_eq!(read(file(&file("1 1\n5\n"))), one);
    let long = format!("%{}\n", "=".repeat(100_000));
    assert_eq!(read(file(&format!("{long}{long}1 1\n5\n"))), one);
    let any: Vec<u8> = (0..=255).filter(|&byte| byte != b'\n').collect();
    let text = [file("%").as_bytes(), &any, b"\n1 1\n5\n"].concat();
    assert_eq!(read(text), one);
}

#[test]
fn leading_zeros() {
    for count in [1, 4, 5, 19, 20, 100, 100_000] {
        let zeros = "0".repeat(count);
        let text = format!("{zeros}1 {zeros}3\n{zeros}5\n-{zeros}5\n{zeros}\n");
        assert_eq!(read(file(&text)), matrix(&[&[5, -5, 0]]));
    }
}

#[test]
fn entries_at_the_ends_of_the_range() {
    let text = file("1 4\n-32768\n32767\n-0\n-000032768\n");
    assert_eq!(read(text), matrix(&[&[i16::MIN, i16::MAX, 0, i16::MIN]]));
    for entry in ["-32769", "32768", "-0032769", "65536", "-65536"] {
        assert_eq!(read(file(&format!("1 1\n{entry}\n"))), Err((19, 48)));
    }
}

#[test]
fn numbers_too_high_for_any_type() {
    for bits in [8, 16, 31, 32, 63, 64, 127] {
        let high = (1u128 << bits) + 1;
        assert_eq!(read(file(&format!("{high} 1\n5\n"))), Err((4, 44)));
        assert_eq!(read(file(&format!("1 {high}\n5\n"))), Err((4, 44)));
        if bits >= 16 {
            assert_eq!(read(file(&format!("1 1\n{high}\n"))), Err((19, 48)));
            assert_eq!(read(file(&format!("1 1\n-{high}\n"))), Err((19, 48)));
        }
    }
    for digits in [20, 40, 5_000, 100_000] {
        let high = "1".repeat(digits);
        assert_eq!(read(file(&format!("{high} 1\n5\n"))), Err((4, 44)));
        assert_eq!(read(file(&format!("1 {high}\n5\n"))), Err((4, 44)));
        assert_eq!(read(file(&format!("1 1\n{high}\n"))), Err((19, 48)));
        assert_eq!(read(file(&format!("1 1\n-{high}\n"))), Err((19, 48)));
    }
}

#[test]
fn first_line_of_another_form() {
    let right = file("1 1\n5\n");
    assert_eq!(read(&right), matrix(&[&[5]]));
    for end in 0..44 {
        assert_eq!(read(&right[..end]), Err((17, 0)));
    }
    for (old, new) in [
        ("%%", "%"),
        ("%%", " %%"),
        ("%%", "\n%%"),
        ("%%", "%\n%%"),
        ("%%", "\u{FEFF}%%"),
        ("MatrixMarket", "MATRIXMARKET"),
        ("matrix", "Matrix"),
        ("array", "coordinate"),
        ("integer", "real"),
        ("general", "symmetric"),
        ("general", "general "),
        ("general", "general\r"),
        (" array", "  array"),
        (" array", "\tarray"),
        ("general\n", "general"),
    ] {
        let other = right.replacen(old, new, 1);
        assert_ne!(other, right);
        assert_eq!(read(other), Err((17, 0)), "{new}");
    }
}

#[test]
fn size_line_missing_or_of_another_form() {
    assert_eq!(read(file("")), Err((17, 44)));
    assert_eq!(read(file("%\n%\n")), Err((17, 48)));
    for line in [
        "", " ", "1", "1 ", " 1", "1  1", " 1 1", "1 1 ", "1 1 1", "1\t1", "1 1\r", "1,1", "-1 1",
        "1 -1", "+1 1", "1 +1", "1.0 1", "0x1 1", "1 1%", "one 1", "1 \0", "9 ", " 9", "9 -9",
    ] {
        let text = file(&format!("%\n{line}\n5\n"));
        assert_eq!(read(text), Err((17, 46)), "{line}");
    }
}

/// Such a line is neither a first line nor a comment nor a size, and among the entries it is none.
#[test]
fn lines_without_line_feed() {
    assert_eq!(read(file("%")), Err((17, 44)));
    assert_eq!(read(file("%\n% 1 1")), Err((17, 46)));
    assert_eq!(read(file("1 1")), Err((17, 44)));
    assert_eq!(read(file("9 9")), Err((17, 44)));
    assert_eq!(read(file("1 2\n5\n6")), Err((19, 50)));
    assert_eq!(read(file("1 3\n5\n6")), Err((19, 50)));
    assert_eq!(read(file("1 1\n5\n6")), Err((18, 50)));
}

#[test]
fn sizes_outside_one_to_eight() {
    for size in ["0 1", "1 0", "00 1", "0 0", "9 1", "1 9", "10 10", "256 1"] {
        let text = |entries| file(&format!("%\n{size}\n{entries}"));
        assert_eq!(read(text("")), Err((4, 46)));
        assert_eq!(read(text("five\n")), Err((4, 46)));
        assert_eq!(read(text(&"5\n".repeat(100))), Err((4, 46)));
    }
}

#[test]
fn entries_of_another_form() {
    for entry in [
        "", "-", "--5", "+5", "- 5", " 5", "5 ", "5\t", "5\r", "5-", "5 5", "5.0", "5e0", "0x5",
        "%", "%5", "5%", "five", "5\0", "\0", "−5", "٣", "/", ":",
    ] {
        let first = file(&format!("1 3\n{entry}\n6\n7\n"));
        let middle = file(&format!("1 3\n6\n{entry}\n7\n"));
        let last = file(&format!("1 3\n6\n7\n{entry}\n"));
        assert_eq!(read(first), Err((19, 48)), "{entry}");
        assert_eq!(read(middle), Err((19, 50)), "{entry}");
        assert_eq!(read(last), Err((19, 52)), "{entry}");
        // before 18, whether entries are too few or too many; the first line counts
        let few = file(&format!("1 3\n{entry}\n"));
        let many = file(&format!("1 3\n6\n{entry}\nsix\n7\n8\n"));
        assert_eq!(read(few), Err((19, 48)), "{entry}");
        assert_eq!(read(many), Err((19, 50)), "{entry}");
        // behind the entries it is a line too many
        let surplus = file(&format!("1 1\n5\n{entry}\n"));
        assert_eq!(read(surplus), Err((18, 50)), "{entry}");
    }
}

#[test]
fn entries_too_few_or_too_many() {
    assert_eq!(read(file("2 2\n")), Err((18, 48)));
    assert_eq!(read(file("2 2\n1\n2\n3\n")), Err((18, 54)));
    assert_eq!(read(file("2 2\n1\n2\n3\n4\n5\n")), Err((18, 56)));
    assert_eq!(read(file("2 2\n1\n2\n3\n4\n5\n6\n")), Err((18, 56)));
    assert_eq!(read(file("2 2\n1\n2\n3\n4\n\n")), Err((18, 56)));
    assert_eq!(read(file("2 2\n1\n2\n3\n4\n ")), Err((18, 56)));
}

/// 6 comes last, at place 0.
#[test]
fn buffers_too_short() {
    let texts = ["1 2\n3\n-3\n", "1 2\n3\n", "1 2\n3\n-3\n4\n", "1 2\n3\nx\n"];
    let numbers = [(6, 0), (18, 50), (18, 53), (19, 50)];
    for (text, (number, place)) in texts.into_iter().zip(numbers) {
        for room in 0..10 {
            let mut buffer = vec![0xA5; room];
            let answer = read_matrix_market(file(text).as_bytes(), &mut buffer);
            assert_eq!(answer, Err(Refusal { number, place }));
            assert_eq!(buffer, vec![0xA5; room]);
        }
    }
    let mut buffer = [0xA5; 10];
    let answer = read_matrix_market(file(texts[0]).as_bytes(), &mut buffer);
    assert_eq!(answer, Ok(10));
}

#[test]
fn no_bytes_are_no_file() {
    assert_eq!(read(""), Err((17, 0)));
    let refused = Refusal {
        number: 17,
        place: 0,
    };
    assert_eq!(read_matrix_market(&[], &mut []), Err(refused));
}
