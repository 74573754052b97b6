//! Matrix Market files: matrices in every spelling that is permitted, and damaged files.

use crate::matrices::Matrix;
use crate::random::Random;

/// The first line of every file, before its line feed.
const FIRST: &[u8] = b"%%MatrixMarket matrix array integer general";

/// First lines that resemble it.
const OTHER_FIRST_LINES: [&[u8]; 16] = [
    b"%%MATRIXMARKET MATRIX ARRAY INTEGER GENERAL",
    b"%%matrixmarket matrix array integer general",
    b"%%MatrixMarket matrix array integer general ",
    b"%%MatrixMarket  matrix array integer general",
    b"%%MatrixMarket\tmatrix\tarray\tinteger\tgeneral",
    b" %%MatrixMarket matrix array integer general",
    b"%MatrixMarket matrix array integer general",
    b"%%MatrixMarket matrix array real general",
    b"%%MatrixMarket matrix array complex general",
    b"%%MatrixMarket matrix coordinate integer general",
    b"%%MatrixMarket matrix array integer symmetric",
    b"%%MatrixMarket vector array integer general",
    b"%%MatrixMarket matrix array integer",
    b"\xEF\xBB\xBF%%MatrixMarket matrix array integer general",
    b"%",
    b"",
];

/// Bytes that matter to a reader, those beside the digits and beyond ASCII among them.
const TELLING_BYTES: &[u8] = b"\n\n\r\t  -+%0159/:.,e\0\x80\xFF";

/// How many digits or bytes are many.
const MANY: usize = 5_000;

/// A file of the matrix, as programs write it: without comments and leading zeros.
pub fn plain_market_file(matrix: &Matrix) -> Vec<u8> {
    let mut lines = vec![FIRST.to_vec(), size_line(matrix.m(), matrix.n())];
    lines.extend(column_by_column(matrix).map(|entry| entry.to_string().into_bytes()));
    lines.iter().flat_map(|line| ended(line)).collect()
}

/// A file of the matrix, with any comments and leading zeros, and minus zero.
pub fn market_file(random: &mut Random, matrix: &Matrix) -> Vec<u8> {
    File::of_matrix(random, matrix).lines.concat()
}

/// A file of the matrix with one to three kinds of damage, of which some leave it a file.
pub fn damaged_market_file(random: &mut Random, matrix: &Matrix) -> Vec<u8> {
    let mut file = File::of_matrix(random, matrix);
    for _ in 0..random.choose(&[1, 1, 1, 2, 3]) {
        match random.between(0, 9) {
            0..=2 => file.damage_bytes(random),
            3 | 4 => file.damage_lines(random),
            5 => file.damage_line_ends(random),
            6 => {
                let first = random.choose(&OTHER_FIRST_LINES);
                file.replace(0, first);
            }
            7 => {
                let size = other_size_line(random, matrix.m(), matrix.n());
                file.replace(file.size, &size);
            }
            _ => {
                let entry = other_entry(random);
                let line = random.between(file.size + 1, file.size + matrix.m() * matrix.n());
                file.replace(line, &entry);
            }
        }
    }
    file.lines.concat()
}

/// A line with its line feed.
fn ended(line: &[u8]) -> Vec<u8> {
    [line, b"\n"].concat()
}

fn size_line(m: usize, n: usize) -> Vec<u8> {
    format!("{m} {n}").into_bytes()
}

fn column_by_column(matrix: &Matrix) -> impl Iterator<Item = i16> + '_ {
    (0..matrix.n()).flat_map(move |j| matrix.rows.iter().map(move |row| row[j]))
}

/// Leading zeros: mostly none or few, now and then hundreds, seldom thousands.
fn zeros(random: &mut Random) -> String {
    let count = match random.between(0, 999) {
        0 => random.between(1_000, MANY),
        1..=5 => random.between(100, 900),
        6..=250 => random.between(1, 4),
        _ => 0,
    };
    "0".repeat(count)
}

/// A spelling of the entry, in which a zero may have a minus.
fn spelled(random: &mut Random, entry: i16) -> Vec<u8> {
    let minus = entry < 0 || entry == 0 && random.once_in(4);
    let sign = if minus { "-" } else { "" };
    format!("{sign}{}{}", zeros(random), entry.unsigned_abs()).into_bytes()
}

/// Any bytes but line feeds behind a %, among them what would be another line of the file.
fn comment(random: &mut Random) -> Vec<u8> {
    let words = match random.between(0, 60) {
        0..=19 => Vec::new(),
        20..=29 => b" filters of one instrument".to_vec(),
        30..=36 => b"2 2".to_vec(),
        37..=43 => FIRST[1..].to_vec(),
        44..=50 => b" \r".to_vec(),
        51..=59 => {
            let count = random.between(1, 100);
            random.bytes(count)
        }
        _ => vec![b'='; random.between(200, MANY)],
    };
    let words = words.into_iter().filter(|&byte| byte != b'\n');
    std::iter::once(b'%').chain(words).collect()
}

/// A file, line by line, each with its line feed.
struct File {
    lines: Vec<Vec<u8>>,
    /// Which of them is the size line, as long as none was put before it or taken from there.
    size: usize,
}

impl File {
    fn of_matrix(random: &mut Random, matrix: &Matrix) -> Self {
        let mut lines = vec![FIRST.to_vec()];
        for _ in 0..random.choose(&[0, 0, 1, 1, 2, 5]) {
            lines.push(comment(random));
        }
        let size = lines.len();
        let (m, n) = (matrix.m(), matrix.n());
        let both = [zeros(random), format!("{m} "), zeros(random), n.to_string()];
        lines.push(both.concat().into_bytes());
        for entry in column_by_column(matrix) {
            lines.push(spelled(random, entry));
        }
        let lines = lines.iter().map(|line| ended(line)).collect();
        File { lines, size }
    }

    /// Puts another line in place of one that is still there.
    fn replace(&mut self, line: usize, other: &[u8]) {
        if let Some(line) = self.lines.get_mut(line) {
            *line = ended(other);
        }
    }

    /// One of the lines, and the place of one of its bytes; none where the file has no lines, or this one no bytes.
    fn byte(&self, random: &mut Random) -> Option<(usize, usize)> {
        let line = random.between(0, self.lines.len().checked_sub(1)?);
        let place = random.between(0, self.lines[line].len().checked_sub(1)?);
        Some((line, place))
    }

    /// Changes a byte, puts one in, takes one away, or cuts the file off.
    fn damage_bytes(&mut self, random: &mut Random) {
        let byte = match random.between(0, 3) {
            0 => random.byte(),
            _ => random.choose(TELLING_BYTES),
        };
        let (line, place) = match self.byte(random) {
            Some(found) => found,
            None => return,
        };
        match random.between(0, 3) {
            0 => self.lines[line][place] = byte,
            1 => self.lines[line].insert(place, byte),
            2 => {
                self.lines[line].remove(place);
            }
            _ => {
                self.lines.truncate(line + 1);
                self.lines[line].truncate(place);
            }
        }
    }

    /// Drops a line, has it twice, exchanges two, or puts another one anywhere, often behind the last.
    fn damage_lines(&mut self, random: &mut Random) {
        let count = self.lines.len();
        let (one, two) = match self.byte(random).zip(self.byte(random)) {
            Some(((one, _), (two, _))) => (one, two),
            None => return,
        };
        match random.between(0, 5) {
            0 => {
                self.lines.remove(one);
            }
            1 => self.lines.insert(one, self.lines[one].clone()),
            2 => self.lines.swap(one, two),
            way => {
                let place = if way == 3 { one } else { count };
                let lines: [&[u8]; 8] =
                    [b"\n", b"\n", b" \n", b"%\n", b"% 1\n", b"7\n", b"7", b"\0"];
                self.lines.insert(place, random.choose(&lines).to_vec());
            }
        }
    }

    /// A carriage return before each line feed or before one, or the last line feed missing, or that of any line.
    fn damage_line_ends(&mut self, random: &mut Random) {
        let last = match self.lines.len().checked_sub(1) {
            Some(last) => last,
            None => return,
        };
        let any = random.between(0, last);
        let (lines, end): (_, &[u8]) = match random.between(0, 3) {
            0 => (0..=last, b"\r\n"),
            1 => (any..=any, b"\r\n"),
            2 => (last..=last, b""),
            _ => (any..=any, b""),
        };
        for line in &mut self.lines[lines] {
            if line.pop().is_some() {
                line.extend(end);
            }
        }
    }
}

/// A size line of another form, or with another size, which may be within the limits.
fn other_size_line(random: &mut Random, m: usize, n: usize) -> Vec<u8> {
    let forms = [
        format!("{m}  {n}"),
        format!(" {m} {n}"),
        format!("{m} {n} "),
        format!("{m}\t{n}"),
        format!("{m} {n}\r"),
        format!("{m}{n}"),
        format!("{m} "),
        format!(" {n}"),
        format!("{m} {n} {n}"),
        format!("-{m} {n}"),
        format!("{m} -{n}"),
        format!("+{m} {n}"),
        format!("{m} +{n}"),
        format!("{m}.0 {n}"),
        format!("{m},{n}"),
        format!("0x{m} {n}"),
        format!("{m} {n}%"),
        String::new(),
    ];
    match random.between(0, 5) {
        0 | 1 => {
            let form = random.between(0, forms.len() - 1);
            forms[form].clone().into_bytes()
        }
        2 => size_line(random.between(0, 9), random.between(0, 9)),
        3 => size_line(n, m),
        _ => {
            let sizes = [
                (outside(random, m), n.to_string()),
                (m.to_string(), outside(random, n)),
            ];
            let (m, n) = &sizes[random.between(0, 1)];
            format!("{m} {n}").into_bytes()
        }
    }
}

/// A size outside 1 to 8, often one that is `size` once its high bits are lost.
fn outside(random: &mut Random, size: usize) -> String {
    match random.between(0, 6) {
        0 => zeros(random) + "0",
        1 => "9".to_string(),
        2 => "10".to_string(),
        3 => many_digits(random),
        _ => with_high_bits(random, size as i128),
    }
}

/// The number with a power of two more in size: the same in the bits below.
fn with_high_bits(random: &mut Random, number: i128) -> String {
    let power = 1i128 << random.choose(&[8, 16, 31, 32, 63, 64, 65, 100]);
    let sign = if number < 0 { -1 } else { 1 };
    (number + sign * power).to_string()
}

/// A number that needs very many digits.
fn many_digits(random: &mut Random) -> String {
    let count = random.choose(&[20, 21, 40, MANY]);
    let digit = random.choose(&["1", "9", "00"]);
    random.choose(&["1", "10", "9"]).to_string() + &digit.repeat(count)
}

/// An entry of another form or outside the range, now and then just inside.
fn other_entry(random: &mut Random) -> Vec<u8> {
    let forms: [&[u8]; 30] = [
        b"",
        b"-",
        b"--5",
        b"+5",
        b"-+5",
        b" 5",
        b"5 ",
        b"- 5",
        b"5\t",
        b"\t5",
        b"5\r",
        b"5-",
        b"1 2",
        b"1.0",
        b"1,0",
        b"1e3",
        b"0x10",
        b"%",
        b"% 5",
        b"5%",
        b"\0",
        b"5\0",
        b"\x005",
        b"\xE2\x88\x925",
        b"\xD9\xA3",
        b"/",
        b":",
        b"five",
        b"-0-",
        b"0-0",
    ];
    let near = [
        -32_770, -32_769, -32_768, -32_767, 32_766, 32_767, 32_768, 32_769,
    ];
    match random.between(0, 5) {
        0 | 1 => random.choose(&forms).to_vec(),
        2 => random.choose(&near).to_string().into_bytes(),
        3 => {
            let sign = random.choose(&["", "-"]);
            (sign.to_string() + &many_digits(random)).into_bytes()
        }
        _ => {
            let entry = random.coefficient(16);
            with_high_bits(random, entry.into()).into_bytes()
        }
    }
}

#[cfg(test)]
mod tests {
    use super::*;

    #[test]
    fn plain_file() {
        let matrix = Matrix::of_rows(&[&[11, 12, -13], &[0, i16::MIN, i16::MAX]]);
        let expected =
            "%%MatrixMarket matrix array integer general\n2 3\n11\n0\n12\n-32768\n-13\n32767\n";
        assert_eq!(plain_market_file(&matrix), expected.as_bytes());
    }

    /// Without comments, leading zeros and the minus of a zero, any file of a matrix is the plain one.
    #[test]
    fn spellings_of_one_matrix() {
        let matrix = Matrix::of_rows(&[&[11, 12, -13], &[0, i16::MIN, i16::MAX]]);
        for seed in 0..1_000 {
            let file = market_file(&mut Random::new(seed), &matrix);
            let lines = file.split(|&byte| byte == b'\n').enumerate();
            let lines = lines.filter(|(k, line)| *k == 0 || !line.starts_with(b"%"));
            let mut plain = Vec::new();
            for (k, line) in lines {
                let line = String::from_utf8(line.to_vec()).unwrap();
                let numbers = line.split(' ').map(|word| match word.parse::<i32>() {
                    Ok(number) => number.to_string(),
                    Err(_) => word.to_string(),
                });
                let line = numbers.collect::<Vec<_>>().join(" ");
                plain.push(if k == 0 { FIRST.to_vec() } else { line.into() });
            }
            assert_eq!(plain.join(&b'\n'), plain_market_file(&matrix));
        }
    }
}
