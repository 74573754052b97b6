//! What is stored of a program, or a part of it.

/// The calls that test_calls makes, by the numbers that its input has for them.
#[derive(Clone, Copy)]
pub enum Call {
    Compile,
    Check,
    Run,
}

/// What a program reads, and what it must print.
#[derive(Default)]
pub struct Case {
    pub stdin: Vec<u8>,
    pub stdout: Vec<u8>,
}

impl Case {
    /// A case of test_calls: which call, two numbers, and the bytes that belong to them.
    pub fn of_call(call: Call, numbers: [usize; 2], bytes: &[u8], printed: String) -> Self {
        let [first, second] = numbers.map(|number| (number as u16).to_le_bytes());
        Case {
            stdin: [&[call as u8], &first[..], &second, bytes].concat(),
            stdout: printed.into_bytes(),
        }
    }
}
