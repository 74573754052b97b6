//! Stored files, with what has to come of each beside it: the library and the independent implementation give just that.

use std::collections::BTreeSet;
use std::ffi::OsStr;
use std::fs;
use std::path::{Path, PathBuf};

/// What a lent buffer holds before.
const OLD: u8 = 0xA5;

/// Where the files stand: NAME.input and NAME.output in tests/folder.
pub struct Stored {
    pub folder: &'static str,
    pub input: &'static str,
    pub output: &'static str,
    /// The bytes that suffice for every output.
    pub room: usize,
}

impl Stored {
    /// Compares both calls on every file, and returns how many files there are and how many of them are refused.
    pub fn compare(
        &self,
        verified: impl Fn(&[u8], &mut [u8]) -> Result<usize, zaatarloft::Refusal>,
        independent: impl Fn(&[u8], &mut [u8]) -> Result<usize, reference::Refusal>,
    ) -> (usize, usize) {
        let (files, mut refused) = (self.files(), 0);
        for path in &files {
            let input = fs::read(path).unwrap();
            let expected = fs::read(path.with_extension(self.output)).unwrap();
            let given = self.given(|buffer| {
                let answer = verified(&input, buffer);
                answer.map_err(|refusal| (refusal.number, refusal.place))
            });
            assert_eq!(given, expected, "{}", path.display());
            let given = self.given(|buffer| {
                let answer = independent(&input, buffer);
                answer.map_err(|refusal| (refusal.number, refusal.place))
            });
            assert_eq!(given, expected, "{}", path.display());
            refused += usize::from(expected.starts_with(b"refused "));
        }
        (files.len(), refused)
    }

    /// All files NAME.input, in order.
    fn files(&self) -> BTreeSet<PathBuf> {
        let tests = Path::new(env!("CARGO_MANIFEST_DIR")).join("../tests");
        let paths = fs::read_dir(tests.join(self.folder))
            .unwrap()
            .map(|file| file.unwrap().path());
        paths
            .filter(|path| path.extension() == Some(OsStr::new(self.input)))
            .collect()
    }

    /// What a call gives: the bytes written, or the line of the refusal, which is its number and place.
    fn given(&self, call: impl FnOnce(&mut [u8]) -> Result<usize, (u8, usize)>) -> Vec<u8> {
        let mut buffer = vec![OLD; self.room];
        match call(&mut buffer) {
            Ok(written) => {
                assert!(buffer[written..].iter().all(|&byte| byte == OLD));
                buffer.truncate(written);
                buffer
            }
            Err((number, place)) => {
                assert!(buffer.iter().all(|&byte| byte == OLD));
                format!("refused {number} at {place}\n").into_bytes()
            }
        }
    }
}
