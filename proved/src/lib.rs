//! The proved programs, called in this process.

use reference::run::LONGEST_TEXT;
use reference::settings::LONGEST_FILE;

/// Room for the longest text of a step for each byte of the longest file, and for one more: in this the library knows beforehand that any text
/// fits, and carries the run out once. Only what is written of it is ever touched.
pub const ROOM: usize = (LONGEST_FILE + 1) * LONGEST_TEXT;

/// Room for any release list: of 128 jobs with four inputs each, and the line with their number.
pub const LIST: usize = 128 * 4 * 25 + 5;

extern "C" {
    fn custody_releases(input: *const u8, input_len: usize, out: *mut [u8; LIST]) -> usize;
    fn custody_run(input: *const u8, input_len: usize, out: *mut u8, out_len: usize) -> usize;
}

/// Answers the length of a run file's text, and writes it if there is room for the whole; else nothing.
pub fn call(input: &[u8], out: &mut [u8]) -> usize {
    // SAFETY: both pointers are of slices that live through the call, and the lengths given are theirs.
    unsafe { custody_run(input.as_ptr(), input.len(), out.as_mut_ptr(), out.len()) }
}

/// Writes the release list of a run file and answers its length.
pub fn list(input: &[u8], out: &mut [u8; LIST]) -> usize {
    // SAFETY: both pointers are of what lives through the call, and have the size that is given or declared.
    unsafe { custody_releases(input.as_ptr(), input.len(), out) }
}

/// Buffers with room for any text and any list, used again for each.
pub struct Buffer(Vec<u8>, Box<[u8; LIST]>);

impl Default for Buffer {
    fn default() -> Buffer {
        Buffer(vec![0; ROOM], Box::new([0; LIST]))
    }
}

impl Buffer {
    /// The whole text of a run file, or what is wrong with its length.
    pub fn text(&mut self, input: &[u8]) -> Result<&[u8], String> {
        let length = call(input, &mut self.0);
        let wrong = || format!("the library says its text has {length} bytes");
        self.0.get(..length).ok_or_else(wrong)
    }

    /// The release list of a run file, or what is wrong with its length.
    pub fn releases(&mut self, input: &[u8]) -> Result<&[u8], String> {
        let length = list(input, &mut self.1);
        let wrong = || format!("the library says its list has {length} bytes");
        self.1.get(..length).ok_or_else(wrong)
    }
}
