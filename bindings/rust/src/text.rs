//! The programs `ertime run` and `ertaudit` as calls over texts, over the C library `libertime_text`. It is there with the
//! feature `text`; the build script then links what pkg-config finds as `ertime_text`.
//!
//! ```
//! use ertime::text::{Status, TextError, judge, run};
//!
//! let ran = run(br#"{"format":1,"first":[0,0],"ops":[]}"#)?;
//! assert_eq!((ran.status, ran.output.as_str()), (Status::Done, "end 0\n"));
//! let judged = judge(b"settings no false 0 1 1 1 1 0 0\n")?;
//! assert_eq!((judged.status, judged.output.as_str()), (Status::Done, "legal 0\n"));
//! # Ok::<(), TextError>(())
//! ```
use alloc::string::String;
use alloc::vec;
use alloc::vec::Vec;
use core::fmt;

use ertime_sys as sys;

/// What a buffer has room for at first.
const ROOM: usize = 1024;

type Command = unsafe extern "C" fn(*const u8, usize, *mut u8, usize, *mut u8, usize, *mut sys::ert_told) -> u32;

/// What was found of a text.
#[derive(Clone, Copy, Debug, PartialEq, Eq)]
#[non_exhaustive]
pub enum Status {
    /// The scenario was run, or the history is legal.
    Done,
    /// The text is a history, and an entry of it isn't legal.
    Illegal,
    /// The text is no scenario, or no history.
    Refused,
}

/// What a program answers to a text.
#[derive(Clone, Debug, PartialEq, Eq)]
pub struct Answer {
    /// What was found of it.
    pub status: Status,
    /// What the program writes to standard output: a transcript, a verdict or a refusal.
    pub output: String,
    /// The message that it writes to standard error; empty at [`Status::Done`].
    pub errors: String,
}

/// Why a text got no answer.
#[derive(Clone, Copy, Debug, PartialEq, Eq)]
#[non_exhaustive]
pub enum TextError {
    /// Out of memory.
    NoMemory,
    /// The text has more than 16,777,216 bytes.
    TooLong,
}

impl fmt::Display for TextError {
    fn fmt(&self, f: &mut fmt::Formatter<'_>) -> fmt::Result {
        f.write_str(match self {
            TextError::NoMemory => "out of memory",
            TextError::TooLong => "the text has more than 16777216 bytes",
        })
    }
}

impl core::error::Error for TextError {}

/// Runs a scenario, as `ertime run` does.
///
/// # Errors
///
/// [`TextError::NoMemory`], [`TextError::TooLong`].
pub fn run(scenario: &[u8]) -> Result<Answer, TextError> {
    answer(sys::ert_run, scenario)
}

/// Judges a history, as `ertaudit` does.
///
/// # Errors
///
/// [`TextError::NoMemory`], [`TextError::TooLong`].
pub fn judge(history: &[u8]) -> Result<Answer, TextError> {
    answer(sys::ert_judge, history)
}

/// Makes a call, and again where a buffer was too small.
fn answer(command: Command, text: &[u8]) -> Result<Answer, TextError> {
    let (mut output, mut errors) = (vec![0; ROOM.max(text.len())], vec![0; ROOM]);
    loop {
        let mut told = sys::ert_told::default();
        // SAFETY: each pointer is one to as many bytes as the length behind it says, and nothing overlaps.
        let status = unsafe {
            command(
                text.as_ptr(),
                text.len(),
                output.as_mut_ptr(),
                output.len(),
                errors.as_mut_ptr(),
                errors.len(),
                &raw mut told,
            )
        };
        let fits = told.output <= output.len() && told.errors <= errors.len();
        output.resize(if fits { told.output } else { told.output.max(output.len()) }, 0);
        errors.resize(if fits { told.errors } else { told.errors.max(errors.len()) }, 0);
        if fits {
            return told_as(status, output, errors);
        }
    }
}

fn told_as(status: u32, output: Vec<u8>, errors: Vec<u8>) -> Result<Answer, TextError> {
    let status = match status {
        sys::ERT_TEXT_DONE => Status::Done,
        sys::ERT_TEXT_ILLEGAL => Status::Illegal,
        sys::ERT_TEXT_REFUSED => Status::Refused,
        sys::ERT_TEXT_TOO_LONG => return Err(TextError::TooLong),
        _ => return Err(TextError::NoMemory),
    };
    let text = |bytes: Vec<u8>| String::from_utf8_lossy(&bytes).into_owned();
    Ok(Answer { status, output: text(output), errors: text(errors) })
}
