// SPDX-License-Identifier: MIT OR Apache-2.0
//! The calls of kat, which decides equations of programs and of Kleene algebra with tests and proves its answers.
//!
//! ```
//! # fn main() -> Result<(), kat::Error> {
//! let problem = "test b; action p; goal equal (b.p)*.!b, b.p.(b.p)*.!b + !b;";
//! let decided = kat::decide(problem)?;
//! assert_eq!(decided.status, kat::Status::Equal);
//! assert_eq!(kat::check(problem, &decided.output)?.output, b"accepted equal\n");
//! # Ok(())
//! # }
//! ```
//!
//! Each function is a command of kat on texts instead of files; `docs/commands.md` of the repository says what each prints.
//! Any number of threads may call at once. Give a thread that calls 5 MB of stack, and more for `flow` (`docs/embedding.md`).
#![warn(missing_docs)]

mod calls;

use std::error;
use std::fmt;

/// The version of the release that this crate belongs to. [`version`] gives that of the library.
pub const VERSION: &str = env!("CARGO_PKG_VERSION");

/// A version. Later ones are greater, and it prints as `0.6.0`.
#[derive(Clone, Copy, Debug, PartialEq, Eq, PartialOrd, Ord, Hash)]
pub struct Version {
    /// The first number.
    pub major: u32,
    /// The second number.
    pub minor: u32,
    /// The third number.
    pub patch: u32,
}

impl fmt::Display for Version {
    fn fmt(&self, to: &mut fmt::Formatter<'_>) -> fmt::Result {
        write!(to, "{}.{}.{}", self.major, self.minor, self.patch)
    }
}

/// The version of the library that is linked.
pub fn version() -> Version {
    // SAFETY: the call takes nothing.
    version_of(unsafe { calls::kat_version() })
}

/// The version of the number that kat.h has for it.
fn version_of(number: u32) -> Version {
    Version { major: number / 1_000_000, minor: number / 1000 % 1000, patch: number % 1000 }
}

/// The room for the output of the first call. Where it is longer the call is made again, which does the work again.
const FIRST_ROOM: usize = 65536;

/// What a call answers about its question.
#[derive(Clone, Copy, Debug, PartialEq, Eq, Hash)]
pub enum Status {
    /// The goal holds, evidence of that is accepted, or the command succeeded.
    Equal,
    /// The goal does not hold, evidence of that is accepted, a store refutes it, or a run did not end.
    Different,
    /// Evidence, a proof or notes do not show what they claim.
    Rejected,
}

/// The answer of a call, with all that the command of its name prints.
#[derive(Clone, Debug, PartialEq, Eq)]
pub struct Answer {
    /// What is answered.
    pub status: Status,
    /// What the command prints.
    pub output: Vec<u8>,
}

/// Why a call gave no answer.
#[derive(Clone, Debug, PartialEq, Eq)]
#[non_exhaustive]
pub enum Error {
    /// A text is refused. The string is what the command prints, as `refused: Syntax 31`.
    Refused(String),
    /// The text has no such program, or the store does not fit it. The string is what the command prints.
    NoSuch(String),
    /// Memory ran out.
    OutOfMemory,
    /// The library answered a status that kat.h does not have, so it is of another version.
    Unknown(u8),
}

impl fmt::Display for Error {
    fn fmt(&self, to: &mut fmt::Formatter<'_>) -> fmt::Result {
        match self {
            Error::Refused(printed) | Error::NoSuch(printed) => to.write_str(printed),
            Error::OutOfMemory => to.write_str("out of memory"),
            Error::Unknown(status) => write!(to, "the library answered {status}, which is no status of kat.h"),
        }
    }
}

impl error::Error for Error {}

/// Calls with the output's memory, its room and the place of its length, until there is enough room.
fn with_room(call: impl Fn(*mut u8, usize, *mut usize) -> u8) -> Result<Answer, Error> {
    let mut output = vec![0u8; FIRST_ROOM];
    loop {
        let mut needed = 0;
        let status = call(output.as_mut_ptr(), output.len(), &mut needed);
        if status == 9 {
            output.resize(needed, 0);
            continue;
        }
        output.truncate(needed);
        return answer_of(status, output);
    }
}

fn answer_of(status: u8, output: Vec<u8>) -> Result<Answer, Error> {
    let printed = |output: Vec<u8>| String::from_utf8_lossy(&output).trim_end().to_owned();
    let status = match status {
        0 => Status::Equal,
        1 => Status::Different,
        2 => return Err(Error::Refused(printed(output))),
        3 => Status::Rejected,
        6 => return Err(Error::OutOfMemory),
        7 => return Err(Error::NoSuch(printed(output))),
        other => return Err(Error::Unknown(other)),
    };
    Ok(Answer { status, output })
}

/// Makes a function of a call that takes one text.
macro_rules! of_one {
    ($(#[$doc:meta])* $name:ident, $call:ident) => {
        $(#[$doc])*
        pub fn $name(text: impl AsRef<[u8]>) -> Result<Answer, Error> {
            let text = text.as_ref();
            // SAFETY: the text is readable for its length and is not written to; `with_room` passes memory of its own.
            with_room(|out, room, needed| unsafe { calls::$call(text.as_ptr(), text.len(), out, room, needed) })
        }
    };
}

/// Makes a function of a call that takes two texts.
macro_rules! of_two {
    ($(#[$doc:meta])* $name:ident, $call:ident, $given:ident) => {
        $(#[$doc])*
        pub fn $name(text: impl AsRef<[u8]>, $given: impl AsRef<[u8]>) -> Result<Answer, Error> {
            let (text, $given) = (text.as_ref(), $given.as_ref());
            // SAFETY: as with one text.
            with_room(|out, room, needed| unsafe {
                calls::$call(text.as_ptr(), text.len(), $given.as_ptr(), $given.len(), out, room, needed)
            })
        }
    };
}

of_one! {
    /// Decides the goal of a problem file. The output is evidence.
    decide, kat_decide
}
of_one! {
    /// The same with a line of JSON as its output.
    decide_json, kat_decide_json
}
of_one! {
    /// Decides each of up to 64 goals of a problem file.
    batch, kat_batch
}
of_one! {
    /// Prints the problem of tests and actions that is decided for a problem file.
    show, kat_show
}
of_one! {
    /// Translates a text of guarded programs into a problem file.
    gkat, kat_gkat
}
of_one! {
    /// Prints the question whether two flow graphs always return the same as a problem file.
    flow, kat_flow
}
of_one! {
    /// Proves a triple of a program: its output is notes if the triple holds, and a string otherwise.
    outline, kat_outline
}
of_two! {
    /// Checks evidence for the goal of a problem file, whoever wrote it.
    check, kat_check, evidence
}
of_two! {
    /// Prints the string of evidence, state by state.
    replay, kat_replay, evidence
}
of_two! {
    /// Explains evidence in the words of the problem file.
    explain, kat_explain, evidence
}
of_two! {
    /// Checks a proof that turns one side of the goal into the other by axioms.
    chain, kat_chain, proof
}
of_two! {
    /// Checks notes in the program of a triple, whoever wrote them.
    outline_check, kat_outline_check, notes
}
of_two! {
    /// Prints an equivalent program with a single loop.
    oneloop, kat_oneloop, program
}

/// Looks for a store from which the goal is false, with runs of at most `turns` loop bodies. `try` is a word of Rust.
pub fn try_(text: impl AsRef<[u8]>, turns: u64) -> Result<Answer, Error> {
    let text = text.as_ref();
    // SAFETY: as with `of_one`.
    with_room(|out, room, needed| unsafe { calls::kat_try(text.as_ptr(), text.len(), turns, out, room, needed) })
}

/// The same, but the stores that follow the string of evidence are tried first.
pub fn try_with(text: impl AsRef<[u8]>, turns: u64, evidence: impl AsRef<[u8]>) -> Result<Answer, Error> {
    let (text, evidence) = (text.as_ref(), evidence.as_ref());
    // SAFETY: as with `of_one`.
    with_room(|out, room, needed| unsafe {
        calls::kat_try_with(text.as_ptr(), text.len(), turns, evidence.as_ptr(), evidence.len(), out, room, needed)
    })
}

/// Runs a program of a problem file from a store, as `a=12,b=18`, for at most `turns` loop bodies.
pub fn run(
    text: impl AsRef<[u8]>, program: impl AsRef<[u8]>, store: impl AsRef<[u8]>, turns: u64,
) -> Result<Answer, Error> {
    let (text, program, store) = (text.as_ref(), program.as_ref(), store.as_ref());
    // SAFETY: as with `of_one`.
    with_room(|out, room, needed| unsafe {
        calls::kat_run(
            text.as_ptr(), text.len(), program.as_ptr(), program.len(), store.as_ptr(), store.len(), turns, out, room, needed,
        )
    })
}

/// Rewrites a program by at most `steps` steps that the prover finds correct: the steps, and the program.
pub fn optimise(text: impl AsRef<[u8]>, program: impl AsRef<[u8]>, steps: u64) -> Result<Answer, Error> {
    let (text, program) = (text.as_ref(), program.as_ref());
    // SAFETY: as with `of_one`.
    with_room(|out, room, needed| unsafe {
        calls::kat_optimise(text.as_ptr(), text.len(), program.as_ptr(), program.len(), steps, out, room, needed)
    })
}

#[cfg(test)]
mod tests {
    use super::*;

    #[test]
    fn other_statuses_are_errors() {
        assert_eq!(answer_of(2, b"refused: NoGoal\n".to_vec()), Err(Error::Refused("refused: NoGoal".into())));
        assert_eq!(answer_of(6, Vec::new()), Err(Error::OutOfMemory));
        assert_eq!(answer_of(200, Vec::new()), Err(Error::Unknown(200)));
        assert!(Error::Unknown(200).to_string().contains("200"));
    }

    #[test]
    fn versions() {
        assert_eq!(version().to_string(), VERSION);
        assert_eq!(version_of(12_345_006), Version { major: 12, minor: 345, patch: 6 });
        assert!(version_of(1_000_000) > version_of(999_999));
    }

    #[test]
    fn a_long_output_takes_a_second_call() {
        let long = vec![b'x'; FIRST_ROOM + 1];
        let answer = with_room(|out, room, needed| {
            // SAFETY: `needed` is the place of `with_room`, and `out` has `room` bytes.
            unsafe { *needed = long.len() };
            if room < long.len() {
                return 9;
            }
            unsafe { std::ptr::copy_nonoverlapping(long.as_ptr(), out, long.len()) };
            0
        });
        assert_eq!(answer, Ok(Answer { status: Status::Equal, output: long.clone() }));
    }
}
