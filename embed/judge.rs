//! Answers standard input as the program does, through the library:
//!
//!     judge_rs judge < FILE
//!
//! Its word is the name of a call, such as `log_explain_page`.

use std::io::{Read, Write, stderr, stdin, stdout};
use std::process::ExitCode;

type Call = unsafe extern "C" fn(*const u8, usize, *mut u8, usize, *mut usize) -> u8;

// Declares the calls as causal_judge.h does, and finds each by its name. A slice crosses as its pointer and its length.
macro_rules! calls {
    ($($name:literal $call:ident)*) => {
        #[link(name = "causal_judge", kind = "static")]
        unsafe extern "C" {
            $(fn $call(input: *const u8, input_bytes: usize, answer: *mut u8, answer_bytes: usize, needed: *mut usize) -> u8;)*
        }

        fn command(name: &str) -> Option<Call> {
            match name {
                $($name => Some($call),)*
                _ => None,
            }
        }
    };
}

calls! {
    "judge" causal_judge_judge
    "check" causal_judge_check
    "explain" causal_judge_explain
    "explain_words" causal_judge_explain_words
    "explain_picture" causal_judge_explain_picture
    "explain_page" causal_judge_explain_page
    "refute" causal_judge_refute
    "long_judge" causal_judge_long_judge
    "long_explain" causal_judge_long_explain
    "long_explain_words" causal_judge_long_explain_words
    "long_explain_picture" causal_judge_long_explain_picture
    "long_explain_page" causal_judge_long_explain_page
    "long_refute" causal_judge_long_refute
    "log_judge" causal_judge_log_judge
    "log_explain" causal_judge_log_explain
    "log_explain_words" causal_judge_log_explain_words
    "log_explain_picture" causal_judge_log_explain_picture
    "log_explain_page" causal_judge_log_explain_page
    "log_events" causal_judge_log_events
}

const LINES: usize = 128;

/// What the library says of an input.
enum Answer {
    Answered(Vec<u8>),
    Refused(Vec<u8>),
    NoMemory,
}

/// Asks once, and once more where the text has no room.
fn ask(call: Call, input: &[u8]) -> Answer {
    let mut answer = vec![0; LINES];
    loop {
        let mut needed = 0;
        // SAFETY: the pointers and the lengths are those of slices that nobody else has now, and no
        // pointer of a slice is null.
        let status = unsafe { call(input.as_ptr(), input.len(), answer.as_mut_ptr(), answer.len(), &mut needed) };
        match status {
            3 => answer = vec![0; needed],
            0 | 1 => {
                answer.truncate(needed);
                return if status == 0 { Answer::Answered(answer) } else { Answer::Refused(answer) };
            }
            _ => return Answer::NoMemory,
        }
    }
}

fn main() -> std::io::Result<ExitCode> {
    let Some(call) = std::env::args().nth(1).as_deref().and_then(command) else {
        eprintln!("usage: judge_rs CALL < FILE, where CALL is judge, explain, log_judge or another name of calls!");
        return Ok(ExitCode::from(2));
    };
    let mut input = Vec::new();
    stdin().read_to_end(&mut input)?;
    match ask(call, &input) {
        Answer::Answered(text) => {
            stdout().write_all(&text)?;
            Ok(ExitCode::SUCCESS)
        }
        Answer::Refused(line) => {
            stderr().write_all(&line)?;
            Ok(ExitCode::from(1))
        }
        Answer::NoMemory => {
            eprintln!("no memory");
            Ok(ExitCode::from(4))
        }
    }
}
