//! Whole scores.

use crate::error::{status_of, Error, Status};
use crate::job::{Job, Limits};
use crate::library::{self, Lengths};
use crate::run::Run;
use crate::texts::Texts;

/// The result of [`compile`].
#[derive(Clone, Debug, PartialEq, Eq)]
pub struct Compiled {
    /// The output.
    pub output: String,
    /// The lines of the messages, in the order of their places. They call the score `<stdin>`.
    pub messages: String,
    /// How the score was read.
    pub status: Status,
}

/// Compiles `score`.
///
/// # Errors
///
/// [`Error::NoMemory`], and [`Error::Limits`] if a limit of the job is out of range.
pub fn compile(score: impl AsRef<[u8]>, job: &Job) -> Result<Compiled, Error> {
    let score = score.as_ref();
    if job.limits != Limits::default() {
        return compile_by_a_run(score, job);
    }
    let mut texts = Texts::for_input(score.len())?;
    loop {
        let mut lengths = Lengths::default();
        let answer = library::compile(job, score, &mut texts.output, &mut texts.messages, &mut lengths);
        let status = status_of(answer)?;
        if texts.fit(lengths.output, lengths.messages)? {
            let (output, messages) = texts.take(lengths.output, lengths.messages)?;
            return Ok(Compiled { output, messages, status });
        }
    }
}

/// Compiles `score` by a run, which takes any limits.
fn compile_by_a_run(score: &[u8], job: &Job) -> Result<Compiled, Error> {
    let mut run = Run::new(*job)?;
    let first = run.feed(score)?;
    let (mut output, mut messages) = (first.output, first.messages);
    if let Some(status) = first.status {
        return Ok(Compiled { output, messages, status });
    }
    let last = run.end()?;
    output += &last.output;
    messages += &last.messages;
    let status = last.status.ok_or(Error::Library(library::RUNS))?;
    Ok(Compiled { output, messages, status })
}
