//! Runs: scores in pieces.

use crate::error::{status_of, Error, Status};
use crate::job::Job;
use crate::library::{self, Lengths};
use crate::texts::{filled, Texts};

/// The result of a step of a run.
#[derive(Clone, Debug, PartialEq, Eq)]
pub struct Step {
    /// Whole syllables of the output.
    pub output: String,
    /// Whole lines of messages. They call the score `<stdin>`.
    pub messages: String,
    /// How the score was read, once the run is over.
    pub status: Option<Status>,
}

/// A run over a score in pieces.
///
/// The outputs of all steps joined, and their messages joined, are those of one [`compile`](crate::compile) over the whole score, and so is the last
/// status. Between two pieces the state of a run is bytes: you can keep them in a file, and go on from them in another process, with the same job.
///
/// # Examples
///
/// ```
/// use gregorio_chant::{Job, Run, Status};
///
/// let mut run = Run::new(Job::default())?;
/// let mut output = run.feed(b"name: Kyrie;\n%%\n(c4) Ky(f)r")?.output;
/// let saved = run.state().to_vec();
///
/// let mut later = Run::restore(Job::default(), &saved)?;
/// output += &later.feed(b"i(gfg)")?.output;
/// let last = later.end()?;
/// output += &last.output;
/// assert_eq!(output, "name: Kyrie;\n%%\n(c4)\nKy(f)ri(gfg)\n");
/// assert_eq!(last.status, Some(Status::Whole));
/// # Ok::<(), gregorio_chant::Error>(())
/// ```
#[derive(Clone, Debug)]
pub struct Run {
    job: Job,
    /// As many bytes as a state of this job may have. No more of them than were written take memory, where the system gives them so.
    state: Vec<u8>,
    /// How many of them are the state.
    length: usize,
    is_over: bool,
}

impl Run {
    /// Begins a run.
    ///
    /// # Errors
    ///
    /// [`Error::Limits`] if a limit is out of range, and [`Error::NoMemory`].
    pub fn new(job: Job) -> Result<Run, Error> {
        let mut run = Run {
            job,
            state: filled(library::state_bound(&job))?,
            length: 0,
            is_over: false,
        };
        let mut step = library::Step::default();
        match library::begin(&job, &mut run.state, &mut step) {
            library::RUNS => run.length = step.state,
            other => return Err(error_of(other)),
        }
        Ok(run)
    }

    /// Returns a run of this job that goes on from `state`.
    ///
    /// # Errors
    ///
    /// [`Error::NoState`] if the bytes are no state, whoever wrote them; [`Error::OtherState`] if they are the state of another job;
    /// [`Error::Limits`] and [`Error::NoMemory`].
    pub fn restore(job: Job, state: &[u8]) -> Result<Run, Error> {
        let mut run = Run::new(job)?;
        // A state of larger limits may be longer than one of this job: the library says whose it is.
        if run.state.len() < state.len() {
            run.state = filled(state.len())?;
        }
        run.state[..state.len()].copy_from_slice(state);
        run.length = state.len();
        run.feed(b"")?;
        Ok(run)
    }

    /// Returns the job.
    #[must_use]
    pub fn job(&self) -> &Job {
        &self.job
    }

    /// Returns the state. With it and the job another process can go on. It is empty after a fatal fault.
    #[must_use]
    pub fn state(&self) -> &[u8] {
        &self.state[..self.length]
    }

    /// Reads `piece`, of any length, and returns the new output and messages. The status is `None`, or [`Status::Fatal`] if a fatal fault ended the run.
    ///
    /// # Errors
    ///
    /// [`Error::Over`] after a fatal fault, and [`Error::NoMemory`]; then the run is as it was, and can be fed again.
    pub fn feed(&mut self, piece: &[u8]) -> Result<Step, Error> {
        if self.is_over {
            return Err(Error::Over);
        }
        let mut texts = Texts::for_input(piece.len())?;
        loop {
            let mut step = library::Step::default();
            let answer = library::feed(
                &self.job,
                &mut self.state,
                self.length,
                piece,
                &mut texts.output,
                &mut texts.messages,
                &mut step,
            );
            let status = match answer {
                library::SHORT if !texts.fit(step.output, step.messages)? => continue,
                library::RUNS => None,
                library::FATAL => Some(Status::Fatal),
                other => return Err(error_of(other)),
            };
            self.length = step.state;
            self.is_over = status.is_some();
            let (output, messages) = texts.take(step.output, step.messages)?;
            return Ok(Step { output, messages, status });
        }
    }

    /// Returns the result of an end of the input here: the last output and messages, and the status of the whole score. The run stays as it is, and may
    /// be fed further.
    ///
    /// # Errors
    ///
    /// [`Error::Over`] after a fatal fault, and [`Error::NoMemory`].
    pub fn end(&self) -> Result<Step, Error> {
        self.finish(false)
    }

    /// Returns the result of a failure of the source here. It is that of [`Run::end`] without an unfinished part, and the status is [`Status::Broken`]
    /// unless there was a fatal fault.
    ///
    /// # Errors
    ///
    /// [`Error::Over`] after a fatal fault, and [`Error::NoMemory`].
    pub fn broken(&self) -> Result<Step, Error> {
        self.finish(true)
    }

    fn finish(&self, is_broken: bool) -> Result<Step, Error> {
        if self.is_over {
            return Err(Error::Over);
        }
        let mut texts = Texts::for_input(0)?;
        loop {
            let mut lengths = Lengths::default();
            let answer = library::end(
                &self.job,
                is_broken,
                self.state(),
                &mut texts.output,
                &mut texts.messages,
                &mut lengths,
            );
            if answer == library::SHORT && !texts.fit(lengths.output, lengths.messages)? {
                continue;
            }
            let status = Some(status_of(answer)?);
            let (output, messages) = texts.take(lengths.output, lengths.messages)?;
            return Ok(Step { output, messages, status });
        }
    }
}

/// Returns the error that the answer of a step stands for, which made no step.
fn error_of(answer: u32) -> Error {
    status_of(answer).err().unwrap_or(Error::Library(answer))
}
