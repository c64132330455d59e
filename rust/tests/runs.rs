//! Tries runs: what is refused, long answers, what is over, threads.

use gregorio_chant::{compile, messages, version, Code, Error, Format, Job, Limits, Run, Status, Warnings};
use std::io;
use std::thread;

const SCORE: &[u8] = b"name: a;\n%%\n(c4) Ky(f)ri<i>(gh";

fn begun() -> Run {
    let mut run = Run::new(Job::default()).unwrap();
    run.feed(SCORE).unwrap();
    run
}

#[test]
fn versions_are_equal() {
    assert_eq!(version(), env!("CARGO_PKG_VERSION"));
}

#[test]
fn messages_are_taken_in_turn() {
    let found = messages("%%\n(c4) Ky(g5)ri(g5)", Warnings::Untold).unwrap();
    let wanted: Vec<Code> = vec!["E1".parse().unwrap(); 2];
    assert_eq!(found.iter().map(|it| it.code).collect::<Vec<_>>(), wanted);
    assert_eq!((&found).into_iter().count(), 2);
    assert_eq!(found.into_iter().map(|it| it.code).collect::<Vec<_>>(), wanted);
}

#[test]
fn errors_become_those_of_ends() {
    let error = io::Error::from(Run::restore(Job::default(), b"none").unwrap_err());
    assert_eq!(error.kind(), io::ErrorKind::InvalidData);
    assert_eq!(error.to_string(), Error::NoState.to_string());
}

#[test]
fn a_state_is_restored() {
    let run = begun();
    let restored = Run::restore(Job::default(), run.state()).unwrap();
    assert_eq!(restored.state(), run.state());
    assert_eq!(restored.end(), run.end());
    assert_eq!(restored.broken(), run.broken());
    assert_eq!(restored.job(), &Job::default());
}

#[test]
fn other_bytes_are_refused() {
    let state = begun().state().to_vec();
    let longer = [state.as_slice(), b"\0"].concat();
    for bytes in [&[], b"GSAV".as_slice(), &state[..state.len() - 1], &longer, &[0; 100_000]] {
        assert_eq!(Run::restore(Job::default(), bytes).unwrap_err(), Error::NoState);
    }
    let dump = Job {
        format: Format::Dump,
        ..Job::default()
    };
    let untold = Job {
        warnings: Warnings::Untold,
        ..Job::default()
    };
    for other in [dump, untold] {
        assert_eq!(Run::restore(other, &state).unwrap_err(), Error::OtherState);
    }
}

#[test]
fn a_state_of_larger_limits_is_another() {
    let mut run = Run::new(Job::default()).unwrap();
    run.feed(&b"name: a;\n".repeat(100)).unwrap();
    let least = Limits {
        header: 64,
        syllable: 64,
        ..Limits::default()
    };
    let small = Job {
        limits: least,
        ..Job::default()
    };
    assert!(run.state().len() > 500, "longer than a state under the least limits");
    assert_eq!(Run::restore(small, run.state()).unwrap_err(), Error::OtherState);
}

#[test]
fn limits_out_of_range_are_refused() {
    for limits in [
        Limits {
            header: 63,
            ..Limits::default()
        },
        Limits {
            syllable: 16_777_217,
            ..Limits::default()
        },
        Limits {
            input: 0,
            ..Limits::default()
        },
    ] {
        let job = Job { limits, ..Job::default() };
        assert_eq!(Run::new(job).unwrap_err(), Error::Limits);
        assert_eq!(compile("%%", &job).unwrap_err(), Error::Limits);
    }
}

#[test]
fn a_fatal_fault_ends_a_run() {
    let mut run = begun();
    assert_eq!(run.feed(b"\xff").unwrap().status, Some(Status::Fatal));
    assert_eq!(run.feed(b"a"), Err(Error::Over));
    assert_eq!(run.end(), Err(Error::Over));
    assert_eq!(run.broken(), Err(Error::Over));
    assert_eq!(run.state(), b"");
}

#[test]
fn an_end_leaves_the_run_as_it_is() {
    let mut run = begun();
    let end = run.end().unwrap();
    assert_eq!(run.end().unwrap(), end);
    assert_eq!(run.broken().unwrap().status, Some(Status::Broken));
    assert_eq!(run.feed(b")").unwrap().status, None);
}

#[test]
fn long_answers() {
    let score = ["%%\n(c4", &"?".repeat(10_000), ") a(", &"f".repeat(10_000), ") b(f)"].concat();
    let job = Job {
        format: Format::Dump,
        ..Job::default()
    };
    let whole = compile(&score, &job).unwrap();
    assert_eq!(messages(&score, Warnings::Told).unwrap().list.len(), whole.messages.lines().count());
    let mut run = Run::new(job).unwrap();
    let first = run.feed(score.as_bytes()).unwrap();
    let last = run.end().unwrap();
    assert_eq!(first.output + &last.output, whole.output);
    assert_eq!(first.messages + &last.messages, whole.messages);
}

#[test]
fn errors_say_what_is_wrong() {
    let shown = [
        Error::NoMemory,
        Error::Limits,
        Error::NoState,
        Error::OtherState,
        Error::Over,
        Error::Library(77),
    ]
    .map(|it| it.to_string());
    assert!(shown.iter().all(|it| !it.is_empty() && !it.ends_with('.')));
    assert!(shown[5].contains("77"));
}

#[test]
fn runs_go_on_in_other_threads() {
    let run = begun();
    let wanted = run.end();
    thread::scope(|scope| {
        for _ in 0..4 {
            scope.spawn(|| assert_eq!(run.clone().end(), wanted));
        }
    });
}
