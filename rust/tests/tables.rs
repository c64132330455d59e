//! Compares what the crate answers with tables of cases, whole and in pieces.

use gregorio_chant::{compile, messages, Compiled, Error, Format, Job, Limits, Run, Status, Step, Warnings};
use std::fs;
use std::path::Path;

/// A case of a table.
struct Case {
    job: Job,
    is_broken: bool,
    input: Vec<u8>,
    wanted: Compiled,
}

/// Returns the bytes of a column, in which a backslash begins `\n`, `\t`, `\r`, `\\` or `\xNN`.
fn unescaped(column: &str) -> Vec<u8> {
    let mut made = Vec::new();
    let mut rest = column.bytes();
    while let Some(byte) = rest.next() {
        made.push(if byte == b'\\' { escaped(&mut rest) } else { byte });
    }
    made
}

/// Returns the byte for which the escape stands whose backslash was just read.
fn escaped(rest: &mut impl Iterator<Item = u8>) -> u8 {
    match rest.next().unwrap() {
        b'n' => b'\n',
        b't' => b'\t',
        b'r' => b'\r',
        b'x' => {
            let digits: Vec<u8> = rest.take(2).collect();
            u8::from_str_radix(std::str::from_utf8(&digits).unwrap(), 16).unwrap()
        }
        other => other,
    }
}

fn text(column: &str) -> String {
    String::from_utf8(unescaped(column)).unwrap()
}

fn case_of(line: &str) -> Option<Case> {
    let columns: Vec<&str> = line.split('\t').collect();
    let [words, limits, ending, input, output, messages, status] = columns[..] else {
        return None;
    };
    let numbers: Vec<u32> = limits.split(',').map_while(|it| it.parse().ok()).collect();
    let [header, syllable, input_limit] = numbers[..] else {
        return None;
    };
    Some(Case {
        job: Job {
            format: if words.contains("dump") { Format::Dump } else { Format::Canonical },
            warnings: if words.contains("-W") { Warnings::Told } else { Warnings::Untold },
            limits: Limits {
                header,
                syllable,
                input: input_limit,
            },
        },
        is_broken: ending == "broken",
        input: unescaped(input),
        wanted: Compiled {
            output: text(output),
            messages: text(messages),
            status: match status {
                "0" => Status::Whole,
                "1" => Status::Errors,
                "2" => Status::Fatal,
                _ => Status::Broken,
            },
        },
    })
}

/// Returns the cases of all tables of runs.
fn cases() -> Vec<Case> {
    let folder = Path::new(env!("CARGO_MANIFEST_DIR")).join("../crates/vectors/data");
    let names = ["rows", "canonical", "canonical_w12", "nabc_lines", "dump", "dump2", "sources"];
    let tables = names.map(|name| fs::read_to_string(folder.join(name).with_extension("tsv")).unwrap());
    let found: Vec<Case> = tables.iter().flat_map(|table| table.lines()).filter_map(case_of).collect();
    assert!(found.len() > 500);
    found
}

/// Returns what a run in pieces of `size` bytes gives. It is restored from its state after each.
fn compile_in_pieces(case: &Case, size: usize) -> Result<Compiled, Error> {
    let mut run = Run::new(case.job)?;
    let mut all = Compiled {
        output: String::new(),
        messages: String::new(),
        status: Status::Broken,
    };
    let mut add = |step: Step| {
        all.output += &step.output;
        all.messages += &step.messages;
        step.status
    };
    for piece in case.input.chunks(size) {
        if let Some(status) = add(run.feed(piece)?) {
            all.status = status;
            return Ok(all);
        }
        run = Run::restore(case.job, run.state())?;
    }
    let status = add(if case.is_broken { run.broken()? } else { run.end()? });
    all.status = status.unwrap();
    Ok(all)
}

#[test]
fn whole_scores() {
    for case in cases().iter().filter(|case| !case.is_broken) {
        assert_eq!(
            compile(&case.input, &case.job).as_ref(),
            Ok(&case.wanted),
            "{}",
            case.input.escape_ascii()
        );
        if case.job.limits == Limits::default() {
            let found = messages(&case.input, case.job.warnings).unwrap();
            assert_eq!(found.status, case.wanted.status);
            let lines: Vec<String> = found.list.iter().map(|message| format!("<stdin>:{message}: ")).collect();
            assert_eq!(lines.len(), case.wanted.messages.lines().count());
            assert!(lines
                .iter()
                .zip(case.wanted.messages.lines())
                .all(|(mine, line)| line.starts_with(mine.as_str())));
        }
    }
}

#[test]
fn scores_in_pieces() {
    for case in cases() {
        for size in [7, 4096] {
            assert_eq!(
                compile_in_pieces(&case, size).as_ref(),
                Ok(&case.wanted),
                "{}",
                case.input.escape_ascii()
            );
        }
    }
}
