//! The calls of `gregorio.h`. Each of its texts is a slice here, so that what the header asks of a caller is kept by the types: pointers and counts agree,
//! nothing that is written overlaps anything else, and nothing changes during a call. This is the only module with `unsafe`.

use crate::draw::{PictureOptions, ShownMessages};
use crate::job::{Format, Job, Warnings};
use std::collections::hash_map::RandomState;
use std::ffi::CStr;
use std::hash::{BuildHasher, Hasher};
use std::os::raw::c_char;

pub(crate) const WHOLE: u32 = 0;
pub(crate) const ERRORS: u32 = 1;
pub(crate) const FATAL: u32 = 2;
pub(crate) const REFUSED: u32 = 3;
pub(crate) const BROKEN: u32 = 4;
pub(crate) const NO_MEMORY: u32 = 5;
pub(crate) const RUNS: u32 = 6;
pub(crate) const SHORT: u32 = 7;
pub(crate) const NO_STATE: u32 = 8;
pub(crate) const OTHER_STATE: u32 = 9;

/// How many bytes the output and the messages have.
#[repr(C)]
#[derive(Default)]
pub(crate) struct Lengths {
    pub output: usize,
    pub messages: usize,
}

/// The numbers of bytes written, or required.
#[repr(C)]
#[derive(Default)]
pub(crate) struct Step {
    pub state: usize,
    pub output: usize,
    pub messages: usize,
}

/// A message as a record.
#[repr(C)]
#[derive(Clone, Copy, Default)]
pub(crate) struct Record {
    pub line: u64,
    pub column: u64,
    pub severity: u32,
    pub code: u32,
}

/// A node of a tree as a record.
#[repr(C)]
#[derive(Clone, Copy, Debug, Default, PartialEq, Eq)]
pub(crate) struct NodeRecord {
    pub begin: u32,
    pub end: u32,
    pub inner: u32,
    pub kind: u16,
    pub a: u16,
    pub b: u16,
    pub c: u16,
}

/// How a picture looks, and which messages stand in it.
#[repr(C)]
struct PictureRecord {
    version: u32,
    width: u32,
    messages: u32,
    reserved: u32,
}

/// The limits of a run, and a key.
#[repr(C)]
struct Options {
    header: u32,
    syllable: u32,
    input: u32,
    reserved: u32,
    key: [u64; 2],
}

extern "C" {
    static gregorio_version: c_char;

    fn gregorio_compile(
        score: *const u8,
        score_length: usize,
        format: u32,
        flags: u32,
        key: *const u64,
        key_length: usize,
        output: *mut u8,
        output_capacity: usize,
        messages: *mut u8,
        messages_capacity: usize,
        lengths: *mut Lengths,
    ) -> u32;

    fn gregorio_messages(
        score: *const u8,
        score_length: usize,
        flags: u32,
        key: *const u64,
        key_length: usize,
        messages: *mut Record,
        messages_capacity: usize,
        count: *mut usize,
    ) -> u32;

    fn gregorio_tree(
        score: *const u8,
        score_length: usize,
        key: *const u64,
        key_length: usize,
        nodes: *mut NodeRecord,
        nodes_capacity: usize,
        count: *mut usize,
    ) -> u32;

    fn gregorio_draw(
        score: *const u8,
        score_length: usize,
        options: *const PictureRecord,
        options_count: usize,
        key: *const u64,
        key_length: usize,
        picture: *mut u8,
        picture_capacity: usize,
        count: *mut usize,
    ) -> u32;

    fn gregorio_state_bound(options: *const Options, options_count: usize) -> usize;

    fn gregorio_begin(
        format: u32,
        flags: u32,
        options: *const Options,
        options_count: usize,
        state: *mut u8,
        state_capacity: usize,
        step: *mut Step,
    ) -> u32;

    fn gregorio_feed(
        format: u32,
        flags: u32,
        options: *const Options,
        options_count: usize,
        state: *mut u8,
        state_capacity: usize,
        state_length: usize,
        piece: *const u8,
        piece_length: usize,
        output: *mut u8,
        output_capacity: usize,
        messages: *mut u8,
        messages_capacity: usize,
        step: *mut Step,
    ) -> u32;

    fn gregorio_end(
        format: u32,
        flags: u32,
        options: *const Options,
        options_count: usize,
        state: *const u8,
        state_length: usize,
        output: *mut u8,
        output_capacity: usize,
        messages: *mut u8,
        messages_capacity: usize,
        lengths: *mut Lengths,
    ) -> u32;

    fn gregorio_broken(
        format: u32,
        flags: u32,
        options: *const Options,
        options_count: usize,
        state: *const u8,
        state_length: usize,
        output: *mut u8,
        output_capacity: usize,
        messages: *mut u8,
        messages_capacity: usize,
        lengths: *mut Lengths,
    ) -> u32;
}

/// A call that ends a run.
type End = unsafe extern "C" fn(
    format: u32,
    flags: u32,
    options: *const Options,
    options_count: usize,
    state: *const u8,
    state_length: usize,
    output: *mut u8,
    output_capacity: usize,
    messages: *mut u8,
    messages_capacity: usize,
    lengths: *mut Lengths,
) -> u32;

/// Returns a key for the table of the headers' names: two random words, so that nobody can choose names that are slow to read.
fn new_key() -> [u64; 2] {
    let random = RandomState::new();
    [0, 1].map(|number| {
        let mut hasher = random.build_hasher();
        hasher.write_u64(number);
        hasher.finish()
    })
}

fn number_of(format: Format) -> u32 {
    match format {
        Format::Canonical => 0,
        Format::Dump => 1,
    }
}

fn flags_of(warnings: Warnings) -> u32 {
    match warnings {
        Warnings::Untold => 0,
        Warnings::Told => 1,
    }
}

fn options_of(job: &Job) -> Options {
    Options {
        header: job.limits.header,
        syllable: job.limits.syllable,
        input: job.limits.input,
        reserved: 0,
        key: new_key(),
    }
}

fn picture_record_of(options: &PictureOptions) -> PictureRecord {
    PictureRecord {
        version: 1,
        // 0 stands for the usual width.
        width: options.width.map_or(0, |it| it.max(1)),
        messages: match options.messages {
            ShownMessages::None => 0,
            ShownMessages::Errors => 1,
            ShownMessages::All => 2,
        },
        reserved: 0,
    }
}

/// Returns the version of the library.
pub(crate) fn version() -> &'static CStr {
    // SAFETY: `gregorio_version` is a constant text that ends in a NUL.
    unsafe { CStr::from_ptr(std::ptr::addr_of!(gregorio_version)) }
}

/// Compiles `score` under the default limits into the buffers, and tells the lengths of both texts.
pub(crate) fn compile(job: &Job, score: &[u8], output: &mut [u8], messages: &mut [u8], lengths: &mut Lengths) -> u32 {
    let key = new_key();
    // SAFETY: each pointer is that of a slice whose length stands after it, or of a value that is borrowed for the call.
    unsafe {
        gregorio_compile(
            score.as_ptr(),
            score.len(),
            number_of(job.format),
            flags_of(job.warnings),
            key.as_ptr(),
            key.len(),
            output.as_mut_ptr(),
            output.len(),
            messages.as_mut_ptr(),
            messages.len(),
            lengths,
        )
    }
}

/// Reads `score` under the default limits, and puts its messages into `messages` and their number into `count`.
pub(crate) fn messages(warnings: Warnings, score: &[u8], messages: &mut [Record], count: &mut usize) -> u32 {
    let key = new_key();
    // SAFETY: as for `compile`. A `Record` is laid out as the header's `gregorio_message`, and holds any values.
    unsafe {
        gregorio_messages(
            score.as_ptr(),
            score.len(),
            flags_of(warnings),
            key.as_ptr(),
            key.len(),
            messages.as_mut_ptr(),
            messages.len(),
            count,
        )
    }
}

/// Reads `score` under the default limits, and puts the nodes of its tree into `nodes` and their number into `count`.
pub(crate) fn tree(score: &[u8], nodes: &mut [NodeRecord], count: &mut usize) -> u32 {
    let key = new_key();
    // SAFETY: as for `compile`. A `NodeRecord` is laid out as the header's `gregorio_node`, and holds any values.
    unsafe {
        gregorio_tree(
            score.as_ptr(),
            score.len(),
            key.as_ptr(),
            key.len(),
            nodes.as_mut_ptr(),
            nodes.len(),
            count,
        )
    }
}

/// Reads `score` under the default limits, and puts its picture into `picture`, if there is room for
/// it, and the number of its bytes into `count`.
pub(crate) fn draw(options: &PictureOptions, score: &[u8], picture: &mut [u8], count: &mut usize) -> u32 {
    let key = new_key();
    // SAFETY: as for `compile`. A `PictureRecord` is laid out as the header's
    // `gregorio_picture_options`.
    unsafe {
        gregorio_draw(
            score.as_ptr(),
            score.len(),
            &picture_record_of(options),
            1,
            key.as_ptr(),
            key.len(),
            picture.as_mut_ptr(),
            picture.len(),
            count,
        )
    }
}

/// Returns how many bytes a state of this job has at most, or 0 where a limit is out of range.
pub(crate) fn state_bound(job: &Job) -> usize {
    // SAFETY: the pointer is that of a value that is borrowed for the call.
    unsafe { gregorio_state_bound(&options_of(job), 1) }
}

/// Begins a run, and writes its state.
pub(crate) fn begin(job: &Job, state: &mut [u8], step: &mut Step) -> u32 {
    // SAFETY: as for `compile`.
    unsafe {
        gregorio_begin(
            number_of(job.format),
            flags_of(job.warnings),
            &options_of(job),
            1,
            state.as_mut_ptr(),
            state.len(),
            step,
        )
    }
}

/// Feeds `piece` to the run whose state is the first `state_length` bytes of `state`, which there are.
pub(crate) fn feed(
    job: &Job,
    state: &mut [u8],
    state_length: usize,
    piece: &[u8],
    output: &mut [u8],
    messages: &mut [u8],
    step: &mut Step,
) -> u32 {
    let state_length = state_length.min(state.len());
    // SAFETY: as for `compile`; and the state is within its buffer.
    unsafe {
        gregorio_feed(
            number_of(job.format),
            flags_of(job.warnings),
            &options_of(job),
            1,
            state.as_mut_ptr(),
            state.len(),
            state_length,
            piece.as_ptr(),
            piece.len(),
            output.as_mut_ptr(),
            output.len(),
            messages.as_mut_ptr(),
            messages.len(),
            step,
        )
    }
}

/// Ends the run with this state: at the end of its input, or where the source `is_broken`.
pub(crate) fn end(job: &Job, is_broken: bool, state: &[u8], output: &mut [u8], messages: &mut [u8], lengths: &mut Lengths) -> u32 {
    let end: End = if is_broken { gregorio_broken } else { gregorio_end };
    // SAFETY: as for `compile`.
    unsafe {
        end(
            number_of(job.format),
            flags_of(job.warnings),
            &options_of(job),
            1,
            state.as_ptr(),
            state.len(),
            output.as_mut_ptr(),
            output.len(),
            messages.as_mut_ptr(),
            messages.len(),
            lengths,
        )
    }
}
