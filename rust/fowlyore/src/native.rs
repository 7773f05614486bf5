//! The C functions of `include/reqs.h`: texts are passed as slices, and a text or a refusal is returned.

use crate::{Bounds, Refused};
use std::alloc::{handle_alloc_error, Layout};

/// How a call ended: `reqs_reply` of `reqs.h`.
#[repr(C)]
pub(crate) struct Reply {
    status: u32,
    input: u32,
    length: usize,
    line: usize,
    start: usize,
    len: usize,
}

const ABI: u32 = 4;
const DIFFERENT: u32 = 1;
const REFUSED: u32 = 2;
const MEMORY: u32 = 3;
const KEY_REFUSED: i64 = -2;
/// The size of a buffer that fits nearly every answer about one short text.
const ROOM: usize = 256;
/// The greatest size of a buffer for an answer about lists before its length is known.
const MOST_ROOM: usize = 16 << 20;
/// The number of bytes by which the JSON of a row or a conflict exceeds its text, if it has few extras.
const ROOM_FOR_KEYS: usize = 64;
/// The number of the text with the extras.
const EXTRAS_OF_LISTS: u32 = 4;
const EXTRAS_OF_MARKERS: u32 = 3;
const EXTRAS_TO_SIMPLIFY: u32 = 2;
/// The library's message for a marker that never holds and so has no normal text.
const NEVER_HOLDS: &str = "no normal text: never holds";

/// Declares the library's functions. Where the crate is built without the library (`build.rs`), each stands
/// for what can't be linked.
macro_rules! declared {
    (extern "C" { $(fn $name:ident($($word:ident: $kind:ty),* $(,)?) -> $reply:ty;)* }) => {
        #[cfg(not(reqs_absent))]
        extern "C" { $(fn $name($($word: $kind),*) -> $reply;)* }
        $(#[cfg(reqs_absent)]
        #[allow(clippy::too_many_arguments)]
        unsafe fn $name($(_: $kind),*) -> $reply { crate::absent::library() })*
    };
}

// `tests/rust.sh` compares these with `include/reqs.h`.
#[rustfmt::skip]
declared! {
extern "C" {
    fn reqs_abi() -> u32;
    fn reqs_check(
        requirements: *const u8, requirements_len: usize, environment: *const u8, environment_len: usize,
        candidates: *const u8, candidates_len: usize, extras: *const u8, extras_len: usize,
        out: *mut u8, out_len: usize,
    ) -> Reply;
    fn reqs_matrix(
        requirements: *const u8, requirements_len: usize, environments: *const u8, environments_len: usize,
        candidates: *const u8, candidates_len: usize, extras: *const u8, extras_len: usize,
        limit: u64, nodes: usize, cases: u64, out: *mut u8, out_len: usize,
    ) -> Reply;
    fn reqs_same(
        left: *const u8, left_len: usize, right: *const u8, right_len: usize,
        limit: u64, nodes: usize, clauses: usize, cases: u64, out: *mut u8, out_len: usize,
    ) -> Reply;
    fn reqs_covers(
        lock: *const u8, lock_len: usize, requirements: *const u8, requirements_len: usize,
        limit: u64, nodes: usize, clauses: usize, cases: u64, out: *mut u8, out_len: usize,
    ) -> Reply;
    fn reqs_conflicts(
        requirements: *const u8, requirements_len: usize, limit: u64, nodes: usize, cases: u64,
        out: *mut u8, out_len: usize,
    ) -> Reply;
    fn reqs_normal(
        requirements: *const u8, requirements_len: usize, nodes: usize, clauses: usize,
        out: *mut u8, out_len: usize,
    ) -> Reply;
    fn reqs_check_json(
        requirements: *const u8, requirements_len: usize, environment: *const u8, environment_len: usize,
        candidates: *const u8, candidates_len: usize, extras: *const u8, extras_len: usize,
        out: *mut u8, out_len: usize,
    ) -> Reply;
    fn reqs_matrix_json(
        requirements: *const u8, requirements_len: usize, environments: *const u8, environments_len: usize,
        candidates: *const u8, candidates_len: usize, extras: *const u8, extras_len: usize,
        limit: u64, nodes: usize, cases: u64, out: *mut u8, out_len: usize,
    ) -> Reply;
    fn reqs_same_json(
        left: *const u8, left_len: usize, right: *const u8, right_len: usize,
        limit: u64, nodes: usize, clauses: usize, cases: u64, out: *mut u8, out_len: usize,
    ) -> Reply;
    fn reqs_covers_json(
        lock: *const u8, lock_len: usize, requirements: *const u8, requirements_len: usize,
        limit: u64, nodes: usize, clauses: usize, cases: u64, out: *mut u8, out_len: usize,
    ) -> Reply;
    fn reqs_conflicts_json(
        requirements: *const u8, requirements_len: usize, limit: u64, nodes: usize, cases: u64,
        out: *mut u8, out_len: usize,
    ) -> Reply;
    fn reqs_normal_json(
        requirements: *const u8, requirements_len: usize, nodes: usize, clauses: usize,
        out: *mut u8, out_len: usize,
    ) -> Reply;
    fn reqs_assumption(
        marker: *const u8, marker_len: usize, python: *const u8, python_len: usize,
        real: u64, out: *mut u8, out_len: usize,
    ) -> Reply;
    fn reqs_same_where(
        left: *const u8, left_len: usize, right: *const u8, right_len: usize,
        assumption: *const u8, assumption_len: usize,
        limit: u64, nodes: usize, clauses: usize, cases: u64, out: *mut u8, out_len: usize,
    ) -> Reply;
    fn reqs_covers_where(
        lock: *const u8, lock_len: usize, requirements: *const u8, requirements_len: usize,
        assumption: *const u8, assumption_len: usize,
        limit: u64, nodes: usize, clauses: usize, cases: u64, out: *mut u8, out_len: usize,
    ) -> Reply;
    fn reqs_conflicts_where(
        requirements: *const u8, requirements_len: usize,
        assumption: *const u8, assumption_len: usize,
        limit: u64, nodes: usize, cases: u64, out: *mut u8, out_len: usize,
    ) -> Reply;
    fn reqs_same_where_json(
        left: *const u8, left_len: usize, right: *const u8, right_len: usize,
        assumption: *const u8, assumption_len: usize,
        limit: u64, nodes: usize, clauses: usize, cases: u64, out: *mut u8, out_len: usize,
    ) -> Reply;
    fn reqs_covers_where_json(
        lock: *const u8, lock_len: usize, requirements: *const u8, requirements_len: usize,
        assumption: *const u8, assumption_len: usize,
        limit: u64, nodes: usize, clauses: usize, cases: u64, out: *mut u8, out_len: usize,
    ) -> Reply;
    fn reqs_conflicts_where_json(
        requirements: *const u8, requirements_len: usize,
        assumption: *const u8, assumption_len: usize,
        limit: u64, nodes: usize, cases: u64, out: *mut u8, out_len: usize,
    ) -> Reply;
    fn reqs_version(text: *const u8, text_len: usize, out: *mut u8, out_len: usize) -> Reply;
    fn reqs_version_key(text: *const u8, text_len: usize, out: *mut u8, out_len: usize) -> i64;
    fn reqs_specifiers(text: *const u8, text_len: usize, out: *mut u8, out_len: usize) -> Reply;
    fn reqs_specifiers_take(
        list: *const u8, list_len: usize, versions: *const u8, versions_len: usize,
        out: *mut u8, out_len: usize,
    ) -> Reply;
    fn reqs_requirement(text: *const u8, text_len: usize, out: *mut u8, out_len: usize) -> Reply;
    fn reqs_marker_check(text: *const u8, text_len: usize, out: *mut u8, out_len: usize) -> Reply;
    fn reqs_marker(
        text: *const u8, text_len: usize, nodes: usize, clauses: usize, out: *mut u8, out_len: usize,
    ) -> Reply;
    fn reqs_markers_hold(
        markers: *const u8, markers_len: usize, environment: *const u8, environment_len: usize,
        extras: *const u8, extras_len: usize, out: *mut u8, out_len: usize,
    ) -> Reply;
    fn reqs_marker_key(
        text: *const u8, text_len: usize, nodes: usize, out: *mut u8, out_len: usize,
    ) -> Reply;
    fn reqs_marker_truth(
        text: *const u8, text_len: usize, nodes: usize, out: *mut u8, out_len: usize,
    ) -> Reply;
    fn reqs_markers_disjoint(
        left: *const u8, left_len: usize, right: *const u8, right_len: usize,
        nodes: usize, out: *mut u8, out_len: usize,
    ) -> Reply;
    fn reqs_marker_implies(
        left: *const u8, left_len: usize, right: *const u8, right_len: usize,
        nodes: usize, out: *mut u8, out_len: usize,
    ) -> Reply;
    fn reqs_marker_negated(
        text: *const u8, text_len: usize, nodes: usize, clauses: usize, out: *mut u8, out_len: usize,
    ) -> Reply;
    fn reqs_marker_simplify_python(
        text: *const u8, text_len: usize, lower: *const u8, lower_len: usize,
        upper: *const u8, upper_len: usize, nodes: usize, clauses: usize, out: *mut u8, out_len: usize,
    ) -> Reply;
    fn reqs_marker_simplify_extras(
        text: *const u8, text_len: usize, extras: *const u8, extras_len: usize,
        nodes: usize, clauses: usize, out: *mut u8, out_len: usize,
    ) -> Reply;
    fn reqs_specifiers_disjoint(
        left: *const u8, left_len: usize, right: *const u8, right_len: usize, out: *mut u8, out_len: usize,
    ) -> Reply;
    fn reqs_specifiers_subset(
        left: *const u8, left_len: usize, right: *const u8, right_len: usize, out: *mut u8, out_len: usize,
    ) -> Reply;
    fn reqs_specifiers_empty(text: *const u8, text_len: usize, out: *mut u8, out_len: usize) -> Reply;
}
}

/// The format of an answer about lists.
#[derive(Clone, Copy)]
pub(crate) enum Format {
    /// Lines of text.
    Text,
    /// One JSON object, on one line.
    Json,
}

impl Format {
    /// The buffer size for rows about `environments` environments: the text of a row is seldom longer than
    /// the line that requires it.
    fn room_for_rows(self, requirements: &[u8], environments: usize) -> usize {
        let keys = match self {
            Format::Text => 0,
            Format::Json => ROOM_FOR_KEYS * requirements.iter().filter(|it| **it == b'\n').count(),
        };
        let each = ROOM + requirements.len() + keys;
        each.saturating_mul(environments).clamp(ROOM, MOST_ROOM)
    }
}

/// The answer of a call, and whether it is that two lists differ.
pub(crate) struct Answer {
    bytes: Vec<u8>,
    pub is_different: bool,
}

impl Answer {
    /// The text that the library wrote.
    pub fn text(self) -> String {
        written(self.bytes)
    }

    /// Whether the library wrote `1`, which means yes.
    fn is_yes(&self) -> bool {
        self.bytes == b"1"
    }
}

fn written(bytes: Vec<u8>) -> String {
    String::from_utf8(bytes).expect("the library writes UTF-8")
}

/// Ends the process, as Rust's own collections do when memory runs out.
fn out_of_memory() -> ! {
    handle_alloc_error(Layout::new::<u8>())
}

/// The answer of a call that writes into a buffer. The call is repeated if the buffer was too short.
fn answered(room: usize, call: impl Fn(*mut u8, usize) -> Reply) -> Result<Answer, Refused> {
    let mut out = vec![0; room];
    let mut reply = call(out.as_mut_ptr(), out.len());
    if reply.length > out.len() {
        #[cfg(test)]
        tests::ASKED_AGAIN.with(|it| it.set(it.get() + 1));
        out.resize(reply.length, 0);
        reply = call(out.as_mut_ptr(), out.len());
    }
    if reply.status == MEMORY {
        out_of_memory();
    }
    out.truncate(reply.length);
    // (so that a kept answer doesn't keep the rest of the buffer)
    out.shrink_to_fit();
    if reply.status == REFUSED {
        return Err(Refused {
            message: written(out),
            input: reply.input,
            line: reply.line,
            start: reply.start,
            len: reply.len,
        });
    }
    Ok(Answer {
        bytes: out,
        is_different: reply.status == DIFFERENT,
    })
}

/// The version number of the linked library's interface.
pub(crate) fn abi() -> u32 {
    // SAFETY: it takes no argument, and touches no memory.
    unsafe { reqs_abi() }
}

/// Whether the linked library has the interface that is declared above.
pub(crate) fn is_known() -> bool {
    abi() == ABI
}

/// Extras one per line, as the library reads them. It would read one with a line feed as several, and skip an
/// empty one: these are refused here, as it refuses others that are not names.
fn extra_lines(extras: &[&str], input: u32) -> Result<String, Refused> {
    match extras.iter().find(|it| it.is_empty() || it.contains('\n')) {
        None => Ok(extras.join("\n")),
        Some(extra) => Err(Refused {
            message: format!("extra {extra} is no name"),
            input,
            line: 0,
            start: 0,
            len: 0,
        }),
    }
}

/// The answer of a function about texts, each of which is passed as a pointer and a length, and perhaps with
/// numbers.
macro_rules! asked {
    ($call:ident, $room:expr, $($text:ident),+ $(; $($number:expr),+)?) => {
        // SAFETY: the pointers and lengths are those of slices that live until the call is over, and `out` is
        // a buffer of its own.
        answered($room, |out, len| unsafe {
            $call($($text.as_ptr(), $text.len(),)+ $($($number,)+)? out, len)
        })
    };
}

pub(crate) fn version(text: &str) -> Result<String, Refused> {
    asked!(reqs_version, ROOM, text).map(Answer::text)
}

/// The key of a text's version, or `None` if it is invalid.
pub(crate) fn version_key(text: &str) -> Option<Vec<u8>> {
    let mut out = vec![0; ROOM];
    loop {
        // SAFETY: as in `asked`.
        let length =
            unsafe { reqs_version_key(text.as_ptr(), text.len(), out.as_mut_ptr(), out.len()) };
        match usize::try_from(length) {
            Ok(length) if length <= out.len() => {
                out.truncate(length);
                return Some(out);
            }
            Ok(length) => out.resize(length, 0),
            Err(_) if length == KEY_REFUSED => return None,
            Err(_) => out_of_memory(),
        }
    }
}

pub(crate) fn specifiers(text: &str) -> Result<String, Refused> {
    asked!(reqs_specifiers, ROOM + text.len(), text).map(Answer::text)
}

/// A byte for each line: `1` if the list accepts the version, `0` if it doesn't, `?` if the line is not a
/// version.
pub(crate) fn specifiers_take(list: &str, versions: &str) -> Result<String, Refused> {
    let room = ROOM.max(versions.matches('\n').count());
    asked!(reqs_specifiers_take, room, list, versions).map(Answer::text)
}

pub(crate) fn specifiers_disjoint(left: &str, right: &str) -> Result<bool, Refused> {
    asked!(reqs_specifiers_disjoint, ROOM, left, right).map(|it| it.is_yes())
}

pub(crate) fn specifiers_subset(left: &str, right: &str) -> Result<bool, Refused> {
    asked!(reqs_specifiers_subset, ROOM, left, right).map(|it| it.is_yes())
}

pub(crate) fn specifiers_empty(text: &str) -> Result<bool, Refused> {
    asked!(reqs_specifiers_empty, ROOM, text).map(|it| it.is_yes())
}

pub(crate) fn requirement(text: &str) -> Result<String, Refused> {
    asked!(reqs_requirement, ROOM + text.len(), text).map(Answer::text)
}

/// Whether a text is a marker: the refusal of one that is not.
pub(crate) fn marker_check(text: &str) -> Result<(), Refused> {
    asked!(reqs_marker_check, ROOM, text).map(|_| ())
}

/// The normal text of a marker.
pub(crate) fn marker(text: &str, bounds: Bounds) -> Result<String, Refused> {
    let Bounds { nodes, clauses, .. } = bounds;
    asked!(reqs_marker, ROOM + text.len(), text; nodes, clauses).map(Answer::text)
}

/// The key of a marker, in which a comparison is seldom longer than eight times its text.
pub(crate) fn marker_key(text: &str, nodes: usize) -> Result<Vec<u8>, Refused> {
    asked!(reqs_marker_key, ROOM + 8 * text.len(), text; nodes).map(|it| it.bytes)
}

/// When a marker holds, as the library writes it: `1` always, `0` never, `-` sometimes.
pub(crate) fn marker_truth(text: &str, nodes: usize) -> Result<u8, Refused> {
    asked!(reqs_marker_truth, ROOM, text; nodes).map(|it| it.bytes[0])
}

pub(crate) fn markers_disjoint(left: &str, right: &str, nodes: usize) -> Result<bool, Refused> {
    asked!(reqs_markers_disjoint, ROOM, left, right; nodes).map(|it| it.is_yes())
}

pub(crate) fn marker_implies(left: &str, right: &str, nodes: usize) -> Result<bool, Refused> {
    asked!(reqs_marker_implies, ROOM, left, right; nodes).map(|it| it.is_yes())
}

pub(crate) fn marker_negated(text: &str, bounds: Bounds) -> Result<String, Refused> {
    let Bounds { nodes, clauses, .. } = bounds;
    asked!(reqs_marker_negated, ROOM + text.len(), text; nodes, clauses).map(Answer::text)
}

/// The normal text of a marker, simplified to versions of Python between the bounds; an empty text is no
/// bound.
pub(crate) fn marker_simplify_python(
    text: &str,
    lower: &str,
    upper: &str,
    bounds: Bounds,
) -> Result<String, Refused> {
    let Bounds { nodes, clauses, .. } = bounds;
    let room = ROOM + text.len();
    asked!(reqs_marker_simplify_python, room, text, lower, upper; nodes, clauses).map(Answer::text)
}

pub(crate) fn marker_simplify_extras(
    text: &str,
    extras: &[&str],
    bounds: Bounds,
) -> Result<String, Refused> {
    let Bounds { nodes, clauses, .. } = bounds;
    let extras = extra_lines(extras, EXTRAS_TO_SIMPLIFY)?;
    let room = ROOM + text.len();
    asked!(reqs_marker_simplify_extras, room, text, extras; nodes, clauses).map(Answer::text)
}

/// Whether a text was refused as that of a marker that never holds, which has no normal text.
pub(crate) fn never_holds(refused: &Refused) -> bool {
    refused.message == NEVER_HOLDS
}

/// A byte for each line: `1` if the marker holds, `0` if it doesn't, `?` if the line is not a marker.
pub(crate) fn markers_hold(
    markers: &str,
    environment: &str,
    extras: &[&str],
) -> Result<String, Refused> {
    let extras = extra_lines(extras, EXTRAS_OF_MARKERS)?;
    asked!(reqs_markers_hold, ROOM, markers, environment, extras).map(Answer::text)
}

pub(crate) fn check(lists: [&[u8]; 3], extras: &[&str], format: Format) -> Result<String, Refused> {
    let [list, environment, candidates] = lists;
    let extras = extra_lines(extras, EXTRAS_OF_LISTS)?;
    let room = format.room_for_rows(list, 1);
    let answer = match format {
        Format::Text => asked!(reqs_check, room, list, environment, candidates, extras),
        Format::Json => asked!(reqs_check_json, room, list, environment, candidates, extras),
    };
    answer.map(Answer::text)
}

pub(crate) fn matrix(
    lists: [&[u8]; 3],
    extras: &[&str],
    limit: u64,
    bounds: Bounds,
    format: Format,
) -> Result<String, Refused> {
    let [list, environments, candidates] = lists;
    let Bounds { nodes, cases, .. } = bounds;
    let extras = extra_lines(extras, EXTRAS_OF_LISTS)?;
    // (an environment is an object)
    let count = environments.iter().filter(|it| **it == b'{').count();
    let room = format.room_for_rows(list, count);
    let answer = match format {
        Format::Text => {
            asked!(reqs_matrix, room, list, environments, candidates, extras; limit, nodes, cases)
        }
        Format::Json => {
            asked!(reqs_matrix_json, room, list, environments, candidates, extras; limit, nodes, cases)
        }
    };
    answer.map(Answer::text)
}

pub(crate) fn same(
    left: &[u8],
    right: &[u8],
    limit: u64,
    bounds: Bounds,
    format: Format,
) -> Result<Answer, Refused> {
    let Bounds {
        nodes,
        clauses,
        cases,
    } = bounds;
    match format {
        Format::Text => asked!(reqs_same, ROOM, left, right; limit, nodes, clauses, cases),
        Format::Json => asked!(reqs_same_json, ROOM, left, right; limit, nodes, clauses, cases),
    }
}

pub(crate) fn covers(
    lock: &[u8],
    requirements: &[u8],
    limit: u64,
    bounds: Bounds,
    format: Format,
) -> Result<Answer, Refused> {
    let Bounds {
        nodes,
        clauses,
        cases,
    } = bounds;
    match format {
        Format::Text => asked!(reqs_covers, ROOM, lock, requirements; limit, nodes, clauses, cases),
        Format::Json => {
            asked!(reqs_covers_json, ROOM, lock, requirements; limit, nodes, clauses, cases)
        }
    }
}

pub(crate) fn conflicts(
    requirements: &[u8],
    limit: u64,
    bounds: Bounds,
    format: Format,
) -> Result<String, Refused> {
    let Bounds { nodes, cases, .. } = bounds;
    let room = format.room_for_rows(requirements, 1);
    let answer = match format {
        Format::Text => asked!(reqs_conflicts, room, requirements; limit, nodes, cases),
        Format::Json => asked!(reqs_conflicts_json, room, requirements; limit, nodes, cases),
    };
    answer.map(Answer::text)
}

/// The text of the marker of what is assumed, empty if nothing is.
pub(crate) fn assumption(marker: &str, python: &str, real: bool) -> Result<String, Refused> {
    let room = ROOM + marker.len() + python.len();
    asked!(reqs_assumption, room, marker, python; u64::from(real)).map(Answer::text)
}

pub(crate) fn same_where(
    [left, right]: [&[u8]; 2],
    assumption: &str,
    limit: u64,
    bounds: Bounds,
    format: Format,
) -> Result<Answer, Refused> {
    let Bounds {
        nodes,
        clauses,
        cases,
    } = bounds;
    match format {
        Format::Text => {
            asked!(reqs_same_where, ROOM, left, right, assumption; limit, nodes, clauses, cases)
        }
        Format::Json => {
            asked!(reqs_same_where_json, ROOM, left, right, assumption; limit, nodes, clauses, cases)
        }
    }
}

pub(crate) fn covers_where(
    [lock, list]: [&[u8]; 2],
    assumption: &str,
    limit: u64,
    bounds: Bounds,
    format: Format,
) -> Result<Answer, Refused> {
    let Bounds {
        nodes,
        clauses,
        cases,
    } = bounds;
    match format {
        Format::Text => {
            asked!(reqs_covers_where, ROOM, lock, list, assumption; limit, nodes, clauses, cases)
        }
        Format::Json => {
            asked!(reqs_covers_where_json, ROOM, lock, list, assumption; limit, nodes, clauses, cases)
        }
    }
}

pub(crate) fn conflicts_where(
    requirements: &[u8],
    assumption: &str,
    limit: u64,
    bounds: Bounds,
    format: Format,
) -> Result<String, Refused> {
    let Bounds { nodes, cases, .. } = bounds;
    let room = format.room_for_rows(requirements, 1);
    let answer = match format {
        Format::Text => {
            asked!(reqs_conflicts_where, room, requirements, assumption; limit, nodes, cases)
        }
        Format::Json => {
            asked!(reqs_conflicts_where_json, room, requirements, assumption; limit, nodes, cases)
        }
    };
    answer.map(Answer::text)
}

pub(crate) fn normal(
    requirements: &[u8],
    bounds: Bounds,
    format: Format,
) -> Result<String, Refused> {
    let Bounds { nodes, clauses, .. } = bounds;
    let room = format.room_for_rows(requirements, 1);
    let answer = match format {
        Format::Text => asked!(reqs_normal, room, requirements; nodes, clauses),
        Format::Json => asked!(reqs_normal_json, room, requirements; nodes, clauses),
    };
    answer.map(Answer::text)
}

#[cfg(test)]
mod tests {
    use super::*;
    use std::cell::Cell;

    thread_local! {
        /// The number of this thread's calls that were repeated since the buffer was too short.
        pub(super) static ASKED_AGAIN: Cell<usize> = const { Cell::new(0) };
    }

    const ENVIRONMENT: &str = r#"{"implementation_name": "cpython", "implementation_version": "3.11.7", "os_name": "posix",
        "platform_machine": "x86_64", "platform_python_implementation": "CPython", "platform_release": "6.1",
        "platform_system": "Linux", "platform_version": "", "python_full_version": "3.11.7",
        "python_version": "3.11", "sys_platform": "linux"}"#;

    /// The number of repeated calls while `ask` runs.
    fn asked_again(ask: impl FnOnce()) -> usize {
        let before = ASKED_AGAIN.with(Cell::get);
        ask();
        ASKED_AGAIN.with(Cell::get) - before
    }

    #[test]
    fn a_long_answer_is_asked_again() {
        let (text, short) = ("1.0-rc.1", 3);
        let again = asked_again(|| {
            let answer = asked!(reqs_version, short, text).unwrap();
            assert_eq!(answer.text(), "1.0rc1");
        });
        assert_eq!(again, 1);
    }

    #[test]
    fn versions_are_matched_once() {
        let versions: String = (0..1000).map(|it| format!("{it}\n")).collect();
        let again = asked_again(|| {
            let marks = specifiers_take("<10", &versions).unwrap();
            assert_eq!(marks, "1".repeat(10) + &"0".repeat(990));
        });
        assert_eq!(again, 0);
    }

    #[test]
    fn lists_are_answered_once() {
        let lines: String = (0..100)
            .map(|it| format!("foo{it}>=2\nfoo{it}<1\n"))
            .collect();
        let environments = format!("[{}]", vec![ENVIRONMENT; 40].join(","));
        let lists = [lines.as_bytes(), environments.as_bytes(), b"foo1 1\n"];
        let usual = Bounds::default();
        let again = asked_again(|| {
            let found = conflicts(lists[0], 4096, usual, Format::Text).unwrap();
            assert_eq!(found.lines().count(), 100);
            let rows = matrix(lists, &[], 4096, usual, Format::Text).unwrap();
            assert_eq!(rows.lines().count(), 40 * 101);
            let found = conflicts(lists[0], 4096, usual, Format::Json).unwrap();
            assert_eq!(found.matches("\"package\":").count(), 100);
            let rows = matrix(lists, &[], 4096, usual, Format::Json).unwrap();
            assert_eq!(rows.matches("\"outcome\":").count(), 40 * 100);
        });
        assert_eq!(again, 0);
    }

    #[test]
    fn long_texts_are_read_once() {
        let long = "a".repeat(1000);
        let again = asked_again(|| {
            assert!(marker(&format!("os_name == '{long}'"), Bounds::default()).is_ok());
            assert!(requirement(&format!("foo @ https://example.org/{long}")).is_ok());
            assert!(specifiers(&format!(">=1+{long}")).is_err());
            assert!(specifiers(&format!("==1+{long}")).is_ok());
        });
        assert_eq!(again, 0);
    }

    #[test]
    fn keys_are_answered_once() {
        let comparison = |it: usize| match it % 3 {
            0 => format!("extra == 'a{it}'"),
            1 => format!("os_name != 'a{it}'"),
            _ => format!("python_version >= '3.{it}'"),
        };
        let marker = (0..300).map(comparison).collect::<Vec<_>>().join(" or ");
        let again = asked_again(|| {
            for text in [
                marker.as_str(),
                "os_name == 'nt'",
                "python_version in '3.8 3.9 3.11'",
            ] {
                assert!(!marker_key(text, usize::MAX).unwrap().is_empty());
            }
        });
        assert_eq!(again, 0);
    }

    fn lists_in(environment: &str) -> [&[u8]; 3] {
        [b"foo\n", environment.as_bytes(), b"foo 1\n"]
    }

    #[test]
    fn extras_are_names() {
        let environments = format!("[{ENVIRONMENT}]");
        for extra in ["dev-", "", "dev\ntest", "dev\n"] {
            let extras = ["good", extra];
            let refused = |input| Refused {
                message: format!("extra {extra} is no name"),
                input,
                line: 0,
                start: 0,
                len: 0,
            };
            for format in [Format::Text, Format::Json] {
                let checked = check(lists_in(ENVIRONMENT), &extras, format);
                assert_eq!(checked, Err(refused(EXTRAS_OF_LISTS)));
                let lists = lists_in(&environments);
                let tabled = matrix(lists, &extras, 4096, Bounds::NONE, format);
                assert_eq!(tabled, Err(refused(EXTRAS_OF_LISTS)));
            }
            let held = markers_hold("os_name == 'posix'", ENVIRONMENT, &extras);
            assert_eq!(held, Err(refused(EXTRAS_OF_MARKERS)));
        }
    }
}
