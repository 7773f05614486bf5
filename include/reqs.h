/* reqs: judges lists of Python requirements, after PEP 440 and PEP 508. docs/C.md documents this library; the
 * Debian package libreqs-dev has it as /usr/share/doc/libreqs-dev/C.md.
 *
 * Texts. Each text is a pointer to bytes and their number; it is read as UTF-8, and needs no 0 at its end.
 * The pointer must not be null, even if the number is 0. A call reads the texts while it runs and keeps none
 * of them.
 *
 * Lines of versions, markers or extras end in line feeds; the last one may be without.
 *
 * The answer. `out` is a buffer of the caller's of `out_len` bytes, which overlaps no text; it must not be
 * null, even if out_len is 0. A call writes the prefix of its answer's text that fits into it, and nothing
 * after that; no 0 is appended. The reply's `length` is that of the whole text: if it is more than out_len,
 * call again with as much room. The text of a refused call is the reason.
 *
 * Memory. What a call allocates by malloc and realloc it frees before it returns; nothing is kept between
 * calls. When the process has no memory, the status is REQS_MEMORY and out is unchanged.
 *
 * Threads. Calls share nothing: any threads may call at any time, with buffers that no other call writes.
 * Don't call from a signal handler.
 *
 * Forks. In the child of a fork, also of a process with threads, each call may be made where malloc, realloc
 * and free may be called: with glibc's fork() and its own malloc they may. Don't call in the child of vfork,
 * _Fork or a bare clone. docs/C.md documents what each relies on.
 *
 * Stack. A thread needs 512 KiB; docs/C.md documents what was tested.
 *
 * No call ends the process, throws, blocks, reads or writes a file or reads the process's environment.
 * `${NAME}` in a URL is not replaced; a relative path in place of a URL is resolved against `/`.
 *
 * Each call is proved to meet the definition that docs/C.md names; that this header is what the library
 * exports is tested.
 */
#ifndef REQS_H
#define REQS_H

#include <stddef.h>
#include <stdint.h>

#ifdef __cplusplus
extern "C" {
#endif

/* The version number of this interface, which changes with it. */
#define REQS_ABI 4u

enum reqs_status {
    REQS_ANSWERED = 0,
    REQS_DIFFERENT = 1, /* reqs_same: the lists don't require the same; reqs_covers: the first doesn't cover the
                         * second; likewise with _where and _json */
    REQS_REFUSED = 2,   /* an argument is refused; out has the reason */
    REQS_MEMORY = 3     /* out of memory; length is 0 */
};

/* How a call ended. input, line, start and len are the place at which a text is at fault, and all 0 unless
 * the status is REQS_REFUSED. */
typedef struct reqs_reply {
    uint32_t status; /* enum reqs_status */
    uint32_t input;  /* the number of the text at fault, from 1 in the call's order; 0 if there is none */
    size_t length;   /* of the whole text, in bytes */
    size_t line;     /* the number of the line at fault, from 1; 0 if there is none */
    size_t start;    /* the first byte at fault, in that line, or in the text if there is no line */
    size_t len;      /* the number of bytes at fault: 1 for what is missing, at the end or where it should stand, but 0
                      * for a URL, a marker's operator and an empty piece of a list; of what follows a marker all but
                      * the last character; 0 if it is unknown */
} reqs_reply;

/* No bound on what a call makes: a number of nodes, clauses or cases that none has. */
#define REQS_NO_BOUND SIZE_MAX

/* What reqs_version_key returns in addition to a length. */
#define REQS_KEY_REFUSED (-2)
#define REQS_KEY_MEMORY (-3)

/* REQS_ABI as the library was built with it. */
uint32_t reqs_abi(void);

/* ---- lists, as of the command reqs: at most 16,777,216 bytes each. Extras are one per line; empty lines are
 * skipped. An environment is a JSON object with the eleven variables of PEP 508 as strings, and environments
 * are a JSON list of such objects; JSON that nests deeper than 127, or has a lone surrogate, is refused. Markers
 * compare python_version by python_full_version, and 3.14.0rc1 is below 3.14: on a pre-release of Python give the
 * release, 3.14.0, or `python_version >= '3.14'` doesn't hold there. `limit` is the number of cases that a package
 * may have; the command's default is 4096.
 *
 * Bounds. A call with `nodes` makes decision trees of its lists' markers, which may have exponentially more nodes
 * than the markers have comparisons: where all together have more than `nodes`, it is refused at the line after
 * whose tree there are more ("requirements: line 3: more than 1000000 nodes"), or with input 0 if it made more of
 * the trees of all lines. A call with `clauses` writes markers as clauses with `or` between them, of which each
 * marker may have exponentially many: with more than `clauses` it is refused at the marker's line ("requirements:
 * line 3: more than 100000 clauses"), in reqs_same and reqs_covers with input 0 ("more than 100000 clauses for
 * foo"). A call with `cases` makes the cases of packages, at most `limit` of each: where it makes more than `cases`
 * of a list, it is refused ("requirements: more than 5000 cases in all"). reqs_matrix makes those of all packages;
 * reqs_same and reqs_covers none of lines that are equal in both lists, reqs_conflicts none of lines with a common
 * version, where these are so few that all sets of them are within `limit`. REQS_NO_BOUND is no bound. A list that
 * can't be read is refused for that before it is for a bound. */

/* What `reqs check` writes: for each required package, the highest candidate that is accepted. */
reqs_reply reqs_check(const uint8_t *requirements, size_t requirements_len,
                      const uint8_t *environment, size_t environment_len,
                      const uint8_t *candidates, size_t candidates_len,
                      const uint8_t *extras, size_t extras_len,
                      uint8_t *out, size_t out_len);

/* What `reqs matrix` writes: the number of each environment in a list, and what `reqs check` writes there. */
reqs_reply reqs_matrix(const uint8_t *requirements, size_t requirements_len,
                       const uint8_t *environments, size_t environments_len,
                       const uint8_t *candidates, size_t candidates_len,
                       const uint8_t *extras, size_t extras_len,
                       uint64_t limit, size_t nodes, uint64_t cases, uint8_t *out, size_t out_len);

/* REQS_ANSWERED and "yes\n" if two lists require the same; otherwise REQS_DIFFERENT and what `reqs same`
 * writes. Intervals decide plain versions alone (docs/COMMANDS.md). */
reqs_reply reqs_same(const uint8_t *left, size_t left_len,
                     const uint8_t *right, size_t right_len,
                     uint64_t limit, size_t nodes, size_t clauses, uint64_t cases,
                     uint8_t *out, size_t out_len);

/* REQS_ANSWERED and "yes\n" if a lock requires whatever the requirements do: each package, at least with the
 * same extras, and no points of versions outside their ranges; otherwise REQS_DIFFERENT and what `reqs covers`
 * writes. Of versions with a local part that may differ: torch==2.0+cu118 doesn't cover torch==2.0. */
reqs_reply reqs_covers(const uint8_t *lock, size_t lock_len,
                       const uint8_t *requirements, size_t requirements_len,
                       uint64_t limit, size_t nodes, size_t clauses, uint64_t cases,
                       uint8_t *out, size_t out_len);

/* What `reqs conflicts` writes: a line for each case in which lines contradict each other; nothing if there
 * are none. No version without a local part that is no post-release is accepted by all lines of such a case;
 * others may be, as 2.0+cu118 by torch==2.0+cu118 and torch<=2.0. */
reqs_reply reqs_conflicts(const uint8_t *requirements, size_t requirements_len,
                          uint64_t limit, size_t nodes, uint64_t cases, uint8_t *out, size_t out_len);

/* What `reqs normal` writes: the list in its normal form. */
reqs_reply reqs_normal(const uint8_t *requirements, size_t requirements_len,
                       size_t nodes, size_t clauses, uint8_t *out, size_t out_len);

/* ---- the same as JSON. The text of an answer is the object that the command prints with `--format json`, on
 * one line that ends in a line feed (COMMANDS.md). A refusal is that of the call without _json: its place is
 * in the reply, and the reason is text. */

/* {"packages":[..]}: each required package with its extras and the outcome. */
reqs_reply reqs_check_json(const uint8_t *requirements, size_t requirements_len,
                           const uint8_t *environment, size_t environment_len,
                           const uint8_t *candidates, size_t candidates_len,
                           const uint8_t *extras, size_t extras_len,
                           uint8_t *out, size_t out_len);

/* {"environments":[..]}: the number of each environment, and its packages. */
reqs_reply reqs_matrix_json(const uint8_t *requirements, size_t requirements_len,
                            const uint8_t *environments, size_t environments_len,
                            const uint8_t *candidates, size_t candidates_len,
                            const uint8_t *extras, size_t extras_len,
                            uint64_t limit, size_t nodes, uint64_t cases, uint8_t *out, size_t out_len);

/* REQS_ANSWERED and {"same":true}; otherwise REQS_DIFFERENT and {"marker":..,"package":..,"same":false}, in
 * which the marker is null if the difference is in all environments. */
reqs_reply reqs_same_json(const uint8_t *left, size_t left_len,
                          const uint8_t *right, size_t right_len,
                          uint64_t limit, size_t nodes, size_t clauses, uint64_t cases,
                          uint8_t *out, size_t out_len);

/* REQS_ANSWERED and {"covers":true}; otherwise REQS_DIFFERENT and {"covers":false,"lines":[..],"marker":..,
 * "package":..}: the package that isn't covered, where (null for all environments), and the numbers of the
 * requirements' lines that apply there. */
reqs_reply reqs_covers_json(const uint8_t *lock, size_t lock_len,
                            const uint8_t *requirements, size_t requirements_len,
                            uint64_t limit, size_t nodes, size_t clauses, uint64_t cases,
                            uint8_t *out, size_t out_len);

/* {"conflicts":[..]}: each case in which lines contradict each other, with their numbers. */
reqs_reply reqs_conflicts_json(const uint8_t *requirements, size_t requirements_len,
                               uint64_t limit, size_t nodes, uint64_t cases, uint8_t *out, size_t out_len);

/* {"requirements":[..]}: the lines of the list in its normal form. */
reqs_reply reqs_normal_json(const uint8_t *requirements, size_t requirements_len,
                            size_t nodes, size_t clauses, uint8_t *out, size_t out_len);

/* ---- lists where a marker holds, as the commands answer with `--assume`: only the environments and extras count
 * for which the marker `assumption` does (PEP 508, "Environment Markers"), as if each line's marker were joined
 * with it by `and`. So the marker of a difference holds nowhere else, and a marker that always holds changes
 * nothing.
 *
 * The assumption is read before the lists. A text that is not a marker is refused as by reqs_marker_check, with the
 * number that follows those of the lists as input: 3, and 2 in reqs_conflicts_where. Its tree counts among `nodes`
 * too. */

/* The text of a marker that holds where all that is assumed does, as `--assume`, `--python` and `--assume-real` join
 * it: the marker `marker`; that each specifier of `python`, as >=3.9,<3.13, accepts python_full_version; and, where
 * `real` is not 0, that os_name, sys_platform and platform_system say together that it is Windows, Linux or macOS, or
 * none of them says so, as in CPython, PyPy and GraalPy. An empty `marker` is none, and `python` may be empty; the text
 * is empty if nothing is assumed. A specifier that markers don't have, as ===3.9, makes a text that is not a marker.
 * A text that is not a marker is refused as by reqs_marker_check, and then one that is not a list as by
 * reqs_specifiers. Linear in the texts, but for sorting the specifiers. */
reqs_reply reqs_assumption(const uint8_t *marker, size_t marker_len,
                           const uint8_t *python, size_t python_len,
                           uint64_t real, uint8_t *out, size_t out_len);

/* What reqs_same answers where the assumption holds. */
reqs_reply reqs_same_where(const uint8_t *left, size_t left_len,
                           const uint8_t *right, size_t right_len,
                           const uint8_t *assumption, size_t assumption_len,
                           uint64_t limit, size_t nodes, size_t clauses, uint64_t cases,
                           uint8_t *out, size_t out_len);

/* What reqs_covers answers where the assumption holds. */
reqs_reply reqs_covers_where(const uint8_t *lock, size_t lock_len,
                             const uint8_t *requirements, size_t requirements_len,
                             const uint8_t *assumption, size_t assumption_len,
                             uint64_t limit, size_t nodes, size_t clauses, uint64_t cases,
                             uint8_t *out, size_t out_len);

/* What reqs_conflicts answers where the assumption holds: contradictions between lines that apply together there. */
reqs_reply reqs_conflicts_where(const uint8_t *requirements, size_t requirements_len,
                                const uint8_t *assumption, size_t assumption_len,
                                uint64_t limit, size_t nodes, uint64_t cases, uint8_t *out, size_t out_len);

/* The object of reqs_same_json where the assumption holds. */
reqs_reply reqs_same_where_json(const uint8_t *left, size_t left_len,
                                const uint8_t *right, size_t right_len,
                                const uint8_t *assumption, size_t assumption_len,
                                uint64_t limit, size_t nodes, size_t clauses, uint64_t cases,
                                uint8_t *out, size_t out_len);

/* The object of reqs_covers_json where the assumption holds. */
reqs_reply reqs_covers_where_json(const uint8_t *lock, size_t lock_len,
                                  const uint8_t *requirements, size_t requirements_len,
                                  const uint8_t *assumption, size_t assumption_len,
                                  uint64_t limit, size_t nodes, size_t clauses, uint64_t cases,
                                  uint8_t *out, size_t out_len);

/* The object of reqs_conflicts_json where the assumption holds. */
reqs_reply reqs_conflicts_where_json(const uint8_t *requirements, size_t requirements_len,
                                     const uint8_t *assumption, size_t assumption_len,
                                     uint64_t limit, size_t nodes, uint64_t cases, uint8_t *out, size_t out_len);

/* ---- versions and specifiers (PEP 440) */

/* The normal text of a version, as 1.0rc1 for 1.0-RC.1. */
reqs_reply reqs_version(const uint8_t *text, size_t text_len, uint8_t *out, size_t out_len);

/* Writes the prefix that fits of the key of a version: bytes in whose order by memcmp, a shorter prefix
 * first, versions sort, and which are equal exactly if versions are equal. Returns its length;
 * REQS_KEY_REFUSED if the text is not a version, REQS_KEY_MEMORY when memory runs out. */
int64_t reqs_version_key(const uint8_t *text, size_t text_len, uint8_t *out, size_t out_len);

/* One byte, which says how the left version compares with the right one: '<', '=' or '>'. Refused at the first
 * text that is not a version. */
reqs_reply reqs_version_order(const uint8_t *left, size_t left_len,
                              const uint8_t *right, size_t right_len,
                              uint8_t *out, size_t out_len);

/* The specifiers of a list, as >=1.0,<2, one per line, in the order of their versions. */
reqs_reply reqs_specifiers(const uint8_t *text, size_t text_len, uint8_t *out, size_t out_len);

/* A byte for each line of `versions`: '1' if the list of specifiers accepts the version, '0' if it doesn't,
 * '?' if the line is not a version. Pre-releases are treated as other versions: whether they are candidates
 * is up to the caller. */
reqs_reply reqs_specifiers_take(const uint8_t *list, size_t list_len,
                                const uint8_t *versions, size_t versions_len,
                                uint8_t *out, size_t out_len);

/* ---- lists of specifiers as ranges (PEP 440). A range is a set of points on the line of versions: at each
 * version, and between versions at a specifier's bound. Each answer is one byte, '1' or '0'. A text that is
 * not a list is refused, and so is a list with a version number that can't be raised; then input is that of
 * the list, and start and len are 0.
 *
 * Points are finer than versions: >=1.2,<2 is a subset of ~=1.2 and not the other way round, though both
 * accept the same versions. ~=1.2 ends at 2.dev0 and <2 just below all versions of release 2, and between
 * these two ends are points, but no version. */

/* '1' if the ranges of both lists are disjoint: no point is in both. */
reqs_reply reqs_specifiers_disjoint(const uint8_t *left, size_t left_len,
                                    const uint8_t *right, size_t right_len,
                                    uint8_t *out, size_t out_len);

/* '1' if the left list's range is a subset of the right one's: each of its points is in that. */
reqs_reply reqs_specifiers_subset(const uint8_t *left, size_t left_len,
                                  const uint8_t *right, size_t right_len,
                                  uint8_t *out, size_t out_len);

/* '1' if the range of the list is empty: no point is in it. */
reqs_reply reqs_specifiers_empty(const uint8_t *text, size_t text_len, uint8_t *out, size_t out_len);

/* ---- requirements (PEP 508) */

/* Five parts of a requirement, with a line feed after each but the last: its name in normal form; its extras
 * with commas between them; its specifiers with commas between them; its URL as it is written; and the place
 * of its marker in the text, as the first byte and the number of bytes with a space between: all that follows
 * the `;`, including white space. Each part but the name is empty if the requirement has none. */
reqs_reply reqs_requirement(const uint8_t *text, size_t text_len, uint8_t *out, size_t out_len);

/* ---- markers (PEP 508, "Environment Markers"). A text that is not a marker is refused at the part that
 * can't be read. A condition is a value of each key that markers test, all of which are independent of each
 * other, and any extras; so some conditions are met by no environment (docs/C.md).
 *
 * A call with `nodes` makes decision trees of its markers, which may have exponentially more nodes than the
 * markers have comparisons: where it makes more than `nodes` nodes, it is refused with the number of the
 * marker's text as input, and start and len 0 ("more than 1000000 nodes"). A call with `clauses` writes a
 * marker as clauses with `or` between them, one for each path of its tree before they are simplified; with more
 * than `clauses` it is refused with input 1, and start and len 0 ("more than 100000 clauses"). REQS_NO_BOUND is
 * no bound. docs/C.md documents what each call costs. */

/* Answered with an empty text if the text is a marker. Makes no tree: linear in the text. */
reqs_reply reqs_marker_check(const uint8_t *text, size_t text_len, uint8_t *out, size_t out_len);

/* The normal text of a marker: markers with the same meaning have the same, and it is read as a marker with
 * that meaning; empty if the marker always holds. It can be exponentially longer than the marker. Refused
 * with input 1, and start and len 0, if there is no such text: the marker depends on a string with a single
 * quote ("no normal text: single quote") or on a key with a deprecated name ("no normal text: deprecated
 * key"), it has a version that is more than release numbers of epoch 0 ("no normal text: version bound"), or
 * it never holds ("no normal text: never holds"). */
reqs_reply reqs_marker(const uint8_t *text, size_t text_len, size_t nodes, size_t clauses,
                       uint8_t *out, size_t out_len);

/* The key of a marker: bytes that are equal exactly if two markers hold under the same conditions. Their
 * order by memcmp is one of markers that means nothing more. A key is about as long as the marker, and
 * exponentially longer at worst; docs/C.md documents what each call costs. */
reqs_reply reqs_marker_key(const uint8_t *text, size_t text_len, size_t nodes, uint8_t *out, size_t out_len);

/* One byte: '1' if the marker holds under each condition, '0' if under none, otherwise '-'. */
reqs_reply reqs_marker_truth(const uint8_t *text, size_t text_len, size_t nodes, uint8_t *out, size_t out_len);

/* One byte: '1' if both markers hold together under no condition, so in no environment, otherwise '0'. */
reqs_reply reqs_markers_disjoint(const uint8_t *left, size_t left_len,
                                 const uint8_t *right, size_t right_len,
                                 size_t nodes, uint8_t *out, size_t out_len);

/* One byte: '1' if the right marker holds under each condition under which the left does, otherwise '0'. */
reqs_reply reqs_marker_implies(const uint8_t *left, size_t left_len,
                               const uint8_t *right, size_t right_len,
                               size_t nodes, uint8_t *out, size_t out_len);

/* The normal text of a marker's negation, which holds where the marker doesn't; refused as by reqs_marker. */
reqs_reply reqs_marker_negated(const uint8_t *text, size_t text_len, size_t nodes, size_t clauses,
                               uint8_t *out, size_t out_len);

/* The normal text of a marker that holds as this one does in environments whose python_full_version is at
 * least `lower` and below `upper`, each a version, or empty for no bound; it tests that version no more than
 * this needs. Refused as by reqs_marker; input is 2 or 3 if a bound is not a version. */
reqs_reply reqs_marker_simplify_python(const uint8_t *text, size_t text_len,
                                       const uint8_t *lower, size_t lower_len,
                                       const uint8_t *upper, size_t upper_len,
                                       size_t nodes, size_t clauses, uint8_t *out, size_t out_len);

/* The normal text of a marker under the assumption that these extras, one per line, are present, so that it
 * doesn't test them; empty lines are skipped. Refused as by reqs_marker; input is 2 if an extra is not a
 * name. */
reqs_reply reqs_marker_simplify_extras(const uint8_t *text, size_t text_len,
                                       const uint8_t *extras, size_t extras_len,
                                       size_t nodes, size_t clauses, uint8_t *out, size_t out_len);

/* A byte for each line of `markers`: '1' if the marker holds in the environment with the extras, one per
 * line, '0' if it doesn't, '?' if the line is not a marker. */
reqs_reply reqs_markers_hold(const uint8_t *markers, size_t markers_len,
                             const uint8_t *environment, size_t environment_len,
                             const uint8_t *extras, size_t extras_len,
                             uint8_t *out, size_t out_len);

#ifdef __cplusplus
}
#endif

#endif
