/* The library's calls by number, and how each is made with texts, bounds and room for its answer. */

#include "reqs.h"

enum {
    CHECK, MATRIX, SAME, COVERS, CONFLICTS, NORMAL, SAME_WHERE, COVERS_WHERE, CONFLICTS_WHERE,
    CHECK_JSON, MATRIX_JSON, SAME_JSON, COVERS_JSON, CONFLICTS_JSON, NORMAL_JSON, SAME_WHERE_JSON, COVERS_WHERE_JSON, CONFLICTS_WHERE_JSON,
    VERSION, KEY, ORDER, SPECIFIERS, TAKE, RANGES_DISJOINT, SUBSET, EMPTY, REQUIREMENT, CHECKED, MARKER, MARKER_KEY, TRUTH, DISJOINT, IMPLIES,
    NEGATED, PYTHON, EXTRAS, HOLD, ASSUMPTION, ABI,
    CALLS
};

/* How many cases of a package, nodes, clauses and cases in all a call may make; those that it has no bound of don't matter. */
struct bounds {
    uint64_t limit, nodes, clauses, cases;
};

static reqs_reply number(int64_t value) {
    reqs_reply reply = {0, 0, (size_t)value, 0, 0, 0};
    return reply;
}

#define T(n) text[n], (size_t)size[n]

/* Makes a call. Of a call that gives a number that is the length; no other number is a call. */
static reqs_reply made(uint64_t which, const uint8_t *const *text, const uint64_t *size, const struct bounds *most, uint8_t *out,
                       size_t room) {
    switch (which) {
    case CHECK:
        return reqs_check(T(0), T(1), T(2), T(3), out, room);
    case MATRIX:
        return reqs_matrix(T(0), T(1), T(2), T(3), most->limit, most->nodes, most->cases, out, room);
    case SAME:
        return reqs_same(T(0), T(1), most->limit, most->nodes, most->clauses, most->cases, out, room);
    case COVERS:
        return reqs_covers(T(0), T(1), most->limit, most->nodes, most->clauses, most->cases, out, room);
    case CONFLICTS:
        return reqs_conflicts(T(0), most->limit, most->nodes, most->cases, out, room);
    case NORMAL:
        return reqs_normal(T(0), most->nodes, most->clauses, out, room);
    case SAME_WHERE:
        return reqs_same_where(T(0), T(1), T(2), most->limit, most->nodes, most->clauses, most->cases, out, room);
    case COVERS_WHERE:
        return reqs_covers_where(T(0), T(1), T(2), most->limit, most->nodes, most->clauses, most->cases, out, room);
    case CONFLICTS_WHERE:
        return reqs_conflicts_where(T(0), T(1), most->limit, most->nodes, most->cases, out, room);
    case CHECK_JSON:
        return reqs_check_json(T(0), T(1), T(2), T(3), out, room);
    case MATRIX_JSON:
        return reqs_matrix_json(T(0), T(1), T(2), T(3), most->limit, most->nodes, most->cases, out, room);
    case SAME_JSON:
        return reqs_same_json(T(0), T(1), most->limit, most->nodes, most->clauses, most->cases, out, room);
    case COVERS_JSON:
        return reqs_covers_json(T(0), T(1), most->limit, most->nodes, most->clauses, most->cases, out, room);
    case CONFLICTS_JSON:
        return reqs_conflicts_json(T(0), most->limit, most->nodes, most->cases, out, room);
    case NORMAL_JSON:
        return reqs_normal_json(T(0), most->nodes, most->clauses, out, room);
    case SAME_WHERE_JSON:
        return reqs_same_where_json(T(0), T(1), T(2), most->limit, most->nodes, most->clauses, most->cases, out, room);
    case COVERS_WHERE_JSON:
        return reqs_covers_where_json(T(0), T(1), T(2), most->limit, most->nodes, most->clauses, most->cases, out, room);
    case CONFLICTS_WHERE_JSON:
        return reqs_conflicts_where_json(T(0), T(1), most->limit, most->nodes, most->cases, out, room);
    case VERSION:
        return reqs_version(T(0), out, room);
    case KEY:
        return number(reqs_version_key(T(0), out, room));
    case ORDER:
        return reqs_version_order(T(0), T(1), out, room);
    case SPECIFIERS:
        return reqs_specifiers(T(0), out, room);
    case TAKE:
        return reqs_specifiers_take(T(0), T(1), out, room);
    case RANGES_DISJOINT:
        return reqs_specifiers_disjoint(T(0), T(1), out, room);
    case SUBSET:
        return reqs_specifiers_subset(T(0), T(1), out, room);
    case EMPTY:
        return reqs_specifiers_empty(T(0), out, room);
    case REQUIREMENT:
        return reqs_requirement(T(0), out, room);
    case CHECKED:
        return reqs_marker_check(T(0), out, room);
    case MARKER:
        return reqs_marker(T(0), most->nodes, most->clauses, out, room);
    case MARKER_KEY:
        return reqs_marker_key(T(0), most->nodes, out, room);
    case TRUTH:
        return reqs_marker_truth(T(0), most->nodes, out, room);
    case DISJOINT:
        return reqs_markers_disjoint(T(0), T(1), most->nodes, out, room);
    case IMPLIES:
        return reqs_marker_implies(T(0), T(1), most->nodes, out, room);
    case NEGATED:
        return reqs_marker_negated(T(0), most->nodes, most->clauses, out, room);
    case PYTHON:
        return reqs_marker_simplify_python(T(0), T(1), T(2), most->nodes, most->clauses, out, room);
    case EXTRAS:
        return reqs_marker_simplify_extras(T(0), T(1), most->nodes, most->clauses, out, room);
    case HOLD:
        return reqs_markers_hold(T(0), T(1), T(2), out, room);
    case ASSUMPTION:
        return reqs_assumption(T(0), T(1), most->limit, out, room);
    case ABI:
        return number(reqs_abi());
    default:
        return number(-1);
    }
}

#undef T
