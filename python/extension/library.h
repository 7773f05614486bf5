/* What the extension of the Python package calls libreqs by: the bytes of texts, and calls that answer with
 * bytes or raise, over the limited API of Python 3.10. */
#pragma once
#define Py_LIMITED_API 0x030a0000
#define PY_SSIZE_T_CLEAN
#include <Python.h>
#include <stdint.h>
#include <stdlib.h>
#include <string.h>
#include <structmember.h>

#include "reqs.h"

enum {
    ROOM = 4096,      /* the bytes of an answer that needs no second call and no memory of its own */
    LONG_CALL = 8192, /* the bytes of texts from which on a quick call lets go of the interpreter's lock */
    OWN = 56,         /* the bytes of a key that stands in its version */
    SHORT = 255,      /* the bytes of a version or a specifier that is copied */
    MOST_TEXTS = 4,
    MOST_NUMBERS = 4,
};

/* A reference to an object that is always there. (Py_RETURN_NONE and its relatives make none by the headers of
 * some Pythons, and others want one.) */
static PyObject *shared(PyObject *it) { return Py_INCREF(it), it; }

/* ---- texts */

/* The bytes of a str or of bytes. They stand in the object that was given, or in `kept`. */
typedef struct {
    const uint8_t *at;
    size_t len;
    PyObject *kept;
} Text;

static void text_close(Text *text) { Py_CLEAR(text->kept); }

static int text_of_bytes(PyObject *given, Text *text) {
    char *at;
    Py_ssize_t len;
    if (PyBytes_AsStringAndSize(given, &at, &len)) return -1;
    text->at = (const uint8_t *)at;
    text->len = (size_t)len;
    return 0;
}

/* UTF-8, except that a lone surrogate is encoded too: the library then reports that this is not UTF-8. */
static PyObject *encoded(PyObject *module, PyObject *given) {
    (void)module;
    if (!PyUnicode_Check(given)) return PyObject_CallMethod(given, "encode", NULL);
    PyObject *bytes = PyUnicode_AsUTF8String(given);
    if (bytes || !PyErr_ExceptionMatches(PyExc_UnicodeEncodeError)) return bytes;
    PyErr_Clear();
    return PyUnicode_AsEncodedString(given, "utf-8", "surrogatepass");
}

static int text_of(PyObject *given, Text *text) {
    text->kept = NULL;
    if (PyBytes_Check(given)) return text_of_bytes(given, text);
    if (PyUnicode_Check(given)) {
        Py_ssize_t len;
        const char *at = PyUnicode_AsUTF8AndSize(given, &len);
        if (at) {
            text->at = (const uint8_t *)at;
            text->len = (size_t)len;
            return 0;
        }
        PyErr_Clear();
    }
    text->kept = encoded(NULL, given);
    return text->kept ? text_of_bytes(text->kept, text) : -1;
}

/* ---- the library's calls */

typedef const uint8_t *At;

typedef struct {
    uintptr_t address;
    int texts;   /* how many it is given */
    int numbers; /* how many follow them: a limit, nodes, clauses, cases, of 64 bits each */
    int quick;   /* whether it takes time linear in its texts */
} Call;

_Static_assert(sizeof(size_t) == sizeof(uint64_t), "numbers of nodes and clauses have 64 bits");

/* The types of so many texts, of so many numbers, and what is passed for them. */
#define TEXTS1 At, size_t
#define TEXTS2 TEXTS1, At, size_t
#define TEXTS3 TEXTS2, At, size_t
#define TEXTS4 TEXTS3, At, size_t
#define NUMBERS0
#define NUMBERS1 uint64_t,
#define NUMBERS2 NUMBERS1 uint64_t,
#define NUMBERS3 NUMBERS2 uint64_t,
#define NUMBERS4 NUMBERS3 uint64_t,
#define ALL_TEXTS1 t[0].at, t[0].len
#define ALL_TEXTS2 ALL_TEXTS1, t[1].at, t[1].len
#define ALL_TEXTS3 ALL_TEXTS2, t[2].at, t[2].len
#define ALL_TEXTS4 ALL_TEXTS3, t[3].at, t[3].len
#define ALL_NUMBERS0
#define ALL_NUMBERS1 n[0],
#define ALL_NUMBERS2 ALL_NUMBERS1 n[1],
#define ALL_NUMBERS3 ALL_NUMBERS2 n[2],
#define ALL_NUMBERS4 ALL_NUMBERS3 n[3],
/* A call of so many texts and numbers. */
#define CASE(texts, numbers)                                                                                \
    case 8 * texts + numbers:                                                                               \
        return ((reqs_reply(*)(TEXTS##texts, NUMBERS##numbers uint8_t *, size_t))call->address)(            \
            ALL_TEXTS##texts, ALL_NUMBERS##numbers out, room);
#define CASES(texts) CASE(texts, 0) CASE(texts, 1) CASE(texts, 2) CASE(texts, 3) CASE(texts, 4)

static reqs_reply reply_of(const Call *call, const Text *t, const uint64_t *n, uint8_t *out, size_t room) {
    switch (8 * call->texts + call->numbers) {
        CASES(1)
        CASES(2)
        CASES(3)
        CASES(4)
    }
    return (reqs_reply){.status = REQS_MEMORY};
}

static int is_quick(const Call *call, const Text *texts) {
    size_t all = 0;
    for (int i = 0; i < call->texts; i++) all += texts[i].len < LONG_CALL ? texts[i].len : LONG_CALL;
    return call->quick && all < LONG_CALL;
}

/* Has fowlyore._native raise a refusal, whose text is the reason. (A format with a `#` stands for another
 * function in the headers of each Python.) */
static void refuse_call(const reqs_reply *reply, const uint8_t *why) {
    PyObject *native = PyImport_ImportModule("fowlyore._native");
    if (!native) return;
    PyObject *reason = PyBytes_FromStringAndSize((const char *)why, (Py_ssize_t)reply->length);
    PyObject *nothing = PyObject_CallMethod(native, "refuse", "NInNN", reason, reply->input, (Py_ssize_t)reply->line,
                                            PyLong_FromSize_t(reply->start), PyLong_FromSize_t(reply->len));
    Py_DECREF(native);
    Py_XDECREF(nothing);
}

/* The answer of a call as bytes, or NULL with an exception. `size` is the room that it is given at first. */
static PyObject *answer(const Call *call, const Text *texts, const uint64_t *numbers, size_t size) {
    uint8_t own[ROOM], *out = own;
    PyObject *bytes = NULL;
    reqs_reply reply = {.length = size};
    size_t room;
    do {
        room = reply.length > ROOM ? reply.length : ROOM;
        Py_CLEAR(bytes);
        if (room > PY_SSIZE_T_MAX) return PyErr_NoMemory();
        if (room > ROOM) {
            bytes = PyBytes_FromStringAndSize(NULL, (Py_ssize_t)room);
            if (!bytes) return NULL;
            out = (uint8_t *)PyBytes_AsString(bytes);
        }
        PyThreadState *thread = is_quick(call, texts) && room <= LONG_CALL ? NULL : PyEval_SaveThread();
        reply = reply_of(call, texts, numbers, out, room);
        if (thread) PyEval_RestoreThread(thread);
    } while (reply.length > room);
    if (reply.status == REQS_ANSWERED || reply.status == REQS_DIFFERENT) {
        if (bytes && PyBytes_Size(bytes) == (Py_ssize_t)reply.length) return bytes;
        PyObject *front = PyBytes_FromStringAndSize((const char *)out, (Py_ssize_t)reply.length);
        Py_XDECREF(bytes);
        return front;
    }
    if (reply.status == REQS_MEMORY) PyErr_SetString(PyExc_MemoryError, "libreqs");
    else refuse_call(&reply, out);
    Py_XDECREF(bytes);
    return NULL;
}

static const char call_name[] = "fowlyore call";

static void free_call(PyObject *capsule) { PyMem_Free(PyCapsule_GetPointer(capsule, call_name)); }

/* A number of 64 bits; fails where an object is none. */
static int read_number(PyObject *value, uint64_t *number) {
    *number = PyLong_AsUnsignedLongLong(value);
    return *number == UINT64_MAX && PyErr_Occurred() ? -1 : 0;
}

/* The numbers that follow a call's texts, of a tuple; fails where it has others than the call wants. */
static int read_numbers(PyObject *tuple, const Call *call, uint64_t *numbers) {
    if (!PyTuple_Check(tuple) || PyTuple_Size(tuple) != call->numbers)
        return PyErr_Format(PyExc_TypeError, "%R is no tuple of %d numbers", tuple, call->numbers), -1;
    for (int i = 0; i < call->numbers; i++)
        if (read_number(PyTuple_GetItem(tuple, i), &numbers[i])) return -1;
    return 0;
}

/* What a keyword argument says. */
static int read_word(PyObject *name, PyObject *value, const Call *call, uint64_t *numbers, uint64_t *size) {
    if (!name) return -1;
    if (!PyUnicode_CompareWithASCIIString(name, "numbers")) return read_numbers(value, call, numbers);
    if (!PyUnicode_CompareWithASCIIString(name, "size")) return read_number(value, size);
    return PyErr_Format(PyExc_TypeError, "no argument %R", name), -1;
}

/* What `call` returns: given texts, `numbers=` where it takes any, and perhaps `size=`, it returns the answer as
 * bytes. */
static PyObject *call_texts(PyObject *capsule, PyObject *const *given, Py_ssize_t count, PyObject *names) {
    const Call *call = PyCapsule_GetPointer(capsule, call_name);
    Text texts[MOST_TEXTS] = {{NULL, 0, NULL}};
    uint64_t numbers[MOST_NUMBERS] = {0}, size = 0;
    PyObject *found = NULL;
    Py_ssize_t more = names ? PyTuple_Size(names) : 0;
    int opened = 0;
    if (!call) return NULL;
    if (count != call->texts) return PyErr_Format(PyExc_TypeError, "%zd texts, not %d", count, call->texts);
    for (Py_ssize_t i = 0; i < more; i++)
        if (read_word(PyTuple_GetItem(names, i), given[count + i], call, numbers, &size)) return NULL;
    while (opened < call->texts && !text_of(given[opened], &texts[opened])) opened++;
    if (opened == call->texts) found = answer(call, texts, numbers, (size_t)size);
    while (opened > 0) text_close(&texts[--opened]);
    return found;
}

static PyMethodDef call_method = {"call", (PyCFunction)(void (*)(void))call_texts,
                                  METH_FASTCALL | METH_KEYWORDS, NULL};

/* call(address, texts, numbers, quick): the library's function at an address, as a function of Python. */
static PyObject *call_of(PyObject *module, PyObject *args) {
    (void)module;
    unsigned long long address;
    Call call;
    if (!PyArg_ParseTuple(args, "Kiip:call", &address, &call.texts, &call.numbers, &call.quick)) return NULL;
    int known = call.texts > 0 && call.texts <= MOST_TEXTS && call.numbers >= 0 && call.numbers <= MOST_NUMBERS;
    if (!known || !address)
        return PyErr_Format(PyExc_ValueError, "no call of %d texts and %d numbers", call.texts, call.numbers);
    call.address = (uintptr_t)address;
    Call *kept = PyMem_Malloc(sizeof *kept);
    if (!kept) return PyErr_NoMemory();
    *kept = call;
    PyObject *capsule = PyCapsule_New(kept, call_name, free_call);
    if (!capsule) return PyMem_Free(kept), NULL;
    PyObject *made = PyCFunction_NewEx(&call_method, capsule, NULL);
    Py_DECREF(capsule);
    return made;
}
