/* The module fowlyore._extension: versions, specifiers and the calls of libreqs.
 *
 * The package hands it the addresses of the library's functions, so that a process has the one library that
 * fowlyore._native loads. It reads arguments, calls, makes objects of the answers and keeps them. What PEP
 * 440 and PEP 508 say is the library's; what is rare, and each error, is left to functions in Python.
 *
 * A value that is asked for later is made first and stored last, since another thread, or a finalizer in this
 * one, may have stored the same meanwhile. */
#include "library.h"

/* ---- versions */

/* The library's functions that are called from here, which are the same for all interpreters of a process. */
static int64_t (*key_of)(At, size_t, uint8_t *, size_t);
static Call version_call = {.texts = 1, .quick = 1}, specifiers_call = {.texts = 1, .quick = 1};

enum { PRE = 1, POST = 2, DEV = 4 };

typedef struct {
    PyObject_HEAD
    PyObject *given;     /* a str, or NULL until it is made */
    PyObject *normal;    /* the normal text, or NULL until it is asked for; then the next two are known */
    Py_ssize_t base_len; /* of epoch and release */
    int flags;           /* which of PRE, POST and DEV it has */
    PyObject *parts[6];  /* each part, or NULL until it is asked for */
    Py_hash_t hash;      /* 0 until it is asked for */
    PyObject *weak;
    uint8_t *key;
    size_t key_len;
    uint8_t own[OWN];
} Version;

static void version_dealloc(PyObject *self) {
    Version *it = (Version *)self;
    PyTypeObject *type = Py_TYPE(self);
    if (it->weak) PyObject_ClearWeakRefs(self);
    Py_XDECREF(it->given);
    Py_XDECREF(it->normal);
    for (int i = 0; i < 6; i++) Py_XDECREF(it->parts[i]);
    if (it->key != it->own) free(it->key);
    ((freefunc)PyType_GetSlot(type, Py_tp_free))(self);
    Py_DECREF(type);
}

/* The type of this module that a type comes from, or NULL. */
static PyTypeObject *root_of(PyTypeObject *type) {
    while (type && PyType_GetSlot(type, Py_tp_dealloc) != (void *)version_dealloc)
        type = (PyTypeObject *)PyType_GetSlot(type, Py_tp_base);
    return type;
}

/* Whether another object is a version too. */
static int is_version(PyObject *self, PyObject *other) {
    if (Py_TYPE(self) == Py_TYPE(other)) return 1;
    PyTypeObject *root = root_of(Py_TYPE(self));
    return root && PyType_IsSubtype(Py_TYPE(other), root);
}

static int is_made(Version *it) {
    if (!it->given) PyErr_SetString(PyExc_AttributeError, "a version that was not made has no text");
    return it->given != NULL;
}

/* The key's length, which is negative where there is none. It stands in `own`, or in memory of its own. */
static int64_t read_key(const Text *text, uint8_t *own, uint8_t **key) {
    *key = own;
    PyThreadState *thread = text->len < LONG_CALL ? NULL : PyEval_SaveThread();
    int64_t len = key_of(text->at, text->len, own, OWN);
    if (len > OWN) {
        *key = malloc((size_t)len);
        len = *key ? key_of(text->at, text->len, *key, (size_t)len) : REQS_KEY_MEMORY;
    }
    if (thread) PyEval_RestoreThread(thread);
    return len;
}

/* Has the package raise why a value is no version. */
static int refuse(PyObject *self, PyObject *given) {
    PyObject *nothing = PyObject_CallMethod(self, "_refuse", "(O)", given);
    if (nothing) PyErr_Format(PyExc_SystemError, "%R has a normal text and no key", given);
    Py_XDECREF(nothing);
    return -1;
}

static int store_key(Version *it, PyObject *given, const uint8_t *own, uint8_t *key, size_t len) {
    PyObject *text = PyUnicode_FromObject(given);
    if (text && it->given) {
        Py_CLEAR(text);
        PyErr_SetString(PyExc_TypeError, "a version is made once");
    }
    if (!text) {
        if (key != own) free(key);
        return -1;
    }
    if (key == own) key = memcpy(it->own, own, len);
    it->key = key;
    it->key_len = len;
    it->given = text;
    return 0;
}

static int version_init(PyObject *self, PyObject *args, PyObject *names) {
    static char *words[] = {"version", NULL};
    PyObject *given;
    Text text;
    uint8_t own[OWN], *key;
    if (!names && PyTuple_Size(args) == 1) given = PyTuple_GetItem(args, 0);
    else if (!PyArg_ParseTupleAndKeywords(args, names, "O:Version", words, &given)) return -1;
    if (!PyUnicode_Check(given)) return refuse(self, given);
    if (text_of(given, &text)) return -1;
    int64_t len = read_key(&text, own, &key);
    text_close(&text);
    if (len >= 0) return store_key((Version *)self, given, own, key, (size_t)len);
    if (key != own) free(key);
    if (len == REQS_KEY_REFUSED) return refuse(self, given);
    PyErr_SetString(PyExc_MemoryError, "libreqs");
    return -1;
}

static PyObject *version_compare(PyObject *self, PyObject *given, int op) {
    if (!is_version(self, given)) return shared(Py_NotImplemented);
    Version *it = (Version *)self, *other = (Version *)given;
    if (!is_made(it) || !is_made(other)) return NULL;
    int order = memcmp(it->key, other->key, it->key_len < other->key_len ? it->key_len : other->key_len);
    if (!order) order = (it->key_len > other->key_len) - (it->key_len < other->key_len);
    int as_asked[] = {[Py_LT] = order < 0, [Py_LE] = order <= 0, [Py_EQ] = order == 0,
                      [Py_NE] = order != 0, [Py_GT] = order > 0, [Py_GE] = order >= 0};
    return PyBool_FromLong(as_asked[op]);
}

static PyObject *version_key(PyObject *self, void *nothing) {
    (void)nothing;
    Version *it = (Version *)self;
    return is_made(it) ? PyBytes_FromStringAndSize((const char *)it->key, (Py_ssize_t)it->key_len) : NULL;
}

static Py_hash_t version_hash(PyObject *self) {
    Version *it = (Version *)self;
    if (it->hash) return it->hash;
    PyObject *key = version_key(self, NULL);
    if (!key) return -1;
    it->hash = PyObject_Hash(key);
    Py_DECREF(key);
    return it->hash;
}

/* ---- a version's normal text: 1!2.3rc4.post5.dev6+local.7, of which all but the release may be missing */

static int is_digit(uint8_t it) { return it >= '0' && it <= '9'; }

static void store_normal(Version *it, PyObject *normal, const uint8_t *at, size_t len) {
    const uint8_t *plus = memchr(at, '+', len);
    size_t front = plus ? (size_t)(plus - at) : len, base = 0;
    int flags = 0;
    while (base < front && (is_digit(at[base]) || at[base] == '!' || (at[base] == '.' && at[base + 1] < 'a')))
        base++;
    /* (a, b, rc, .post and .dev have these letters each alone) */
    for (size_t i = base; i < front; i++)
        flags |= at[i] == 'p' ? POST : at[i] == 'd' ? DEV : at[i] && strchr("abc", at[i]) ? PRE : 0;
    it->base_len = (Py_ssize_t)base;
    it->flags = flags;
    it->normal = normal;
}

/* How many numbers a version's text has, where it has nothing else and so is the normal text; otherwise 0. */
static Py_ssize_t count_of_plain(Text text) {
    Py_ssize_t count = 1;
    for (size_t i = 0, first = 0; i < text.len; i++) {
        if (text.at[i] == '.') first = i + 1, count++;
        else if (!is_digit(text.at[i]) || (text.at[first] == '0' && i > first)) return 0;
    }
    return count;
}

/* Has the normal text read, where it isn't yet. */
static int read_normal(Version *it) {
    Text text, answered;
    if (it->normal) return 0;
    if (!is_made(it) || text_of(it->given, &text)) return -1;
    if (count_of_plain(text)) {
        it->base_len = (Py_ssize_t)text.len;
        it->normal = shared(it->given);
        return 0;
    }
    PyObject *bytes = answer(&version_call, &text, NULL, 0), *normal = NULL;
    if (bytes && !text_of_bytes(bytes, &answered)) {
        if (answered.len == text.len && !memcmp(answered.at, text.at, text.len)) normal = shared(it->given);
        else normal = PyUnicode_DecodeUTF8((const char *)answered.at, (Py_ssize_t)answered.len, NULL);
    }
    if (normal && it->normal) Py_DECREF(normal);
    else if (normal) store_normal(it, normal, answered.at, answered.len);
    text_close(&text);
    Py_XDECREF(bytes);
    return it->normal ? 0 : -1;
}

static PyObject *number(const uint8_t **at) {
    unsigned long long found = 0;
    for (; is_digit(**at); ++*at) found = found * 10 + (unsigned)(**at - '0');
    return PyLong_FromUnsignedLongLong(found);
}

static PyObject *read_release(const uint8_t *at, Py_ssize_t count) {
    PyObject *release = PyTuple_New(count);
    for (Py_ssize_t i = 0; release && i < count; i++, at++) {
        PyObject *each = number(&at);
        if (!each || PyTuple_SetItem(release, i, each)) Py_CLEAR(release);
    }
    return release;
}

/* The number that follows a word. */
static PyObject *number_after(const uint8_t *at, const char *word) {
    at = (const uint8_t *)strstr((const char *)at, word) + strlen(word);
    return number(&at);
}

static PyObject *read_pre(const uint8_t *at) {
    const char *word = *at == 'a' ? "a" : *at == 'b' ? "b" : "rc";
    PyObject *found = number_after(at, word);
    return found ? Py_BuildValue("sN", word, found) : NULL;
}

enum { EPOCH, RELEASE, PRE_PART, POST_PART, DEV_PART, LOCAL, PARTS };

/* A part of a normal text, which ends in a 0. */
static PyObject *part_of(const Version *of, const uint8_t *at, intptr_t which) {
    const uint8_t *end = at + of->base_len, *bang = memchr(at, '!', (size_t)of->base_len);
    const char *plus = which == LOCAL ? strchr((const char *)end, '+') : NULL;
    Py_ssize_t count = 1;
    for (const uint8_t *it = at; which == RELEASE && it < end; it++) count += *it == '.';
    if (which == RELEASE) return read_release(bang ? bang + 1 : at, count);
    if (which == EPOCH) return bang ? number(&at) : PyLong_FromLong(0);
    if (which == PRE_PART && of->flags & PRE) return read_pre(end);
    if (which == POST_PART && of->flags & POST) return number_after(end, ".post");
    if (which == DEV_PART && of->flags & DEV) return number_after(end, ".dev");
    return plus ? PyUnicode_FromString(plus + 1) : shared(Py_None);
}

static PyObject *read_part(Version *it, intptr_t which) {
    Text text;
    Py_ssize_t count = which == RELEASE && it->given && !text_of(it->given, &text) ? count_of_plain(text) : 0;
    if (count) return read_release(text.at, count);
    const char *at = read_normal(it) ? NULL : PyUnicode_AsUTF8AndSize(it->normal, NULL);
    return at ? part_of(it, (const uint8_t *)at, which) : NULL;
}

static PyObject *version_part(PyObject *self, void *which) {
    PyObject **place = &((Version *)self)->parts[(intptr_t)which], *made;
    if (*place) return shared(*place);
    if (!(made = read_part((Version *)self, (intptr_t)which))) return NULL;
    if (*place) Py_DECREF(made);
    else *place = made;
    return shared(*place);
}

static PyObject *version_flag(PyObject *self, void *which) {
    Version *it = (Version *)self;
    return read_normal(it) ? NULL : PyBool_FromLong(it->flags & (intptr_t)which);
}

static PyObject *version_str(PyObject *self) {
    Version *it = (Version *)self;
    if (read_normal(it)) return NULL;
    Py_INCREF(it->normal);
    return it->normal;
}

static PyObject *version_base(PyObject *self, void *nothing) {
    (void)nothing;
    Version *it = (Version *)self;
    return read_normal(it) ? NULL : PyUnicode_Substring(it->normal, 0, it->base_len);
}

#define GET(name, get, which, doc) {name, get, NULL, doc, (void *)(intptr_t)(which)}
static PyGetSetDef version_gets[] = {
    GET("_key", version_key, 0, "The bytes by which it is compared and hashed."),
    GET("epoch", version_part, EPOCH, "The number before `!`, or 0 if there is none."),
    GET("release", version_part, RELEASE, "The numbers with dots between them, including zeros at the end."),
    GET("pre", version_part, PRE_PART, "The pre-release, as `('rc', 1)`, or None."),
    GET("post", version_part, POST_PART, "The number of the post-release, or None."),
    GET("dev", version_part, DEV_PART, "The number of the developmental release, or None."),
    GET("local", version_part, LOCAL, "The local part, which is the text after `+`, or None."),
    GET("base_version", version_base, 0, "The text of epoch and release."),
    GET("is_prerelease", version_flag, PRE | DEV, "Whether it is a pre-release or a developmental release."),
    GET("is_postrelease", version_flag, POST, "Whether it is a post-release."),
    GET("is_devrelease", version_flag, DEV, "Whether it is a developmental release."),
    {NULL, NULL, NULL, NULL, NULL},
};

static PyMemberDef version_members[] = {
    {"_given", T_OBJECT_EX, offsetof(Version, given), READONLY, "The text that it was made of."},
    {"__weaklistoffset__", T_PYSSIZET, offsetof(Version, weak), READONLY, NULL},
    {NULL, 0, 0, 0, NULL},
};

static PyType_Slot version_slots[] = {
    {Py_tp_init, (void *)version_init}, {Py_tp_dealloc, (void *)version_dealloc},
    {Py_tp_hash, (void *)version_hash}, {Py_tp_richcompare, (void *)version_compare},
    {Py_tp_str, (void *)version_str},   {Py_tp_getset, version_gets},
    {Py_tp_members, version_members},   {Py_tp_doc, "Version(version)\n--\n\n"},
    {0, NULL},
};

enum { KIND = Py_TPFLAGS_DEFAULT | Py_TPFLAGS_BASETYPE };
static PyType_Spec version_spec = {"fowlyore._extension.Version", sizeof(Version), 0, KIND, version_slots};

/* ---- what is done here in the common case, and otherwise by what is written in Python */

/* Whether a character of ASCII is white space to str.strip, and whether to fowlyore.version.text_of. */
static int is_space(uint8_t it) { return it == ' ' || (it >= 9 && it <= 13) || (it >= 28 && it <= 31); }
static int is_blank(uint8_t it) { return it == ' ' || (it >= 9 && it <= 13 && it != 11); }
static void strip(Text *text, int (*is_white)(uint8_t)) {
    while (text->len && is_white(text->at[text->len - 1])) text->len--;
    while (text->len && is_white(*text->at)) text->at++, text->len--;
}

/* The bytes of an exact str of ASCII, without white space around: 1, or 0 for anything else. */
static int plain_text(PyObject *given, Text *text, int (*is_white)(uint8_t)) {
    if (!PyUnicode_CheckExact(given) || text_of(given, text)) return PyErr_Clear(), 0;
    int plain = !text->kept && PyUnicode_GetLength(given) == (Py_ssize_t)text->len;
    text_close(text);
    if (plain && is_white) strip(text, is_white);
    return plain;
}

/* The text of a version, or of what should be one: 1, or 0 where it is left to Python. */
static int item_text(PyObject *item, Text *text) {
    PyObject *given = item;
    if (!PyUnicode_CheckExact(item)) given = root_of(Py_TYPE(item)) ? ((Version *)item)->given : NULL;
    return given && plain_text(given, text, is_blank) && !memchr(text->at, '\n', text->len);
}

/* text_of(version): the text of a version, or of what should be one, without white space around. */
static PyObject *text_without_blanks(PyObject *written, PyObject *item) {
    Text text;
    if (!item_text(item, &text)) return PyObject_CallFunctionObjArgs(written, item, NULL);
    return PyUnicode_FromStringAndSize((const char *)text.at, (Py_ssize_t)text.len);
}

/* is_prerelease(version): whether it is one, or of a text whether its version is. */
static PyObject *is_prerelease(PyObject *written, PyObject *item) {
    Text text;
    size_t digits = 0, dots = 0;
    if (root_of(Py_TYPE(item))) return version_flag(item, (void *)(intptr_t)(PRE | DEV));
    if (item_text(item, &text))
        for (size_t i = 0; i < text.len; i++) digits += is_digit(text.at[i]) != 0, dots += text.at[i] == '.';
    if (digits && digits + dots == text.len) return shared(Py_False);
    return PyObject_CallFunctionObjArgs(written, item, NULL);
}

/* lines(versions): the texts of a list of versions, one per line. */
static PyObject *lines(PyObject *written, PyObject *items) {
    Text text;
    Py_ssize_t count = PyList_Check(items) ? PyList_Size(items) : 0, all = 0, plain = count > 0, i;
    for (i = 0; plain && i < count; i++) {
        plain = item_text(PyList_GetItem(items, i), &text);
        if (plain) all += (Py_ssize_t)text.len + 1;
    }
    if (!plain) return PyObject_CallFunctionObjArgs(written, items, NULL);
    PyObject *bytes = PyBytes_FromStringAndSize(NULL, all);
    char *at = bytes ? PyBytes_AsString(bytes) : NULL;
    for (i = 0; at && i < count; i++) {
        if (!item_text(PyList_GetItem(items, i), &text)) return Py_DECREF(bytes), PyErr_NoMemory();
        memcpy(at, text.at, text.len);
        at += text.len;
        *at++ = '\n';
    }
    PyObject *made = bytes ? PyUnicode_FromStringAndSize(at - all, all) : NULL;
    Py_XDECREF(bytes);
    return made;
}

static PyMethodDef written_methods[] = {
    {"text_of", text_without_blanks, METH_O, NULL},
    {"is_prerelease", is_prerelease, METH_O, NULL},
    {"lines", lines, METH_O, NULL},
};

/* instead(name, function): a function of that name that leaves what isn't common to the one that is given. */
static PyObject *instead(PyObject *module, PyObject *args) {
    (void)module;
    const char *name;
    PyObject *written;
    if (!PyArg_ParseTuple(args, "sO:instead", &name, &written)) return NULL;
    for (size_t i = 0; i < sizeof written_methods / sizeof *written_methods; i++)
        if (!strcmp(written_methods[i].ml_name, name))
            return PyCFunction_NewEx(&written_methods[i], written, NULL);
    return PyErr_Format(PyExc_ValueError, "no function %s", name);
}

/* ---- specifiers and sets of them: their members are those that the classes in Python have as slots */

typedef struct {
    PyObject_HEAD
    PyObject *all[8];
    PyObject *weak;
} Parted;

enum { S_OPERATOR, S_VERSION, S_NORMAL, S_BYTES, S_TEXT, S_PRERELEASES, S_NAMES_ONE, S_CANONICAL, S_ALL };
enum { L_GIVEN = 0, L_MADE = 1, L_BYTES = S_BYTES };

static int parted_traverse(PyObject *self, visitproc visit, void *arg) {
    Py_VISIT(Py_TYPE(self));
    for (int i = 0; i < S_ALL; i++) Py_VISIT(((Parted *)self)->all[i]);
    return 0;
}

static int parted_clear(PyObject *self) {
    for (int i = 0; i < S_ALL; i++) Py_CLEAR(((Parted *)self)->all[i]);
    return 0;
}

static void parted_dealloc(PyObject *self) {
    PyTypeObject *type = Py_TYPE(self);
    PyObject_GC_UnTrack(self);
    if (((Parted *)self)->weak) PyObject_ClearWeakRefs(self);
    parted_clear(self);
    ((freefunc)PyType_GetSlot(type, Py_tp_free))(self);
    Py_DECREF(type);
}

/* Puts a value, whose reference is handed over, in a member's place; fails where there is none. */
static int put(PyObject *self, int member, PyObject *value) {
    PyObject **place = &((Parted *)self)->all[member], *before = *place;
    if (!value) return -1;
    *place = value;
    Py_XDECREF(before);
    return 0;
}

static int put_text(PyObject *self, int member, const uint8_t *at, size_t len) {
    return put(self, member, PyUnicode_FromStringAndSize((const char *)at, (Py_ssize_t)len));
}

static int put_prereleases(PyObject *self, PyObject *value) {
    Py_INCREF(value);
    return put(self, S_PRERELEASES, value);
}

/* Reads the two arguments of what is made of them, once, which has no members then. */
static int two_arguments(PyObject *self, PyObject *args, PyObject *names, char *first, PyObject **text,
                         PyObject **prereleases) {
    char *words[] = {first, "prereleases", NULL};
    *text = NULL;
    *prereleases = Py_None;
    if (((Parted *)self)->all[S_BYTES]) return PyErr_SetString(PyExc_TypeError, "specifiers are made once"), -1;
    parted_clear(self);
    if (!names && PyTuple_Size(args) == 1) *text = PyTuple_GetItem(args, 0);
    else if (!PyArg_ParseTupleAndKeywords(args, names, "|OO", words, text, prereleases)) return -1;
    return 0;
}

/* Makes it by the function in Python. */
static int init_written(PyObject *self, PyObject *args, PyObject *names) {
    PyObject *init = PyObject_GetAttrString(self, "_written_init");
    PyObject *nothing = init ? PyObject_Call(init, args, names) : NULL;
    Py_XDECREF(init);
    Py_XDECREF(nothing);
    return nothing ? 0 : -1;
}

static size_t operator_len(const uint8_t *at, size_t len) {
    size_t found = 0;
    while (found < len && at[found] && strchr("=<>!~", at[found])) found++;
    return found;
}

/* The members of a specifier of which the library has answered its normal text. */
static int put_specifier(PyObject *self, Text given, const uint8_t *normal, size_t len) {
    PyObject **all = ((Parted *)self)->all;
    size_t sign = operator_len(normal, len);
    Text version = {given.at + sign, given.len - sign, NULL}, rest = {normal + sign, len - sign, NULL};
    strip(&version, is_space);
    strip(&rest, is_space);
    return put_text(self, S_OPERATOR, normal, sign) || put_text(self, S_VERSION, version.at, version.len) ||
           put_text(self, S_NORMAL, rest.at, rest.len) ||
           put(self, S_TEXT, PyUnicode_Concat(all[S_OPERATOR], all[S_VERSION])) ||
           put(self, S_BYTES, encoded(NULL, all[S_TEXT]));
}

static int specifier_init(PyObject *self, PyObject *args, PyObject *names) {
    PyObject *given, *prereleases;
    Text text = {NULL, 0, NULL};
    uint8_t out[2 * SHORT];
    if (two_arguments(self, args, names, "spec", &given, &prereleases)) return -1;
    if (!given || !plain_text(given, &text, NULL) || text.len > SHORT) return init_written(self, args, names);
    reqs_reply reply = reply_of(&specifiers_call, &text, NULL, out, sizeof out);
    strip(&text, is_space);
    if (reply.length && reply.length <= sizeof out && out[reply.length - 1] == '\n') reply.length--;
    int one = reply.status == REQS_ANSWERED && reply.length <= sizeof out && !memchr(out, '\n', reply.length);
    size_t sign = one ? operator_len(out, reply.length) : 0;
    if (!sign || sign > text.len) return init_written(self, args, names);
    return put_specifier(self, text, out, reply.length) ? -1 : put_prereleases(self, prereleases);
}

static PyObject *specifier_str(PyObject *self) {
    PyObject **all = ((Parted *)self)->all;
    if (!all[S_TEXT] && all[S_OPERATOR] && all[S_VERSION])
        put(self, S_TEXT, PyUnicode_Concat(all[S_OPERATOR], all[S_VERSION]));
    if (!all[S_TEXT] && !PyErr_Occurred())
        PyErr_SetString(PyExc_AttributeError, "a specifier that was not made has no text");
    Py_XINCREF(all[S_TEXT]);
    return all[S_TEXT];
}

/* What it is compared by, which is asked for once. */
static PyObject *canonical(PyObject *self) {
    PyObject **place = &((Parted *)self)->all[S_CANONICAL];
    if (!*place) put(self, S_CANONICAL, PyObject_GetAttrString(self, "_canonical"));
    return *place;
}

static Py_hash_t specifier_hash(PyObject *self) {
    return canonical(self) ? PyObject_Hash(canonical(self)) : -1;
}

static PyObject *specifier_compare(PyObject *self, PyObject *other, int op) {
    if (op != Py_EQ && op != Py_NE) return shared(Py_NotImplemented);
    if (Py_TYPE(self) == Py_TYPE(other)) {
        if (!canonical(self) || !canonical(other)) return NULL;
        return PyObject_RichCompare(canonical(self), canonical(other), op);
    }
    PyObject *equal = PyObject_CallMethod(self, "_written_eq", "(O)", other);
    if (!equal || equal == Py_NotImplemented || op == Py_EQ) return equal;
    int differs = PyObject_Not(equal);
    Py_DECREF(equal);
    return differs < 0 ? NULL : PyBool_FromLong(differs);
}

/* Whether each piece between commas has more than white space in it, or there is nothing at all. */
static int has_whole_pieces(Text text) {
    const uint8_t *at = text.at, *end = at + text.len;
    while (text.len) {
        const uint8_t *comma = memchr(at, ',', (size_t)(end - at)), *stop = comma ? comma : end;
        while (at < stop && is_space(*at)) at++;
        if (at == stop) return 0;
        if (!comma) return 1;
        at = comma + 1;
    }
    return 1;
}

static int set_init(PyObject *self, PyObject *args, PyObject *names) {
    PyObject *given, *prereleases;
    Text text = {NULL, 0, NULL};
    uint8_t out;
    if (two_arguments(self, args, names, "specifiers", &given, &prereleases)) return -1;
    int plain = given && plain_text(given, &text, NULL) && text.len <= LONG_CALL && has_whole_pieces(text);
    if (!plain || reply_of(&specifiers_call, &text, NULL, &out, 0).status != REQS_ANSWERED)
        return init_written(self, args, names);
    Py_INCREF(given);
    if (put(self, L_GIVEN, given) || put(self, L_BYTES, encoded(NULL, given))) return -1;
    return put_prereleases(self, prereleases);
}

/* The members of a set, as a new reference. */
static PyObject *set_members(PyObject *self) {
    PyObject *made = ((Parted *)self)->all[L_MADE];
    if (!made) return PyObject_GetAttrString(self, "_specs");
    Py_INCREF(made);
    return made;
}

static Py_ssize_t set_length(PyObject *self) {
    PyObject *members = set_members(self);
    Py_ssize_t length = members ? PyObject_Size(members) : -1;
    Py_XDECREF(members);
    return length;
}

static PyObject *set_iter(PyObject *self) {
    PyObject *members = set_members(self), *found = members ? PyObject_GetIter(members) : NULL;
    Py_XDECREF(members);
    return found;
}

/* The text of a set's member, also of one of a class that prints something else. */
static PyObject *member_text(PyObject *member) {
    if (PyType_GetSlot(Py_TYPE(member), Py_tp_str) == (void *)specifier_str) return specifier_str(member);
    PyObject *bytes = PyObject_GetAttrString(member, "_bytes"), *text = NULL;
    if (bytes) text = PyUnicode_FromEncodedObject(bytes, "utf-8", "strict");
    Py_XDECREF(bytes);
    return text;
}

/* The texts of a set's members with commas between them. */
static PyObject *joined(PyObject *members) {
    PyObject *list = PySequence_List(members), *comma = PyUnicode_FromString(","), *text = NULL;
    Py_ssize_t count = list && comma ? PyList_Size(list) : -1, done = 0;
    for (; done < count; done++) {
        PyObject *each = member_text(PyList_GetItem(list, done));
        if (!each || PyList_SetItem(list, done, each)) break;
    }
    if (done == count) text = PyUnicode_Join(comma, list);
    Py_XDECREF(list);
    Py_XDECREF(comma);
    return text;
}

static PyObject *set_and(PyObject *self, PyObject *other);

/* How many classes of Python there are from the type of an object to the type of sets here, or -1 if it is no set. */
static int classes_above(PyObject *self) {
    int count = 0;
    for (PyTypeObject *type = Py_TYPE(self); type; type = (PyTypeObject *)PyType_GetSlot(type, Py_tp_base), count++)
        if (PyType_GetSlot(type, Py_tp_dealloc) == (void *)parted_dealloc)
            return PyType_GetSlot(type, Py_nb_and) == (void *)set_and ? count : -1;
    return -1;
}

/* The set of the members of two, which were made, where neither says whether pre-releases are let in. It is of the
 * package's class also where these are of a class below that. */
static PyObject *set_and(PyObject *self, PyObject *other) {
    PyObject **all = ((Parted *)self)->all, **others = ((Parted *)other)->all;
    int alike = Py_TYPE(self) == Py_TYPE(other) && classes_above(self) == 1 && all[L_MADE] && others[L_MADE];
    if (alike && all[S_PRERELEASES] == Py_None && others[S_PRERELEASES] == Py_None) {
        PyObject *both = PyType_GenericAlloc(Py_TYPE(self), 0), **its = both ? ((Parted *)both)->all : NULL;
        PyObject *(*join)(PyObject *, PyObject *) = PyNumber_Or;
        if (PyTuple_Check(all[L_MADE])) join = PySequence_Concat;
        if (both && !put(both, L_MADE, join(all[L_MADE], others[L_MADE])) &&
            !put(both, L_GIVEN, joined(its[L_MADE])) && !put(both, L_BYTES, encoded(NULL, its[L_GIVEN])))
            return put_prereleases(both, Py_None), both;
        return Py_XDECREF(both), NULL;
    }
    if (classes_above(self) < 0) return shared(Py_NotImplemented);
    return PyObject_CallMethod(self, "_written_and", "(O)", other);
}

#define AT(member) T_OBJECT_EX, offsetof(Parted, all) + (member) * sizeof(PyObject *)
static PyMemberDef specifier_members[] = {
    {"operator", AT(S_OPERATOR), READONLY, "The operator, as `>=`."},
    {"version", AT(S_VERSION), READONLY, "The version as it was written, including its star."},
    {"_operator", AT(S_OPERATOR), 0, NULL},
    {"_version", AT(S_VERSION), 0, NULL},
    {"_normal", AT(S_NORMAL), 0, NULL},
    {"_bytes", AT(S_BYTES), 0, NULL},
    {"_prereleases", AT(S_PRERELEASES), 0, NULL},
    {"_names_one", AT(S_NAMES_ONE), 0, NULL},
    {"__weaklistoffset__", T_PYSSIZET, offsetof(Parted, weak), READONLY, NULL},
    {NULL, 0, 0, 0, NULL},
};
static PyMemberDef set_members_of[] = {
    {"_given", AT(L_GIVEN), 0, NULL},
    {"_made", AT(L_MADE), 0, NULL},
    {"_bytes", AT(L_BYTES), 0, NULL},
    {"_prereleases", AT(S_PRERELEASES), 0, NULL},
    {"__weaklistoffset__", T_PYSSIZET, offsetof(Parted, weak), READONLY, NULL},
    {NULL, 0, 0, 0, NULL},
};

static PyType_Slot specifier_slots[] = {
    {Py_tp_init, (void *)specifier_init},      {Py_tp_dealloc, (void *)parted_dealloc},
    {Py_tp_hash, (void *)specifier_hash},      {Py_tp_richcompare, (void *)specifier_compare},
    {Py_tp_str, (void *)specifier_str},        {Py_tp_members, specifier_members},
    {Py_tp_traverse, (void *)parted_traverse}, {Py_tp_clear, (void *)parted_clear},
    {Py_tp_doc, "Specifier(spec='', prereleases=None)\n--\n\n"}, {0, NULL},
};
static PyType_Slot set_slots[] = {
    {Py_tp_init, (void *)set_init},            {Py_tp_dealloc, (void *)parted_dealloc},
    {Py_sq_length, (void *)set_length},        {Py_tp_iter, (void *)set_iter},
    {Py_nb_and, (void *)set_and},              {Py_tp_members, set_members_of},
    {Py_tp_traverse, (void *)parted_traverse}, {Py_tp_clear, (void *)parted_clear},
    {Py_tp_doc, "SpecifierSet(specifiers='', prereleases=None)\n--\n\n"}, {0, NULL},
};
enum { WITH_GC = KIND | Py_TPFLAGS_HAVE_GC, SIZE = sizeof(Parted) };
static PyType_Spec specifier_spec = {"fowlyore._extension.Specifier", SIZE, 0, WITH_GC, specifier_slots};
static PyType_Spec set_spec = {"fowlyore._extension.SpecifierSet", SIZE, 0, WITH_GC, set_slots};

/* ---- the module */

/* load(abi, key, version, specifiers): the addresses of three functions of the library. */
static PyObject *load(PyObject *module, PyObject *args) {
    (void)module;
    unsigned int abi;
    unsigned long long key, version, specifiers;
    if (!PyArg_ParseTuple(args, "IKKK:load", &abi, &key, &version, &specifiers)) return NULL;
    if (abi != REQS_ABI || (key_of && (uintptr_t)key_of != key))
        return PyErr_Format(PyExc_ImportError, "made for interface %u and for one library", REQS_ABI);
    key_of = (int64_t(*)(At, size_t, uint8_t *, size_t))(uintptr_t)key;
    version_call.address = (uintptr_t)version;
    specifiers_call.address = (uintptr_t)specifiers;
    return shared(Py_None);
}

static PyMethodDef methods[] = {
    {"load", load, METH_VARARGS, NULL},
    {"call", call_of, METH_VARARGS, NULL},
    {"encoded", encoded, METH_O, NULL},
    {"instead", instead, METH_VARARGS, NULL},
    {NULL, NULL, 0, NULL},
};

static int add_type(PyObject *module, const char *name, PyType_Spec *spec) {
    PyObject *type = PyType_FromModuleAndSpec(module, spec, NULL);
    int failed = !type || PyModule_AddObjectRef(module, name, type);
    Py_XDECREF(type);
    return failed;
}

static int execute(PyObject *module) {
    int failed = add_type(module, "Version", &version_spec) || add_type(module, "Specifier", &specifier_spec);
    return failed || add_type(module, "SpecifierSet", &set_spec) ? -1 : 0;
}

static PyModuleDef_Slot slots[] = {{Py_mod_exec, (void *)execute}, {0, NULL}};

static struct PyModuleDef definition = {
    PyModuleDef_HEAD_INIT, "fowlyore._extension", NULL, 0, methods, slots, NULL, NULL, NULL};

PyMODINIT_FUNC PyInit__extension(void) { return PyModuleDef_Init(&definition); }
