// The types of the package `bb_memory`, over bb_pool_file.h. The calls are documented in
// _native.pyi.

// Each call with a party, and each call that frees, holds the interpreter's lock (GIL). So only one
// thread at a time uses a party, even if a bucket is freed in another thread than its own. Only
// calls of a file run without the lock, and the file isn't closed meanwhile.

#define PY_SSIZE_T_CLEAN
#include <Python.h>
#include <stdbool.h>
#include <structmember.h>
#include <time.h>

#include "bb_pool_file.h"

#if BB_ABI != 7
#error "this package needs the library bb_memory with BB_ABI 7"
#endif

// The longest that a wait sleeps before it looks for signals, in milliseconds.
enum {
    LONGEST_SLEEP = 100
};

//
// ERRORS
//

// An exception for a code that a call may return.
struct error {
    uint32_t code;
    const char *name;     // of the exception
    bool is_value_error;  // whether it is also a ValueError
    PyObject *class;
};

static struct error errors[] = {
    {BB_SIZE_TOO_LARGE, "bb_memory.SizeTooLargeError", true, NULL},
    {BB_OUT_OF_MEMORY, "bb_memory.OutOfMemoryError", false, NULL},
    {BB_UNINITIALIZED, "bb_memory.UninitializedError", true, NULL},
    {BB_NOT_HELD, "bb_memory.NotHeldError", false, NULL},
    {BB_INVALID_ARGUMENT, "bb_memory.InvalidArgumentError", true, NULL},
    {BB_NO_PARTY, "bb_memory.NoPartyError", false, NULL},
    {BB_DETACHED_FULL, "bb_memory.DetachedFullError", false, NULL},
    {BB_NOT_A_BUCKET, "bb_memory.NotABucketError", false, NULL},
    {BB_FILE_FOREIGN, "bb_memory.FileForeignError", false, NULL},
    {BB_FILE_VERSION, "bb_memory.FileVersionError", false, NULL},
    {BB_FILE_MISMATCH, "bb_memory.FileMismatchError", false, NULL},
    {BB_FILE_DAMAGED, "bb_memory.FileDamagedError", false, NULL},
    {BB_FILE_UNSAFE, "bb_memory.FileUnsafeError", false, NULL},
    {BB_FILE_STALE, "bb_memory.FileStaleError", false, NULL},
    {BB_FILE_NOT_DONE, "bb_memory.FileNotDoneError", false, NULL},
};

enum {
    ERRORS = sizeof errors / sizeof *errors
};

// Raises the exception of a code. The path, which may be NULL, is that of the file.
static PyObject *raise_code(uint32_t code, PyObject *path) {
    if (code == BB_FILE_SYSTEM)
        return PyErr_SetFromErrnoWithFilenameObject(PyExc_OSError, path);
    if (code == BB_MALLOC_REFUSED)
        return PyErr_NoMemory();
    for (size_t at = 0; at < ERRORS; at++)
        if (errors[at].code == code) {
            PyErr_SetString(errors[at].class, bb_pool_file_text(code));
            return NULL;
        }
    return PyErr_Format(PyExc_SystemError, "bb_memory returned %s, which this call doesn't have",
                        bb_pool_file_name(code));
}

// Makes the exceptions, with the code and its name as attributes, and adds them to the module.
static bool add_errors(PyObject *module) {
    PyObject *base = PyErr_NewException("bb_memory.Error", PyExc_Exception, NULL);
    if (base == NULL || PyObject_SetAttrString(module, "Error", base) != 0)
        return false;
    for (size_t at = 0; at < ERRORS; at++) {
        struct error *error = &errors[at];
        PyObject *bases =
            error->is_value_error ? PyTuple_Pack(2, base, PyExc_ValueError) : PyTuple_Pack(1, base);
        PyObject *attributes = Py_BuildValue("{s:I,s:s}", "code", (unsigned int)error->code, "name",
                                             bb_pool_file_name(error->code));
        if (bases != NULL && attributes != NULL)
            error->class = PyErr_NewException(error->name, bases, attributes);
        Py_XDECREF(bases);
        Py_XDECREF(attributes);
        const char *name = strchr(error->name, '.') + 1;
        if (error->class == NULL || PyObject_SetAttrString(module, name, error->class) != 0)
            return false;
    }
    return true;
}

//
// ARGUMENTS
//

// Converts an integer to a slot or to another number of the library. No slot, party or bucket has
// the number UINT32_MAX, which replaces all that are out of range.
static int to_number(PyObject *object, void *to) {
    int overflow = 0;
    const long long value = PyLong_AsLongLongAndOverflow(object, &overflow);
    if (value == -1 && PyErr_Occurred())
        return 0;
    const bool is_number = overflow == 0 && value >= 0 && value < UINT32_MAX;
    *(uint32_t *)to = is_number ? (uint32_t)value : UINT32_MAX;
    return 1;
}

// Converts an integer to a size. A negative size is an error.
static int to_size(PyObject *object, void *to) {
    *(size_t *)to = PyLong_AsSize_t(object);
    return !PyErr_Occurred();
}

// Converts a slot, or None for any slot. A number that no slot has is an error.
static int to_slot_or_any(PyObject *object, void *to) {
    if (object == Py_None) {
        *(uint32_t *)to = BB_ANY_SLOT;
        return 1;
    }
    if (!to_number(object, to))
        return 0;
    if (*(uint32_t *)to != BB_ANY_SLOT)
        return 1;
    raise_code(BB_INVALID_ARGUMENT, NULL);
    return 0;
}

static double seconds_now(void) {
    struct timespec time;
    clock_gettime(CLOCK_MONOTONIC, &time);
    return (double)time.tv_sec + (double)time.tv_nsec * 1e-9;
}

// Converts seconds, or None for no limit, to the time at which a wait ends.
static int to_deadline(PyObject *object, void *to) {
    if (object == Py_None) {
        *(double *)to = Py_HUGE_VAL;
        return 1;
    }
    const double seconds = PyFloat_AsDouble(object);
    if (PyErr_Occurred())
        return 0;
    *(double *)to = seconds_now() + seconds;
    return 1;
}

//
// FIGURES
//

static PyTypeObject info_type;
static PyTypeObject holder_type;
static PyTypeObject seen_type;

static PyStructSequence_Field info_fields[] = {
    {"bucket_size", NULL}, {"bucket_align", NULL}, {"buckets", NULL},  {"parties", NULL},
    {"slots", NULL},       {"depth", NULL},        {"mode", NULL},     {"user_bytes", NULL},
    {"alive", NULL},       {"held", NULL},         {"detached", NULL}, {"lost", NULL},
    {"messages", NULL},    {"wrong", NULL},        {NULL, NULL},
};
static PyStructSequence_Desc info_description = {
    "bb_memory.Info",
    "The statistics of a file.",
    info_fields,
    sizeof info_fields / sizeof *info_fields - 1,
};

static PyStructSequence_Field holder_fields[] = {
    {"state", NULL},
    {"party", NULL},
    {"slot", NULL},
    {NULL, NULL},
};
static PyStructSequence_Desc holder_description = {
    "bb_memory.Holder",
    "The holder of a bucket.",
    holder_fields,
    sizeof holder_fields / sizeof *holder_fields - 1,
};

static PyStructSequence_Field seen_fields[] = {
    {"number", NULL},
    {"nbytes", NULL},
    {NULL, NULL},
};
static PyStructSequence_Desc seen_description = {
    "bb_memory.SeenMessage",
    "A message that is in a slot.",
    seen_fields,
    sizeof seen_fields / sizeof *seen_fields - 1,
};

// Fills an object of figures with the items of a tuple, and frees the tuple. If the tuple is NULL,
// an exception is set, and the call returns NULL.
static PyObject *figures_of(PyTypeObject *type, PyObject *items) {
    if (items == NULL)
        return NULL;
    PyObject *figures = PyStructSequence_New(type);
    if (figures != NULL)
        for (Py_ssize_t at = 0; at < PyTuple_GET_SIZE(items); at++) {
            PyObject *item = PyTuple_GET_ITEM(items, at);
            Py_INCREF(item);
            PyStructSequence_SetItem(figures, at, item);
        }
    Py_DECREF(items);
    return figures;
}

//
// FILES
//

// An open file. It is closed once `close` was called and nothing pins it, or with the object.
typedef struct file_object {
    PyObject ob_base;

    // The library's file, or NULL after it was closed.
    bb_pool_file *file;

    // The path or the descriptor by which the file was opened.
    PyObject *path;

    // The bytes of a bucket.
    size_t bucket_size;

    // The bytes that are the host's own.
    size_t user_bytes;

    // How many views of the file's memory are alive, and how many calls run without the GIL.
    Py_ssize_t pins;

    // Whether `close` was called.
    bool is_closed;
} file_object;

static PyTypeObject file_type;

static bool close_now(file_object *self) {
    bb_pool_file *file = self->file;
    self->file = NULL;
    if (file == NULL)
        return true;
    const uint32_t code = bb_pool_file_close(file);
    if (code != BB_OK)
        raise_code(code, self->path);
    return code == BB_OK;
}

// Closes the file if no caller can get an exception: one that is on its way stays, and a new one is
// printed.
static void close_at_last(file_object *self) {
    PyObject *type = NULL;
    PyObject *value = NULL;
    PyObject *traceback = NULL;
    PyErr_Fetch(&type, &value, &traceback);
    if (!close_now(self))
        PyErr_WriteUnraisable(self->path);
    PyErr_Restore(type, value, traceback);
}

static void unpin_file(file_object *self) {
    self->pins--;
    if (self->pins == 0 && self->is_closed)
        close_at_last(self);
}

// Raises UninitializedError if the file was closed.
static bool check_open(const file_object *self) {
    if (!self->is_closed)
        return true;
    raise_code(BB_UNINITIALIZED, NULL);
    return false;
}

// Stores the figures that the arguments name, or their defaults, in `to`. Returns false with an
// exception if a file is to be made, and one of those is missing that have no default.
static bool read_options(PyObject *args, PyObject *keywords, PyObject **path,
                         bb_pool_file_options *to) {
    static char *names[] = {"",      "bucket_size", "bucket_align", "buckets",    "parties",
                            "slots", "depth",       "mode",         "user_bytes", NULL};
    unsigned int mode = 0;
    memset(to, 0, sizeof *to);
    to->bucket_align = 64;
    to->parties = 16;
    to->slots = 8;
    to->depth = 1;
    if (!PyArg_ParseTupleAndKeywords(
            args, keywords, "O|$O&O&O&O&O&O&IO&:PoolFile", names, path, to_size, &to->bucket_size,
            to_size, &to->bucket_align, to_number, &to->buckets, to_number, &to->parties, to_number,
            &to->slots, to_number, &to->depth, &mode, to_size, &to->user_bytes))
        return false;
    to->mode = (mode_t)mode;
    if ((to->bucket_size == 0) == (to->buckets == 0))
        return true;
    PyErr_SetString(PyExc_TypeError, "to make a file, pass both bucket_size and buckets");
    return false;
}

// Opens a file by its path, or by the number of a descriptor, and stores it in the object.
static uint32_t open_file(file_object *self, const char *path, int fd,
                          const bb_pool_file_options *options) {
    uint32_t code = BB_OK;
    Py_BEGIN_ALLOW_THREADS;
    code = path != NULL ? bb_pool_file_open(&self->file, path, options)
                        : bb_pool_file_open_fd(&self->file, fd, options);
    Py_END_ALLOW_THREADS;
    if (code != BB_OK)
        return code;
    bb_pool_file_figures figures;
    code = bb_pool_file_info(self->file, &figures);
    if (code == BB_OK) {
        self->bucket_size = figures.options.bucket_size;
        self->user_bytes = figures.options.user_bytes;
    }
    return code;
}

static PyObject *file_new(PyTypeObject *type, PyObject *args, PyObject *keywords) {
    PyObject *path = NULL;
    PyObject *encoded = NULL;
    int fd = -1;
    bb_pool_file_options options;
    if (!read_options(args, keywords, &path, &options))
        return NULL;
    if (PyLong_Check(path)) {
        fd = PyObject_AsFileDescriptor(path);
        if (fd < 0)
            return NULL;
    } else if (!PyUnicode_FSConverter(path, &encoded)) {
        return NULL;
    }
    file_object *self = (file_object *)type->tp_alloc(type, 0);
    if (self != NULL) {
        Py_INCREF(path);
        self->path = path;
        const char *text = encoded == NULL ? NULL : PyBytes_AS_STRING(encoded);
        const uint32_t code = open_file(self, text, fd, &options);
        if (code != BB_OK) {
            raise_code(code, path);
            Py_CLEAR(self);
        }
    }
    Py_XDECREF(encoded);
    return (PyObject *)self;
}

static void file_dealloc(file_object *self) {
    close_at_last(self);
    Py_XDECREF(self->path);
    Py_TYPE(self)->tp_free(self);
}

static PyObject *file_close(file_object *self, PyObject *nothing) {
    (void)nothing;
    self->is_closed = true;
    if (self->pins == 0 && !close_now(self))
        return NULL;
    Py_RETURN_NONE;
}

static PyObject *file_enter(file_object *self, PyObject *nothing) {
    (void)nothing;
    if (!check_open(self))
        return NULL;
    Py_INCREF(self);
    return (PyObject *)self;
}

static PyObject *file_exit(file_object *self, PyObject *args) {
    (void)args;
    return file_close(self, NULL);
}

static PyObject *file_closed(file_object *self, void *nothing) {
    (void)nothing;
    return PyBool_FromLong(self->is_closed);
}

static PyObject *file_reap(file_object *self, PyObject *args, PyObject *keywords) {
    static char *names[] = {"dead", "left", NULL};
    int dead = 0;
    int left = 0;
    if (!PyArg_ParseTupleAndKeywords(args, keywords, "|$pp:reap", names, &dead, &left) ||
        !check_open(self))
        return NULL;
    const uint32_t what = (dead ? BB_REAP_DEAD : 0) | (left ? BB_REAP_LEFT : 0);
    uint32_t freed = 0;
    uint32_t code = BB_OK;
    self->pins++;
    Py_BEGIN_ALLOW_THREADS;
    code = bb_pool_file_reap(self->file, what, &freed);
    Py_END_ALLOW_THREADS;
    PyObject *result =
        code == BB_OK ? PyLong_FromUnsignedLong(freed) : raise_code(code, self->path);
    unpin_file(self);
    return result;
}

static PyObject *file_info(file_object *self, PyObject *nothing) {
    (void)nothing;
    if (!check_open(self))
        return NULL;
    bb_pool_file_figures info;
    uint32_t code = BB_OK;
    self->pins++;
    Py_BEGIN_ALLOW_THREADS;
    code = bb_pool_file_info(self->file, &info);
    Py_END_ALLOW_THREADS;
    PyObject *items = NULL;
    if (code == BB_OK)
        items = Py_BuildValue(
            "(nnIIIIInIIIIII)", (Py_ssize_t)info.options.bucket_size,
            (Py_ssize_t)info.options.bucket_align, (unsigned int)info.options.buckets,
            (unsigned int)info.options.parties, (unsigned int)info.options.slots,
            (unsigned int)info.options.depth, (unsigned int)info.options.mode,
            (Py_ssize_t)info.options.user_bytes, (unsigned int)info.alive, (unsigned int)info.held,
            (unsigned int)info.detached, (unsigned int)info.lost, (unsigned int)info.messages,
            (unsigned int)info.wrong);
    else
        raise_code(code, self->path);
    unpin_file(self);
    return figures_of(&info_type, items);
}

// One of the library's waits. The one for a bucket ignores the slot.
typedef uint32_t wait_call(bb_pool_file *file, uint32_t slot, uint32_t milliseconds);

static uint32_t wait_bucket(bb_pool_file *file, uint32_t slot, uint32_t milliseconds) {
    (void)slot;
    return bb_pool_file_wait_bucket(file, milliseconds);
}

// Returns for how many milliseconds a wait with this deadline sleeps now.
static uint32_t next_sleep(double deadline) {
    const double left = (deadline - seconds_now()) * 1000;
    if (!(left > 0))
        return 0;
    return left < LONGEST_SLEEP ? (uint32_t)left + 1 : LONGEST_SLEEP;
}

// Waits until the deadline. Returns the code, or BB_OK with an exception if a signal's handler
// raises one.
static uint32_t wait_until(file_object *self, wait_call *wait, uint32_t slot, double deadline) {
    for (;;) {
        const uint32_t sleep = next_sleep(deadline);
        uint32_t code = BB_OK;
        Py_BEGIN_ALLOW_THREADS;
        code = wait(self->file, slot, sleep);
        Py_END_ALLOW_THREADS;
        if (code != BB_FILE_TIMED_OUT || PyErr_CheckSignals() != 0)
            return PyErr_Occurred() ? BB_OK : code;
        if (sleep == 0)
            return BB_FILE_TIMED_OUT;
        if (self->is_closed)
            return BB_UNINITIALIZED;
    }
}

static PyObject *file_wait(file_object *self, wait_call *wait, uint32_t slot, double deadline) {
    if (!check_open(self))
        return NULL;
    self->pins++;
    const uint32_t code = wait_until(self, wait, slot, deadline);
    if (code != BB_OK && code != BB_FILE_TIMED_OUT)
        raise_code(code, self->path);
    unpin_file(self);
    return PyErr_Occurred() ? NULL : PyBool_FromLong(code == BB_OK);
}

static PyObject *file_wait_slot(file_object *self, PyObject *args, PyObject *keywords,
                                wait_call *wait) {
    static char *names[] = {"slot", "timeout", NULL};
    uint32_t slot = BB_ANY_SLOT;
    double deadline = Py_HUGE_VAL;
    if (!PyArg_ParseTupleAndKeywords(args, keywords, "|O&O&", names, to_slot_or_any, &slot,
                                     to_deadline, &deadline))
        return NULL;
    return file_wait(self, wait, slot, deadline);
}

static PyObject *file_wait_full(file_object *self, PyObject *args, PyObject *keywords) {
    return file_wait_slot(self, args, keywords, bb_pool_file_wait_full);
}

static PyObject *file_wait_empty(file_object *self, PyObject *args, PyObject *keywords) {
    return file_wait_slot(self, args, keywords, bb_pool_file_wait_empty);
}

static PyObject *file_wait_bucket(file_object *self, PyObject *args, PyObject *keywords) {
    static char *names[] = {"timeout", NULL};
    double deadline = Py_HUGE_VAL;
    if (!PyArg_ParseTupleAndKeywords(args, keywords, "|O&", names, to_deadline, &deadline))
        return NULL;
    return file_wait(self, wait_bucket, 0, deadline);
}

static PyObject *file_watch(file_object *self, PyObject *nothing) {
    (void)nothing;
    if (!check_open(self))
        return NULL;
    int fd = -1;
    const uint32_t code = bb_pool_file_watch(self->file, &fd);
    return code == BB_OK ? PyLong_FromLong(fd) : raise_code(code, NULL);
}

static PyObject *file_arm(file_object *self, PyObject *args, PyObject *keywords) {
    static char *names[] = {"", "slot", NULL};
    int fd = -1;
    uint32_t slot = BB_ANY_SLOT;
    if (!PyArg_ParseTupleAndKeywords(args, keywords, "i|O&:arm", names, &fd, to_slot_or_any,
                                     &slot) ||
        !check_open(self))
        return NULL;
    const uint32_t code = bb_pool_file_arm(self->file, fd, slot);
    if (code != BB_OK)
        return raise_code(code, NULL);
    Py_RETURN_NONE;
}

static PyObject *file_life(file_object *self, PyObject *object) {
    uint32_t party = 0;
    if (!to_number(object, &party) || !check_open(self))
        return NULL;
    const bb_number life = bb_pool_file_life(self->file, party);
    return life.code == BB_OK ? PyLong_FromSize_t(life.number) : raise_code(life.code, NULL);
}

static PyObject *file_is_alive(file_object *self, PyObject *args) {
    uint32_t party = 0;
    unsigned long long life = 0;
    if (!PyArg_ParseTuple(args, "O&K:is_alive", to_number, &party, &life) || !check_open(self))
        return NULL;
    const bb_number alive = bb_pool_file_is_alive(self->file, party, life);
    return alive.code == BB_OK ? PyBool_FromLong(alive.number == 1) : raise_code(alive.code, NULL);
}

static PyObject *file_holder(file_object *self, PyObject *object) {
    uint32_t number = 0;
    if (!to_number(object, &number) || !check_open(self))
        return NULL;
    bb_holder holder;
    const uint32_t code = bb_pool_file_holder(self->file, number, &holder);
    if (code != BB_OK)
        return raise_code(code, NULL);
    // A party, or with BB_SENT a slot.
    const unsigned int by = holder.party;
    PyObject *items = NULL;
    if (holder.state == BB_FREE)
        items = Py_BuildValue("(sOO)", "free", Py_None, Py_None);
    else if (holder.state == BB_HELD)
        items = Py_BuildValue("(sIO)", "held", by, Py_None);
    else if (holder.state == BB_DETACHED)
        items = Py_BuildValue("(sIO)", "detached", by, Py_None);
    else
        items = Py_BuildValue("(sOI)", "sent", Py_None, by);
    return figures_of(&holder_type, items);
}

static PyObject *file_look(file_object *self, PyObject *object) {
    uint32_t slot = 0;
    if (!to_number(object, &slot) || !check_open(self))
        return NULL;
    const bb_message seen = bb_pool_file_look(self->file, slot);
    if (seen.code == BB_DETACHED_EMPTY)
        Py_RETURN_NONE;
    if (seen.code != BB_OK)
        return raise_code(seen.code, NULL);
    PyObject *items = Py_BuildValue("(In)", (unsigned int)seen.number, (Py_ssize_t)seen.len);
    return figures_of(&seen_type, items);
}

static PyObject *file_join(file_object *self, PyObject *nothing);
static PyObject *file_user(file_object *self, PyObject *nothing);

static PyMethodDef file_methods[] = {
    {"close", (PyCFunction)file_close, METH_NOARGS, NULL},
    {"__enter__", (PyCFunction)file_enter, METH_NOARGS, NULL},
    {"__exit__", (PyCFunction)file_exit, METH_VARARGS, NULL},
    {"join", (PyCFunction)file_join, METH_NOARGS, NULL},
    {"user", (PyCFunction)file_user, METH_NOARGS, NULL},
    {"reap", (PyCFunction)(void *)file_reap, METH_VARARGS | METH_KEYWORDS, NULL},
    {"wait_full", (PyCFunction)(void *)file_wait_full, METH_VARARGS | METH_KEYWORDS, NULL},
    {"wait_empty", (PyCFunction)(void *)file_wait_empty, METH_VARARGS | METH_KEYWORDS, NULL},
    {"wait_bucket", (PyCFunction)(void *)file_wait_bucket, METH_VARARGS | METH_KEYWORDS, NULL},
    {"watch", (PyCFunction)file_watch, METH_NOARGS, NULL},
    {"arm", (PyCFunction)(void *)file_arm, METH_VARARGS | METH_KEYWORDS, NULL},
    {"life", (PyCFunction)file_life, METH_O, NULL},
    {"is_alive", (PyCFunction)file_is_alive, METH_VARARGS, NULL},
    {"info", (PyCFunction)file_info, METH_NOARGS, NULL},
    {"holder", (PyCFunction)file_holder, METH_O, NULL},
    {"look", (PyCFunction)file_look, METH_O, NULL},
    {NULL, NULL, 0, NULL},
};

static PyGetSetDef file_getters[] = {
    {"closed", (getter)file_closed, NULL, NULL, NULL},
    {NULL, NULL, NULL, NULL, NULL},
};

static PyTypeObject file_type = {
    PyVarObject_HEAD_INIT(NULL, 0).tp_name = "bb_memory.PoolFile",
    .tp_doc = "A pool in a file that this process has opened.",
    .tp_basicsize = sizeof(file_object),
    .tp_flags = Py_TPFLAGS_DEFAULT,
    .tp_new = file_new,
    .tp_dealloc = (destructor)file_dealloc,
    .tp_methods = file_methods,
    .tp_getset = file_getters,
};

//
// THE HOST'S OWN BYTES
//

// What a memoryview of the host's own bytes refers to.
typedef struct user_object {
    PyObject ob_base;
    file_object *owner;
} user_object;

static int user_get(user_object *self, Py_buffer *view, int flags) {
    file_object *owner = self->owner;
    void *place = owner->is_closed ? NULL : bb_pool_file_user(owner->file);
    if (place == NULL) {
        PyErr_SetString(PyExc_BufferError, "the file has no bytes of the host, or isn't open here");
        return -1;
    }
    const Py_ssize_t len = (Py_ssize_t)owner->user_bytes;
    if (PyBuffer_FillInfo(view, (PyObject *)self, place, len, 0, flags) != 0)
        return -1;
    owner->pins++;
    return 0;
}

static void user_release(user_object *self, Py_buffer *view) {
    (void)view;
    unpin_file(self->owner);
}

static void user_dealloc(user_object *self) {
    Py_DECREF(self->owner);
    Py_TYPE(self)->tp_free(self);
}

static PyBufferProcs user_buffer = {
    .bf_getbuffer = (getbufferproc)user_get,
    .bf_releasebuffer = (releasebufferproc)user_release,
};

static PyTypeObject user_type = {
    PyVarObject_HEAD_INIT(NULL, 0).tp_name = "bb_memory.UserBytes",
    .tp_doc = "The bytes of a file that are the host's own.",
    .tp_basicsize = sizeof(user_object),
    .tp_flags = Py_TPFLAGS_DEFAULT,
    .tp_dealloc = (destructor)user_dealloc,
    .tp_as_buffer = &user_buffer,
};

static PyObject *file_user(file_object *self, PyObject *nothing) {
    (void)nothing;
    if (!check_open(self))
        return NULL;
    user_object *user = PyObject_New(user_object, &user_type);
    if (user == NULL)
        return NULL;
    Py_INCREF(self);
    user->owner = self;
    PyObject *view = PyMemoryView_FromObject((PyObject *)user);
    Py_DECREF(user);
    return view;
}

//
// PARTIES
//

// A party, which leaves once `leave` was called and no view of its buckets is alive, or with the
// object.
typedef struct party_object {
    PyObject ob_base;
    file_object *owner;

    // The library's party, or NULL after it left. It is also gone once the file is closed.
    bb_file_party *party;

    // The thread that may use the party.
    unsigned long thread;

    // How many views of the party's buckets are alive.
    Py_ssize_t pins;

    // Whether `leave` was called.
    bool has_left;
} party_object;

static PyTypeObject party_type;

// Returns whether the library still has the party.
static bool is_joined(const party_object *self) {
    return self->owner->file != NULL && self->party != NULL;
}

static void leave_now(party_object *self) {
    if (is_joined(self))
        bb_pool_file_leave(self->owner->file, self->party);
    self->party = NULL;
}

static void unpin_party(party_object *self) {
    self->pins--;
    if (self->pins == 0 && self->has_left)
        leave_now(self);
    unpin_file(self->owner);
}

// Raises UninitializedError if the party has left, or RuntimeError if the caller is another thread
// than the party's.
static bool check_party(const party_object *self) {
    if (!check_open(self->owner))
        return false;
    if (self->has_left) {
        raise_code(BB_UNINITIALIZED, NULL);
        return false;
    }
    if (self->thread == PyThread_get_thread_ident())
        return true;
    PyErr_SetString(PyExc_RuntimeError,
                    "this party is another thread's: each thread has to join as one of its own");
    return false;
}

static PyObject *file_join(file_object *self, PyObject *nothing) {
    (void)nothing;
    if (!check_open(self))
        return NULL;
    party_object *party = PyObject_New(party_object, &party_type);
    if (party == NULL)
        return NULL;
    Py_INCREF(self);
    party->owner = self;
    party->party = NULL;
    party->thread = PyThread_get_thread_ident();
    party->pins = 0;
    party->has_left = false;
    const uint32_t code = bb_pool_file_join(self->file, &party->party);
    if (code == BB_OK)
        return (PyObject *)party;
    raise_code(code, self->path);
    Py_DECREF(party);
    return NULL;
}

static void party_dealloc(party_object *self) {
    leave_now(self);
    Py_DECREF(self->owner);
    Py_TYPE(self)->tp_free(self);
}

static PyObject *party_leave(party_object *self, PyObject *nothing) {
    (void)nothing;
    if (self->has_left || self->owner->is_closed)
        Py_RETURN_NONE;
    if (!check_party(self))
        return NULL;
    self->has_left = true;
    if (self->pins == 0)
        leave_now(self);
    Py_RETURN_NONE;
}

static PyObject *party_enter(party_object *self, PyObject *nothing) {
    (void)nothing;
    if (!check_party(self))
        return NULL;
    Py_INCREF(self);
    return (PyObject *)self;
}

static PyObject *party_exit(party_object *self, PyObject *args) {
    (void)args;
    return party_leave(self, NULL);
}

static PyObject *party_number(party_object *self, void *nothing) {
    (void)nothing;
    if (!check_party(self))
        return NULL;
    const bb_number number = bb_file_party_number(self->party);
    return number.code == BB_OK ? PyLong_FromSize_t(number.number) : raise_code(number.code, NULL);
}

static PyObject *party_life(party_object *self, void *nothing) {
    PyObject *number = party_number(self, nothing);
    if (number == NULL)
        return NULL;
    PyObject *life = file_life(self->owner, number);
    Py_DECREF(number);
    return life;
}

//
// BUCKETS
//

// Where a bucket is.
enum state {
    // The party doesn't hold it: it was posted, detached or freed.
    GONE,

    // The party holds it.
    HELD,

    // The party holds it, and its message is still in a slot.
    IN_SLOT
};

// A bucket that a party holds. With the object, its message is put back, or the bucket is freed.
typedef struct bucket_object {
    PyObject ob_base;
    party_object *party;
    void *place;
    size_t len;
    uint32_t slot;  // of the message that is still in it
    enum state state;

    // How many views are alive.
    Py_ssize_t views;

    // Whether the bucket is dropped once no view is alive.
    bool is_dropped;
} bucket_object;

static PyTypeObject bucket_type;

// Puts the message back, or frees the bucket, if the library still has the party.
static void drop_now(bucket_object *self) {
    party_object *party = self->party;
    if (is_joined(party) && self->state == IN_SLOT) {
        const bb_number number = bb_pool_file_detach(party->owner->file, party->party, self->place);
        (void)number;
    } else if (is_joined(party) && self->state == HELD) {
        bb_file_party_deallocate(party->party, self->place);
    }
    self->state = GONE;
}

static void bucket_dealloc(bucket_object *self) {
    drop_now(self);
    Py_DECREF(self->party);
    Py_TYPE(self)->tp_free(self);
}

// Makes an object for a bucket that the party is about to hold.
static bucket_object *new_bucket(party_object *party) {
    bucket_object *self = PyObject_New(bucket_object, &bucket_type);
    if (self == NULL)
        return NULL;
    Py_INCREF(party);
    self->party = party;
    self->place = NULL;
    self->len = 0;
    self->slot = BB_ANY_SLOT;
    self->state = GONE;
    self->views = 0;
    self->is_dropped = false;
    return self;
}

// Returns the object with a bucket that the party holds now, or frees it and raises the exception
// of the code.
static PyObject *bucket_or_raise(bucket_object *self, const bb_chunk *chunk) {
    if (chunk->code != BB_OK) {
        Py_DECREF(self);
        return raise_code(chunk->code, NULL);
    }
    self->place = chunk->place;
    self->len = self->party->owner->bucket_size;
    self->state = HELD;
    return (PyObject *)self;
}

static PyObject *party_bucket(party_object *self, PyObject *nothing) {
    (void)nothing;
    if (!check_party(self))
        return NULL;
    bucket_object *bucket = new_bucket(self);
    if (bucket == NULL)
        return NULL;
    const bb_chunk chunk = bb_file_party_take(self->party);
    return bucket_or_raise(bucket, &chunk);
}

static PyObject *party_attach(party_object *self, PyObject *object) {
    uint32_t number = 0;
    if (!to_number(object, &number) || !check_party(self))
        return NULL;
    bucket_object *bucket = new_bucket(self);
    if (bucket == NULL)
        return NULL;
    const bb_chunk chunk = bb_pool_file_attach(self->owner->file, self->party, number);
    return bucket_or_raise(bucket, &chunk);
}

static PyObject *party_take(party_object *self, PyObject *object) {
    uint32_t slot = 0;
    if (!to_number(object, &slot) || !check_party(self))
        return NULL;
    bucket_object *bucket = new_bucket(self);
    if (bucket == NULL)
        return NULL;
    const bb_message message = bb_pool_file_take(self->owner->file, self->party, slot);
    if (message.code == BB_OK) {
        bucket->place = message.place;
        bucket->len = message.len;
        bucket->slot = slot;
        bucket->state = IN_SLOT;
        return (PyObject *)bucket;
    }
    Py_DECREF(bucket);
    if (message.code == BB_DETACHED_EMPTY || message.code == BB_NOT_HELD)
        Py_RETURN_NONE;
    return raise_code(message.code, NULL);
}

// Posts a copy of the bytes. Returns the code.
static uint32_t post_copy(party_object *self, uint32_t slot, const Py_buffer *bytes) {
    if ((size_t)bytes->len > self->owner->bucket_size)
        return BB_SIZE_TOO_LARGE;
    const bb_chunk chunk = bb_file_party_take(self->party);
    if (chunk.code != BB_OK)
        return chunk.code;
    if (bytes->len > 0)
        memcpy(chunk.place, bytes->buf, (size_t)bytes->len);
    const uint32_t code =
        bb_pool_file_post(self->owner->file, self->party, slot, chunk.place, (size_t)bytes->len);
    if (code != BB_OK)
        bb_file_party_deallocate(self->party, chunk.place);
    return code;
}

static PyObject *party_post(party_object *self, PyObject *args) {
    uint32_t slot = 0;
    Py_buffer bytes;
    if (!PyArg_ParseTuple(args, "O&y*:post", to_number, &slot, &bytes))
        return NULL;
    if (!check_party(self)) {
        PyBuffer_Release(&bytes);
        return NULL;
    }
    const uint32_t code = post_copy(self, slot, &bytes);
    PyBuffer_Release(&bytes);
    if (code != BB_OK)
        return raise_code(code, NULL);
    Py_RETURN_NONE;
}

static PyMethodDef party_methods[] = {
    {"leave", (PyCFunction)party_leave, METH_NOARGS, NULL},
    {"__enter__", (PyCFunction)party_enter, METH_NOARGS, NULL},
    {"__exit__", (PyCFunction)party_exit, METH_VARARGS, NULL},
    {"bucket", (PyCFunction)party_bucket, METH_NOARGS, NULL},
    {"post", (PyCFunction)party_post, METH_VARARGS, NULL},
    {"take", (PyCFunction)party_take, METH_O, NULL},
    {"attach", (PyCFunction)party_attach, METH_O, NULL},
    {NULL, NULL, 0, NULL},
};

static PyGetSetDef party_getters[] = {
    {"number", (getter)party_number, NULL, NULL, NULL},
    {"life", (getter)party_life, NULL, NULL, NULL},
    {NULL, NULL, NULL, NULL, NULL},
};

static PyTypeObject party_type = {
    PyVarObject_HEAD_INIT(NULL, 0).tp_name = "bb_memory.Party",
    .tp_doc = "A party of a pool in a file, for the thread that joined.",
    .tp_basicsize = sizeof(party_object),
    .tp_flags = Py_TPFLAGS_DEFAULT,
    .tp_dealloc = (destructor)party_dealloc,
    .tp_methods = party_methods,
    .tp_getset = party_getters,
};

// Raises an exception if the caller may not use the bucket's party, or the bucket is gone.
static bool check_held(const bucket_object *self) {
    if (!check_party(self->party))
        return false;
    if (self->state != GONE && !self->is_dropped)
        return true;
    raise_code(BB_NOT_HELD, NULL);
    return false;
}

// Raises what `check_held` raises, or BufferError if a view is alive.
static bool check_unseen(const bucket_object *self) {
    if (!check_held(self))
        return false;
    if (self->views == 0)
        return true;
    PyErr_Format(PyExc_BufferError,
                 "views of the bucket are alive (%zd): delete or release them first", self->views);
    return false;
}

static PyObject *bucket_post(bucket_object *self, PyObject *args, PyObject *keywords) {
    static char *names[] = {"", "nbytes", NULL};
    uint32_t slot = 0;
    PyObject *nbytes = Py_None;
    size_t len = self->len;
    if (!PyArg_ParseTupleAndKeywords(args, keywords, "O&|O:post", names, to_number, &slot,
                                     &nbytes) ||
        (nbytes != Py_None && !to_size(nbytes, &len)) || !check_unseen(self))
        return NULL;
    const party_object *party = self->party;
    const uint32_t code =
        bb_pool_file_post(party->owner->file, party->party, slot, self->place, len);
    if (code != BB_OK)
        return raise_code(code, NULL);
    self->state = GONE;
    Py_RETURN_NONE;
}

static PyObject *bucket_detach(bucket_object *self, PyObject *nothing) {
    (void)nothing;
    if (!check_unseen(self))
        return NULL;
    const party_object *party = self->party;
    const bb_number number = bb_pool_file_detach(party->owner->file, party->party, self->place);
    if (number.code != BB_OK)
        return raise_code(number.code, NULL);
    self->state = GONE;
    return PyLong_FromSize_t(number.number);
}

static PyObject *bucket_free(bucket_object *self, PyObject *nothing) {
    (void)nothing;
    if (!check_unseen(self))
        return NULL;
    const uint32_t code = bb_file_party_deallocate(self->party->party, self->place);
    if (code != BB_OK)
        return raise_code(code, NULL);
    self->state = GONE;
    Py_RETURN_NONE;
}

static PyObject *bucket_done(bucket_object *self, PyObject *nothing) {
    (void)nothing;
    if (!check_held(self))
        return NULL;
    if (self->state != IN_SLOT)
        return raise_code(BB_NOT_HELD, NULL);
    const uint32_t code = bb_file_party_done(self->party->party, self->place);
    if (code != BB_OK)
        return raise_code(code, NULL);
    self->state = HELD;
    Py_RETURN_NONE;
}

static PyObject *bucket_enter(bucket_object *self, PyObject *nothing) {
    (void)nothing;
    if (!check_held(self))
        return NULL;
    Py_INCREF(self);
    return (PyObject *)self;
}

static PyObject *bucket_exit(bucket_object *self, PyObject *args) {
    PyObject *exception = NULL;
    PyObject *value = NULL;
    PyObject *traceback = NULL;
    if (!PyArg_ParseTuple(args, "OOO:__exit__", &exception, &value, &traceback))
        return NULL;
    if (self->state == GONE || self->is_dropped || !is_joined(self->party))
        Py_RETURN_NONE;
    if (!check_party(self->party))
        return NULL;
    if (self->state == IN_SLOT && exception == Py_None) {
        PyObject *none = bucket_done(self, NULL);
        if (none == NULL)
            return NULL;
        Py_DECREF(none);
    }
    self->is_dropped = true;
    if (self->views == 0)
        drop_now(self);
    Py_RETURN_NONE;
}

static PyObject *bucket_slot(bucket_object *self, void *nothing) {
    (void)nothing;
    if (self->state != IN_SLOT)
        Py_RETURN_NONE;
    return PyLong_FromUnsignedLong(self->slot);
}

static PyObject *bucket_nbytes(bucket_object *self, void *nothing) {
    (void)nothing;
    return PyLong_FromSize_t(self->len);
}

// Makes a view. It can't be written before the message is done, since another process may take the
// message again. A forked child has no memory to show.
static int bucket_get(bucket_object *self, Py_buffer *view, int flags) {
    party_object *party = self->party;
    const bool is_left = party->has_left || party->owner->is_closed || self->is_dropped;
    if (is_left || self->state == GONE || bb_file_party_number(party->party).code != BB_OK) {
        PyErr_SetString(PyExc_BufferError, "the party doesn't hold the bucket anymore");
        return -1;
    }
    const int is_readonly = self->state == IN_SLOT;
    const Py_ssize_t len = (Py_ssize_t)self->len;
    if (PyBuffer_FillInfo(view, (PyObject *)self, self->place, len, is_readonly, flags) != 0)
        return -1;
    self->views++;
    party->pins++;
    party->owner->pins++;
    return 0;
}

static void bucket_release(bucket_object *self, Py_buffer *view) {
    (void)view;
    self->views--;
    if (self->views == 0 && self->is_dropped)
        drop_now(self);
    unpin_party(self->party);
}

static PyMethodDef bucket_methods[] = {
    {"post", (PyCFunction)(void *)bucket_post, METH_VARARGS | METH_KEYWORDS, NULL},
    {"done", (PyCFunction)bucket_done, METH_NOARGS, NULL},
    {"detach", (PyCFunction)bucket_detach, METH_NOARGS, NULL},
    {"free", (PyCFunction)bucket_free, METH_NOARGS, NULL},
    {"__enter__", (PyCFunction)bucket_enter, METH_NOARGS, NULL},
    {"__exit__", (PyCFunction)bucket_exit, METH_VARARGS, NULL},
    {NULL, NULL, 0, NULL},
};

static PyGetSetDef bucket_getters[] = {
    {"slot", (getter)bucket_slot, NULL, NULL, NULL},
    {"nbytes", (getter)bucket_nbytes, NULL, NULL, NULL},
    {NULL, NULL, NULL, NULL, NULL},
};

static PyBufferProcs bucket_buffer = {
    .bf_getbuffer = (getbufferproc)bucket_get,
    .bf_releasebuffer = (releasebufferproc)bucket_release,
};

static PyTypeObject bucket_type = {
    PyVarObject_HEAD_INIT(NULL, 0).tp_name = "bb_memory.Bucket",
    .tp_doc = "A bucket that a party holds, with the buffer protocol.",
    .tp_basicsize = sizeof(bucket_object),
    .tp_flags = Py_TPFLAGS_DEFAULT,
    .tp_dealloc = (destructor)bucket_dealloc,
    .tp_methods = bucket_methods,
    .tp_getset = bucket_getters,
    .tp_as_buffer = &bucket_buffer,
};

//
// THE MODULE
//

static struct PyModuleDef module_definition = {
    PyModuleDef_HEAD_INIT,
    .m_name = "bb_memory._native",
    .m_doc = "The types of bb_memory.",
    .m_size = -1,
};

// Adds a type that the interpreter has made ready.
static bool add_type(PyObject *module, const char *name, PyTypeObject *type) {
    return PyObject_SetAttrString(module, name, (PyObject *)type) == 0;
}

static bool fill(PyObject *module) {
    return PyType_Ready(&file_type) == 0 && PyType_Ready(&user_type) == 0 &&
           PyType_Ready(&party_type) == 0 && PyType_Ready(&bucket_type) == 0 &&
           PyStructSequence_InitType2(&info_type, &info_description) == 0 &&
           PyStructSequence_InitType2(&holder_type, &holder_description) == 0 &&
           PyStructSequence_InitType2(&seen_type, &seen_description) == 0 &&
           add_type(module, "PoolFile", &file_type) && add_type(module, "Party", &party_type) &&
           add_type(module, "Bucket", &bucket_type) && add_type(module, "Info", &info_type) &&
           add_type(module, "Holder", &holder_type) &&
           add_type(module, "SeenMessage", &seen_type) && add_errors(module) &&
           PyModule_AddStringConstant(module, "__version__", bb_version()) == 0;
}

PyMODINIT_FUNC PyInit__native(void) {
    PyObject *module = PyModule_Create(&module_definition);
    if (module != NULL && !fill(module))
        Py_CLEAR(module);
    return module;
}
