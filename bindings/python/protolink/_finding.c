/*
 * Look-ups, each as one call of the interpreter: by name, and of what an item is. The module
 * protolink makes them by this extension where it was built, and by ctypes, which takes longer,
 * where it was not.
 *
 *     cc -O2 -shared -fPIC -I../../../include -I/usr/include/python3.11 _finding.c \
 *         -o _finding.abi3.so
 *
 * It calls the library that ctypes has loaded, by addresses, and needs no library itself. One build
 * serves Python 3.9 and all later versions (PEP 384).
 */
#define Py_LIMITED_API 0x03090000
#define PY_SSIZE_T_CLEAN
#include <Python.h>

#include <protolink.h>

#include <string.h>

#undef protolink_pool_find
#undef protolink_pool_find_path
#undef protolink_file_by_name

/* The calls of the library, and the pool in which they look. A call is passed a copy of the pool,
   as the header asks. */
typedef struct bound {
    __typeof__(&protolink_pool_find) find;
    __typeof__(&protolink_pool_find_path) find_path;
    __typeof__(&protolink_file_by_name) file_by_name;
    const protolink_pool *pool;
} bound;

/* A name, which is lent. */
typedef struct name {
    const uint8_t *bytes;
    size_t length;
} name;

/* How long a path may be that is had by one call. */
#define FEW 16

/* What a function is bound to, and the name that it is passed. Answers 0 where that is none. */
static int asked(PyObject *self, PyObject *passed, bound *by, name *what)
{
    char *bytes;
    Py_ssize_t length;
    if (PyBytes_AsStringAndSize(passed, &bytes, &length) != 0)
        return 0;
    memcpy(by, PyBytes_AsString(self), sizeof *by);
    what->bytes = (const uint8_t *)bytes;
    what->length = (size_t)length;
    return 1;
}

/* What a name means. Answers 0 where it means nothing. */
static int found_item(const bound *by, name what, protolink_item *item, uint32_t *file)
{
    protolink_pool view = *by->pool;
    return by->find(&view, what.bytes, what.length, item, file) == PROTOLINK_DONE;
}

static PyObject *tuple_of(const int32_t *numbers, size_t count)
{
    PyObject *tuple = PyTuple_New((Py_ssize_t)count);
    for (size_t at = 0; tuple != NULL && at < count; at++) {
        PyObject *number = PyLong_FromLong(numbers[at]);
        if (number == NULL || PyTuple_SetItem(tuple, (Py_ssize_t)at, number) != 0)
            Py_CLEAR(tuple);
    }
    return tuple;
}

/* The path of a name that means something. */
static PyObject *path_of(const bound *by, name what)
{
    int32_t few[FEW];
    size_t count = 0;
    protolink_pool view = *by->pool;
    protolink_status status = by->find_path(&view, what.bytes, what.length, few, FEW, &count);
    if (status != PROTOLINK_SHORT)
        return tuple_of(few, status == PROTOLINK_DONE ? count : 0);
    int32_t *many = PyMem_Malloc(count * sizeof *many);
    if (many == NULL)
        return PyErr_NoMemory();
    status = by->find_path(&view, what.bytes, what.length, many, count, &count);
    PyObject *path = tuple_of(many, status == PROTOLINK_DONE ? count : 0);
    PyMem_Free(many);
    return path;
}

/*
 * THE FUNCTIONS THAT LOOK UP.
 */
PyDoc_STRVAR(found_doc, "The kind, index, position and file of what a full name means, or None.");

static PyObject *found(PyObject *self, PyObject *passed)
{
    bound by;
    name what;
    protolink_item item;
    uint32_t file;
    if (!asked(self, passed, &by, &what))
        return NULL;
    if (!found_item(&by, what, &item, &file))
        Py_RETURN_NONE;
    return Py_BuildValue("IIII", item.kind, item.index, item.position, file);
}

PyDoc_STRVAR(defined_doc, "The same, and the path of the name in the record of the file.");

static PyObject *defined(PyObject *self, PyObject *passed)
{
    bound by;
    name what;
    protolink_item item;
    uint32_t file;
    if (!asked(self, passed, &by, &what))
        return NULL;
    if (!found_item(&by, what, &item, &file))
        Py_RETURN_NONE;
    PyObject *path = path_of(&by, what);
    if (path == NULL)
        return NULL;
    return Py_BuildValue("IIIIN", item.kind, item.index, item.position, file, path);
}

PyDoc_STRVAR(file_doc, "The index of the file with a name, or None.");

static PyObject *file_named(PyObject *self, PyObject *passed)
{
    bound by;
    name what;
    uint32_t file;
    if (!asked(self, passed, &by, &what))
        return NULL;
    protolink_pool view = *by.pool;
    if (by.file_by_name(&view, what.bytes, what.length, &file) != PROTOLINK_DONE)
        Py_RETURN_NONE;
    return PyLong_FromUnsignedLong(file);
}

static PyMethodDef LOOK_UPS[] = {
    {"found", found, METH_O, found_doc},
    {"defined", defined, METH_O, defined_doc},
    {"file", file_named, METH_O, file_doc},
};

/*
 * THE FUNCTIONS THAT ASK FOR ITEMS. Each is bound to calls of the library, and is passed the address
 * of a pool first.
 */

/* A call that writes what an item is, and the layout of that: a letter of the module struct for each
   member. It takes the index of the item, or its index and its position. */
typedef struct info_call {
    uintptr_t at;
    unsigned numbers;
    char layout[32];
} info_call;

typedef protolink_status (*by_index)(protolink_pool *, uint32_t, void *);
typedef protolink_status (*by_position)(protolink_pool *, uint32_t, uint32_t, void *);

/* A call that writes a text of an item. */
typedef protolink_status (*text_call)(
    protolink_pool *, const protolink_item *, uint8_t *, size_t, size_t *);

/* A call that tells of the parts of an item, and one that writes their names. */
typedef struct part_call {
    info_call info;
    text_call name;
    uint32_t kind;
} part_call;

/* Room for what an item is: as large and as aligned as any. */
typedef union info_room {
    protolink_message_info message;
    unsigned char bytes[sizeof(protolink_message_info)];
} info_room;

/* How long a text may be that is had by one call. */
#define SHORT_TEXT 256

/* The members of what an item is, as numbers. */
static PyObject *members(const info_call *call, const unsigned char *bytes)
{
    PyObject *tuple = PyTuple_New((Py_ssize_t)strlen(call->layout));
    size_t offset = 0;
    for (Py_ssize_t at = 0; tuple != NULL && call->layout[at] != 0; at++) {
        uint64_t wide = 0;
        uint32_t narrow = 0;
        size_t size = call->layout[at] == 'Q' ? sizeof wide : sizeof narrow;
        offset = (offset + size - 1) / size * size;
        if (size == sizeof wide)
            memcpy(&wide, bytes + offset, size);
        else
            memcpy(&narrow, bytes + offset, size);
        offset += size;
        PyObject *number = call->layout[at] == 'Q'   ? PyLong_FromUnsignedLongLong(wide)
                           : call->layout[at] == 'i' ? PyLong_FromLong((int32_t)narrow)
                                                     : PyLong_FromUnsignedLong(narrow);
        if (number == NULL || PyTuple_SetItem(tuple, at, number) != 0)
            Py_CLEAR(tuple);
    }
    return tuple;
}

/* What an item is, or None. */
static PyObject *info_of(const info_call *call, const protolink_pool *pool, protolink_item item)
{
    info_room room;
    protolink_pool view = *pool;
    protolink_status status =
        call->numbers == 1 ? ((by_index)call->at)(&view, item.index, &room)
                           : ((by_position)call->at)(&view, item.index, item.position, &room);
    if (status != PROTOLINK_DONE)
        Py_RETURN_NONE;
    return members(call, room.bytes);
}

/* A text of an item as `made` makes it of its bytes, or None. */
static PyObject *text_of(
    text_call call, const protolink_pool *pool, protolink_item item,
    PyObject *(*made)(const char *, Py_ssize_t))
{
    uint8_t few[SHORT_TEXT];
    size_t length = 0;
    protolink_pool view = *pool;
    protolink_status status = call(&view, &item, few, sizeof few, &length);
    if (status == PROTOLINK_DONE)
        return made((const char *)few, (Py_ssize_t)length);
    if (status == PROTOLINK_NO_MEMORY)
        return PyErr_NoMemory();
    if (status != PROTOLINK_SHORT)
        Py_RETURN_NONE;
    uint8_t *many = PyMem_Malloc(length);
    if (many == NULL)
        return PyErr_NoMemory();
    status = call(&view, &item, many, length, &length);
    PyObject *text =
        made((const char *)many, status == PROTOLINK_DONE ? (Py_ssize_t)length : 0);
    PyMem_Free(many);
    return text;
}

static PyObject *decoded(const char *bytes, Py_ssize_t length)
{
    return PyUnicode_DecodeUTF8(bytes, length, NULL);
}

/* The numbers of a tuple: the address of a pool first. Answers 0 where they are others. */
static int numbers_of(PyObject *args, const protolink_pool **pool, uint32_t *numbers, int count)
{
    if (PyTuple_Size(args) != count + 1) {
        PyErr_SetString(PyExc_TypeError, "a pool and the numbers of an item are wanted");
        return 0;
    }
    *pool = PyLong_AsVoidPtr(PyTuple_GetItem(args, 0));
    for (int at = 0; at < count && !PyErr_Occurred(); at++)
        numbers[at] = (uint32_t)PyLong_AsUnsignedLong(PyTuple_GetItem(args, at + 1));
    return !PyErr_Occurred();
}

PyDoc_STRVAR(info_doc, "What the item at an index and a position is, as a tuple, or None.");

static PyObject *info(PyObject *self, PyObject *args)
{
    const protolink_pool *pool;
    uint32_t numbers[2];
    if (!numbers_of(args, &pool, numbers, 2))
        return NULL;
    protolink_item item = {0, numbers[0], numbers[1]};
    return info_of((const info_call *)PyBytes_AsString(self), pool, item);
}

PyDoc_STRVAR(text_doc, "A text of the item of a kind at an index and a position, or None.");

static PyObject *text(PyObject *self, PyObject *args)
{
    const protolink_pool *pool;
    uint32_t numbers[3];
    text_call call;
    if (!numbers_of(args, &pool, numbers, 3))
        return NULL;
    memcpy(&call, PyBytes_AsString(self), sizeof call);
    protolink_item item = {numbers[0], numbers[1], numbers[2]};
    return text_of(call, pool, item, PyBytes_FromStringAndSize);
}

/* A part of an item: its name, and what it is; or None. */
static PyObject *part_of(const part_call *call, const protolink_pool *pool, protolink_item item)
{
    PyObject *told = info_of(&call->info, pool, item);
    if (told == NULL || told == Py_None)
        return told;
    PyObject *name = text_of(call->name, pool, item, decoded);
    if (name == NULL || name == Py_None) {
        Py_DECREF(told);
        return name;
    }
    return Py_BuildValue("NN", name, told);
}

PyDoc_STRVAR(
    parts_doc,
    "The first parts of the item at an index, as many as are wanted, each as its name and what it is;\n"
    "or None. Of a kind that is no part, as many items from the index on.");

static PyObject *parts(PyObject *self, PyObject *args)
{
    const protolink_pool *pool;
    uint32_t numbers[2];
    if (!numbers_of(args, &pool, numbers, 2))
        return NULL;
    const part_call *call = (const part_call *)PyBytes_AsString(self);
    PyObject *list = PyList_New(0);
    for (uint32_t at = 0; list != NULL && at < numbers[1]; at++) {
        int is_whole = call->info.numbers == 1;
        protolink_item item = {
            call->kind, is_whole ? numbers[0] + at : numbers[0], is_whole ? 0 : at};
        PyObject *part = part_of(call, pool, item);
        if (part == Py_None) {
            Py_DECREF(list);
            return part;
        }
        if (part == NULL || PyList_Append(list, part) != 0)
            Py_CLEAR(list);
        Py_XDECREF(part);
    }
    return list;
}

static PyMethodDef ASKERS[] = {
    {"info", info, METH_VARARGS, info_doc},
    {"text", text, METH_VARARGS, text_doc},
    {"parts", parts, METH_VARARGS, parts_doc},
};

/* A function that is bound to something of a size. */
static PyObject *bound_to(PyMethodDef *method, const void *what, size_t size)
{
    PyObject *self = PyBytes_FromStringAndSize(what, (Py_ssize_t)size);
    if (self == NULL)
        return NULL;
    PyObject *made = PyCFunction_NewEx(method, self, NULL);
    Py_DECREF(self);
    return made;
}

/* A call that tells of items, of its address, how many numbers it takes, and its layout. */
static int made_info_call(
    info_call *call, unsigned long long at, unsigned numbers, const char *layout)
{
    if (strlen(layout) >= sizeof call->layout) {
        PyErr_SetString(PyExc_ValueError, "a layout is too long");
        return 0;
    }
    memset(call, 0, sizeof *call);
    call->at = (uintptr_t)at;
    call->numbers = numbers;
    strcpy(call->layout, layout);
    return 1;
}

PyDoc_STRVAR(
    teller_doc,
    "teller(call, numbers, layout): the function info, which takes the address of a pool, an index\n"
    "and a position. Passed are the address of a call of the library, how many of the two numbers\n"
    "it takes, and the layout of what it writes, in the letters I, i and Q of the module struct.");

static PyObject *teller(PyObject *module, PyObject *args)
{
    (void)module;
    unsigned long long at;
    unsigned numbers;
    const char *layout;
    info_call call;
    if (!PyArg_ParseTuple(args, "KIs:teller", &at, &numbers, &layout)
        || !made_info_call(&call, at, numbers, layout))
        return NULL;
    return bound_to(&ASKERS[0], &call, sizeof call);
}

PyDoc_STRVAR(
    texter_doc,
    "texter(call): the function text, which takes the address of a pool, a kind, an index and a\n"
    "position. Passed is the address of a call of the library that writes a text of an item.");

static PyObject *texter(PyObject *module, PyObject *args)
{
    (void)module;
    unsigned long long at;
    if (!PyArg_ParseTuple(args, "K:texter", &at))
        return NULL;
    text_call call = (text_call)(uintptr_t)at;
    return bound_to(&ASKERS[1], &call, sizeof call);
}

PyDoc_STRVAR(
    lister_doc,
    "lister(call, numbers, layout, name, kind): the function parts, which takes the address of a\n"
    "pool, the index of an item and a number of its parts. Passed are what teller takes, the address\n"
    "of the call that writes the name of an item, and the kind of the parts.");

static PyObject *lister(PyObject *module, PyObject *args)
{
    (void)module;
    unsigned long long at, name;
    unsigned numbers;
    const char *layout;
    part_call call;
    memset(&call, 0, sizeof call);
    if (!PyArg_ParseTuple(args, "KIsKI:lister", &at, &numbers, &layout, &name, &call.kind)
        || !made_info_call(&call.info, at, numbers, layout))
        return NULL;
    call.name = (text_call)(uintptr_t)name;
    return bound_to(&ASKERS[2], &call, sizeof call);
}

PyDoc_STRVAR(
    finders_doc,
    "finders(find, find_path, file_by_name, pool): the functions found, defined and file, which\n"
    "take a name as bytes. Passed are the addresses of the calls of the library, and of a pool that\n"
    "lives as long as the functions.");

static PyObject *finders(PyObject *module, PyObject *args)
{
    (void)module;
    unsigned long long find, find_path, file_by_name, pool;
    if (!PyArg_ParseTuple(args, "KKKK:finders", &find, &find_path, &file_by_name, &pool))
        return NULL;
    bound by;
    by.find = (__typeof__(by.find))(uintptr_t)find;
    by.find_path = (__typeof__(by.find_path))(uintptr_t)find_path;
    by.file_by_name = (__typeof__(by.file_by_name))(uintptr_t)file_by_name;
    by.pool = (const protolink_pool *)(uintptr_t)pool;
    PyObject *self = PyBytes_FromStringAndSize((const char *)&by, sizeof by);
    if (self == NULL)
        return NULL;
    PyObject *made = Py_BuildValue(
        "NNN", PyCFunction_NewEx(&LOOK_UPS[0], self, NULL),
        PyCFunction_NewEx(&LOOK_UPS[1], self, NULL), PyCFunction_NewEx(&LOOK_UPS[2], self, NULL));
    Py_DECREF(self);
    return made;
}

static PyMethodDef CALLS[] = {
    {"finders", finders, METH_VARARGS, finders_doc},
    {"teller", teller, METH_VARARGS, teller_doc},
    {"texter", texter, METH_VARARGS, texter_doc},
    {"lister", lister, METH_VARARGS, lister_doc},
    {NULL, NULL, 0, NULL},
};

static PyModuleDef_Slot SLOTS[] = {{0, NULL}};

static PyModuleDef MODULE = {
    PyModuleDef_HEAD_INIT, "_finding", NULL, 0, CALLS, SLOTS, NULL, NULL, NULL,
};

PyMODINIT_FUNC PyInit__finding(void)
{
    return PyModuleDef_Init(&MODULE);
}
