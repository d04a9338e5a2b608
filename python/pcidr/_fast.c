/* What addresses, hosts and networks have of the library, as `_shown.py` has it by `ctypes`: each call passes values to
 * libpcidr, and has no logic of its own. For the stable ABI from Python 3.11 on.
 *
 * `connect` loads the library, and `register` says what the module's classes and functions are.
 *
 * What the header of a later Python makes of it runs by 3.11, too: so None and NotImplemented are returned by `Py_NewRef`,
 * since the macros for it add no reference there, and no format has a `#`, whose sizes are ints then. */
#define Py_LIMITED_API 0x030b0000
#include <Python.h>
#include <dlfcn.h>
#include <stddef.h>
#include <string.h>
#include <structmember.h>

#include "pcidr.h"

typedef uint32_t (*reader)(const char *, size_t, pcidr_value *);
typedef size_t (*printer)(const pcidr_value *, char *, size_t);
typedef uint32_t (*comparer)(const pcidr_value *, const pcidr_value *);
typedef uint32_t (*question)(const pcidr_value *);
typedef uint32_t (*part)(pcidr_value, pcidr_value *);
typedef uint32_t (*step)(pcidr_value, uint64_t, uint64_t, pcidr_value *);

/* The calls of the library that are made here, named as those of the header but without the `pcidr_`. */
#define CALLS(of)                                                                                                      \
    of(read_address) of(read_host) of(read_network) of(print_address) of(print_host) of(print_network)                 \
    of(print_host_with_length) of(print_network_with_length) of(print_with_mask) of(print_with_host_mask)              \
    of(print_host_with_mask) of(print_host_with_host_mask) of(print_exploded_address) of(print_exploded_host)          \
    of(print_reverse_name) of(compare) of(compare_hosts) of(contains) of(overlaps) of(is_private) of(is_loopback)      \
    of(is_link_local) of(is_multicast) of(is_unspecified) of(is_documentation) of(is_global) of(first_by_value)        \
    of(last_by_value) of(mask_by_value) of(host_mask_by_value) of(address_by_value) of(network_by_value)               \
    of(first_usable_by_value) of(last_usable_by_value) of(next_network_by_value) of(previous_network_by_value)         \
    of(sibling_by_value) of(ipv6_mapped_by_value) of(ipv4_mapped_by_value) of(ipv4_6to4_by_value)                      \
    of(ipv4_nat64_by_value) of(step_up_by_value) of(step_down_by_value) of(nth_by_value) of(special_entry)             \
    of(ipv4_table_lookup) of(ipv6_table_lookup) of(rows_longest) of(file_lookup) of(set_has)

#define DECLARED(name) static __typeof__(&pcidr_##name) name;
CALLS(DECLARED)

/* Of the module: the classes, `Value` of `ctypes`, and what is called where there is no quick way. */
static PyObject *address_class, *network_class, *value_class, *check_code, *network_value, *entry_made, *counts;

typedef struct {
    PyObject_HEAD
    pcidr_value value;
    PyObject *weak; /* references to it */
} shown;

static PyTypeObject *shown_type;

/* A host or a network, with two parts of it, once they have been asked for. */
typedef struct {
    shown shown;
    PyObject *kept[2];
} keeper;

/* The interpreter that all of these are of. There is one of each, and others do without this module. */
static int64_t owner = -1;

static int is_owned(void) {
    int64_t asking = PyInterpreterState_GetID(PyInterpreterState_Get());
    if (owner < 0) owner = asking;
    if (owner == asking) return 1;
    PyErr_SetString(PyExc_ImportError, "pcidr._fast is of another interpreter");
    return 0;
}

static pcidr_value *value_in(PyObject *self) {
    return &((shown *)self)->value;
}

/* A new object of a class with a value. */
static PyObject *made_of(PyObject *class, const pcidr_value *value) {
    PyObject *made = PyType_GenericAlloc((PyTypeObject *)class, 0);
    if (made) *value_in(made) = *value;
    return made;
}

/* Copies the value out of a `Value` of `ctypes`. */
static int copied(PyObject *given, pcidr_value *value) {
    Py_buffer buffer;
    if (PyObject_GetBuffer(given, &buffer, PyBUF_SIMPLE)) return -1;
    int is_value = buffer.len == (Py_ssize_t)sizeof *value;
    if (is_value) memcpy(value, buffer.buf, sizeof *value);
    PyBuffer_Release(&buffer);
    if (!is_value) PyErr_SetString(PyExc_TypeError, "no value of the library");
    return is_value ? 0 : -1;
}

/* Raises the exception of an error, which names what was given, one object or two. */
static void *raised(uint32_t code, PyObject *given, PyObject *more) {
    PyObject *number = PyLong_FromUnsignedLong(code);
    PyObject *none = number ? PyObject_CallFunctionObjArgs(check_code, number, given, more, NULL) : NULL;
    Py_XDECREF(number);
    Py_XDECREF(none);
    return NULL;
}

/* Reads a string, which is no UTF-8 where it has half of a pair. */
static int read_string(reader read, PyObject *given, pcidr_value *value) {
    Py_ssize_t size;
    const char *text = PyUnicode_AsUTF8AndSize(given, &size);
    if (!text && !PyErr_ExceptionMatches(PyExc_UnicodeEncodeError)) return -1;
    if (!text) PyErr_Clear();
    uint32_t code = text ? read(text, (size_t)size, value) : PCIDR_NOT_UTF8;
    if (code) raised(code, given, NULL);
    return code ? -1 : 0;
}

/* ---- what all have alike */

/* A tag of no value, which `__init__` replaces: a class below that leaves it out has no network of all addresses. */
enum { NO_TAG = 63 };

static PyObject *shown_new(PyTypeObject *type, PyObject *arguments, PyObject *named) {
    (void)arguments, (void)named;
    PyObject *made = PyType_GenericAlloc(type, 0);
    if (made) value_in(made)->tag = NO_TAG;
    return made;
}

static void shown_dealloc(PyObject *self) {
    PyTypeObject *type = Py_TYPE(self);
    if (((shown *)self)->weak) PyObject_ClearWeakRefs(self);
    ((freefunc)PyType_GetSlot(type, Py_tp_free))(self);
    Py_DECREF(type);
}

/* Of its fields as bytes, into whose hash Python mixes a secret of the process, as it doesn't into that of numbers. */
static Py_hash_t shown_hash(PyObject *self) {
    pcidr_value *value = value_in(self);
    char fields[sizeof value->high + sizeof value->low + sizeof value->tag];
    memcpy(fields, &value->high, sizeof value->high);
    memcpy(fields + sizeof value->high, &value->low, sizeof value->low);
    fields[sizeof value->high + sizeof value->low] = (char)value->tag;
    PyObject *key = PyBytes_FromStringAndSize(fields, sizeof fields);
    if (!key) return -1;
    Py_hash_t hash = PyObject_Hash(key);
    Py_DECREF(key);
    return hash;
}

static PyObject *shown_value(PyObject *self, void *unused) {
    (void)unused;
    pcidr_value *value = value_in(self);
    if (value->tag == NO_TAG) return PyErr_Format(PyExc_ValueError, "no __init__ has set the value");
    return PyObject_CallFunction(value_class, "KKB", (unsigned long long)value->high, (unsigned long long)value->low,
                                 value->tag);
}

static PyObject *shown_of(PyObject *class, PyObject *given) {
    pcidr_value value;
    return copied(given, &value) ? NULL : made_of(class, &value);
}

static PyObject *shown_become(PyObject *self, PyObject *given) {
    if (copied(given, value_in(self))) return NULL;
    return Py_NewRef(Py_None);
}

/* The version, the prefix length and the largest one, by the letters that stand for them. */
static PyObject *number_by(PyObject *self, void *letter) {
    uint8_t tag = value_in(self)->tag;
    int is_wide = tag >= 64;
    if (tag == 255) return Py_NewRef(Py_None);
    switch (*(const char *)letter) {
        case 'v': return PyLong_FromLong(is_wide ? 6 : 4);
        case 'p': return PyLong_FromLong(is_wide ? tag - 64 : tag);
        default: return PyLong_FromLong(is_wide ? 128 : 32);
    }
}

/* The masks that have been asked for, and the host masks, by the tags of values. */
static PyObject *kept_masks[2][256];

/* What a call of the library makes of a value, or None where it says that there is none. */
static PyObject *part_of(PyObject *self, part call, PyObject *class) {
    pcidr_value out;
    uint32_t code = call(*value_in(self), &out);
    if (!code) return made_of(class, &out);
    return code == PCIDR_NONE ? Py_NewRef(Py_None) : raised(code, self, NULL);
}

/* The mask, or the host mask, of a value, of which there is one object for each prefix length. */
static PyObject *mask_by(PyObject *self, void *call) {
    PyObject **kept = &kept_masks[call == &host_mask_by_value][value_in(self)->tag];
    if (*kept) return Py_NewRef(*kept);
    PyObject *made = part_of(self, *(part *)call, address_class);
    if (made && !*kept) *kept = Py_NewRef(made);
    return made;
}

/* An address, and a value of the same kind. */
static PyObject *address_by(PyObject *self, void *call) {
    return part_of(self, *(part *)call, address_class);
}

static PyObject *same_by(PyObject *self, void *call) {
    return part_of(self, *(part *)call, (PyObject *)Py_TYPE(self));
}

/* What the library printed, which is all ASCII. */
static PyObject *string_of(const char *room, size_t length) {
    return PyUnicode_DecodeASCII(room, (Py_ssize_t)length, NULL);
}

/* A string with a prefix length or a mask; `any` has no mask. */
static PyObject *string_by(PyObject *self, void *print) {
    char room[PCIDR_MASK_ROOM];
    size_t length = (*(printer *)print)(value_in(self), room, sizeof room);
    if (length) return string_of(room, length);
    return PyErr_Format(PyExc_ValueError, "any has addresses of two families");
}

/* The name in reverse DNS of a value, which is that of an object or a part of it. */
static PyObject *name_of(PyObject *self, const pcidr_value *value) {
    char room[PCIDR_NAME_ROOM];
    size_t length = print_reverse_name(value, room, sizeof room);
    if (length) return string_of(room, length);
    return PyErr_Format(PyExc_ValueError, "%S has no name in reverse DNS", self);
}

static PyObject *shown_name(PyObject *self, void *unused) {
    (void)unused;
    return name_of(self, value_in(self));
}

/* The bytes of an address, the highest first, and how many they are. */
static Py_ssize_t packed_into(const pcidr_value *address, unsigned char *out) {
    Py_ssize_t width = address->tag < 64 ? 4 : 16;
    for (Py_ssize_t place = 0; place < width; place++) {
        Py_ssize_t above = width - 1 - place;
        out[place] = (unsigned char)((above < 8 ? address->low : address->high) >> 8 * (above % 8));
    }
    return width;
}

/* Those of an address, or of the address of a host, and its number. */
static PyObject *shown_packed(PyObject *self, void *unused) {
    (void)unused;
    unsigned char packed[16];
    return PyBytes_FromStringAndSize((char *)packed, packed_into(value_in(self), packed));
}

static PyObject *shown_int(PyObject *self) {
    pcidr_value *value = value_in(self);
    if (!value->high) return PyLong_FromUnsignedLongLong(value->low);
    PyObject *packed = shown_packed(self, NULL);
    PyObject *number = packed ? PyObject_CallMethod((PyObject *)&PyLong_Type, "from_bytes", "Os", packed, "big") : NULL;
    Py_XDECREF(packed);
    return number;
}

static PyMethodDef shown_methods[] = {
    {"_of", shown_of, METH_O | METH_CLASS, NULL},
    {"_become", shown_become, METH_O, NULL},
    {NULL, NULL, 0, NULL},
};

static PyGetSetDef shown_attributes[] = {
    {"_value", shown_value, NULL, NULL, NULL},
    {"version", number_by, NULL, "4 or 6, or None for the network `any`.", "v"},
    {"prefixlen", number_by, NULL, "The prefix length, or None for the network `any`.", "p"},
    {"max_prefixlen", number_by, NULL, "The number of bits of an address: 32 or 128.", "m"},
    {"first", address_by, NULL, "The first address of the network; `any` raises `ValueError`.", &first_by_value},
    {"last", address_by, NULL, "The last address of the network, as `first` has the first one.", &last_by_value},
    {"netmask", mask_by, NULL, "The mask of the network, as an address; `any` raises `ValueError`.", &mask_by_value},
    {"hostmask", mask_by, NULL, "The inverse of the mask, as an address.", &host_mask_by_value},
    {NULL, NULL, NULL, NULL, NULL},
};

static PyMemberDef shown_members[] = {
    {"__weaklistoffset__", T_PYSSIZET, offsetof(shown, weak), READONLY, NULL},
    {NULL, 0, 0, 0, NULL},
};

static PyType_Slot shown_slots[] = {
    {Py_tp_doc, "A value of the library, which never changes."},
    {Py_tp_new, shown_new},
    {Py_tp_dealloc, shown_dealloc},
    {Py_tp_hash, shown_hash},
    {Py_tp_methods, shown_methods},
    {Py_tp_members, shown_members},
    {Py_tp_getset, shown_attributes},
    {0, NULL},
};

/* ---- what depends on the kind */

static int filled(PyObject *self, PyObject *arguments, PyObject *named, reader read) {
    PyObject *given;
    char *names[] = {"given", NULL};
    if (named || PyTuple_Size(arguments) != 1) {
        if (!PyArg_ParseTupleAndKeywords(arguments, named, "O", names, &given)) return -1;
    } else {
        given = PyTuple_GetItem(arguments, 0);
    }
    if (PyUnicode_Check(given)) return read_string(read, given, value_in(self));
    PyObject *value = PyObject_CallMethod(self, "_read_other", "(O)", given);
    int failed = !value || copied(value, value_in(self));
    Py_XDECREF(value);
    return failed ? -1 : 0;
}

static PyObject *printed(PyObject *self, printer print) {
    char room[PCIDR_TEXT_ROOM];
    return string_of(room, print(value_in(self), room, sizeof room));
}

static PyObject *compared(PyObject *self, PyObject *other, int operation, comparer compare_by) {
    if (Py_TYPE(self) != Py_TYPE(other)) return Py_NewRef(Py_NotImplemented);
    int order = (int)compare_by(value_in(self), value_in(other)) - 1;
    switch (operation) {
        case Py_LT: return PyBool_FromLong(order < 0);
        case Py_LE: return PyBool_FromLong(order <= 0);
        case Py_EQ: return PyBool_FromLong(order == 0);
        case Py_NE: return PyBool_FromLong(order != 0);
        case Py_GT: return PyBool_FromLong(order > 0);
        default: return PyBool_FromLong(order >= 0);
    }
}

/* How values of a kind are made, printed and compared, and the slots for it. */
#define KIND(name, read, print, compare_by)                                                                            \
    static int name##_init(PyObject *self, PyObject *arguments, PyObject *named) {                                     \
        return filled(self, arguments, named, read);                                                                   \
    }                                                                                                                  \
    static PyObject *name##_str(PyObject *self) {                                                                      \
        return printed(self, print);                                                                                   \
    }                                                                                                                  \
    static PyObject *name##_compare(PyObject *self, PyObject *other, int operation) {                                  \
        return compared(self, other, operation, compare_by);                                                           \
    }

KIND(address, read_address, print_address, compare)
KIND(host, read_host, print_host, compare_hosts)
KIND(network, read_network, print_network, compare)

#define SLOTS_OF(name) {Py_tp_init, name##_init}, {Py_tp_str, name##_str}, {Py_tp_richcompare, name##_compare}, {Py_tp_hash, shown_hash}

/* The attributes by which all kinds are asked, which `answer` answers. */
#define QUESTIONS(answer)                                                                                              \
    {"is_private", answer, NULL, "Whether it is private (RFC 1918), or unique-local (RFC 4193).", &is_private},        \
    {"is_loopback", answer, NULL, "Whether it is in 127.0.0.0/8, or is ::1.", &is_loopback},                           \
    {"is_link_local", answer, NULL, "Whether it is in 169.254.0.0/16 or fe80::/10.", &is_link_local},                  \
    {"is_multicast", answer, NULL, "Whether it is in 224.0.0.0/4 or ff00::/8.", &is_multicast},                        \
    {"is_unspecified", answer, NULL, "Whether it is 0.0.0.0 or ::.", &is_unspecified},                                 \
    {"is_documentation", answer, NULL, "Whether it is in a block for documentation.", &is_documentation}

/* What addresses and networks have alike. */
#define MAPPED                                                                                                         \
    {"ipv6_mapped", same_by, NULL, "That of the IPv4-mapped addresses; None of IPv6.", &ipv6_mapped_by_value},         \
    {"ipv4_mapped", same_by, NULL, "The inverse; None outside of ::ffff:0:0/96.", &ipv4_mapped_by_value},              \
    {"reverse_pointer", shown_name, NULL, "Its domain name in reverse DNS.", NULL}

/* What addresses and hosts have alike. */
#define PACKED {"packed", shown_packed, NULL, "The bytes of the address, the highest first: 4 or 16.", NULL}

/* What all have alike, by other calls. */
#define SHOWN_BY(plain, whole)                                                                                         \
    {"compressed", string_by, NULL, "The string, with the prefix length of one also where that is full.", &plain},     \
    {"exploded", string_by, NULL, "The same with all digits of IPv6, eight groups of four.", &whole}

/* What a call says of an address or a network. */
static PyObject *shown_answer(PyObject *self, void *call) {
    return PyBool_FromLong((*(question *)call)(value_in(self)) == 1);
}

/* The entries of the registries of IANA that addresses were asked for, each where its block puts it: which one an address has
 * the library says at each call, and what Python has of it is made once. There are 51, of which no two have one place by this
 * number; if two had, each would be made anew behind the other. */
static struct kept {
    pcidr_special said;
    uint8_t tag; /* of the block */
    PyObject *entry;
} kept_entries[256];

static struct kept *kept_at(const pcidr_special *said) {
    uint64_t mixed = (said->high ^ said->low << 17 ^ said->len) * 0xed2f89d94a2f20ab;
    return &kept_entries[mixed >> 56];
}

static PyObject *address_special_entry(PyObject *self, void *unused) {
    (void)unused;
    pcidr_special said;
    memset(&said, 0, sizeof said); /* also what lies between its fields, since all is compared */
    uint32_t code = special_entry(value_in(self), &said);
    if (code) return code == PCIDR_NONE ? Py_NewRef(Py_None) : raised(code, self, NULL);
    uint8_t tag = (uint8_t)((value_in(self)->tag < 64 ? 0 : 64) + said.len);
    struct kept *kept = kept_at(&said);
    if (kept->entry && kept->tag == tag && !memcmp(&kept->said, &said, sizeof said)) return Py_NewRef(kept->entry);
    PyObject *made = PyObject_CallFunction(entry_made, "KKBBHBBBBB", (unsigned long long)said.high,
                                           (unsigned long long)said.low, tag, said.purpose, said.rfc, said.source,
                                           said.destination, said.forwardable, said.globally_reachable,
                                           said.reserved_by_protocol);
    if (!made) return NULL;
    PyObject *before = kept->entry; /* perhaps what another thread has put there meanwhile */
    memcpy(&kept->said, &said, sizeof said);
    kept->tag = tag;
    kept->entry = Py_NewRef(made);
    Py_XDECREF(before);
    return made;
}

/* Whether a number is below 0, and the halves of how far it is from 0: 1, or 0 where that has more than 128 bits, and -1 after an
 * exception. */
static int halves_of(PyObject *number, int *is_below, unsigned long long *high, unsigned long long *low) {
    int beyond;
    long long small = PyLong_AsLongLongAndOverflow(number, &beyond);
    *is_below = beyond ? beyond < 0 : small < 0;
    *high = 0, *low = *is_below ? 0 - (unsigned long long)small : (unsigned long long)small;
    if (!beyond) return small == -1 && PyErr_Occurred() ? -1 : 1;
    PyObject *exact = PyNumber_Index(number); /* without the methods of a class below */
    PyObject *size = exact ? PyNumber_Absolute(exact) : NULL, *bits = PyLong_FromLong(64);
    PyObject *above = size && bits ? PyNumber_Rshift(size, bits) : NULL;
    if (above) *low = PyLong_AsUnsignedLongLongMask(size), *high = PyLong_AsUnsignedLongLong(above);
    int fits = above && !PyErr_Occurred(), is_long = above && PyErr_ExceptionMatches(PyExc_OverflowError);
    Py_XDECREF(exact);
    Py_XDECREF(size);
    Py_XDECREF(bits);
    Py_XDECREF(above);
    if (is_long) PyErr_Clear();
    return fits ? 1 : is_long ? 0 : -1;
}

/* The address so many further in its family, by a step of the library in the network of all its addresses. */
static PyObject *moved(PyObject *self, PyObject *count, int is_back) {
    if (!PyObject_TypeCheck(self, shown_type) || !PyLong_Check(count)) return Py_NewRef(Py_NotImplemented);
    unsigned long long high, low;
    int is_below, fits = halves_of(count, &is_below, &high, &low);
    if (fits < 0) return NULL;
    pcidr_value all = *value_in(self), out;
    all.tag = all.tag < 64 ? 0 : 64;
    step call = is_below != is_back ? step_down_by_value : step_up_by_value;
    uint32_t code = fits ? call(all, high, low, &out) : PCIDR_WRAPPED;
    if (code) return raised(code, self, count);
    out.tag = value_in(self)->tag;
    return made_of((PyObject *)Py_TYPE(self), &out);
}

static PyObject *address_add(PyObject *self, PyObject *count) {
    return moved(self, count, 0);
}

static PyObject *address_subtract(PyObject *self, PyObject *count) {
    return moved(self, count, 1);
}

static PyGetSetDef address_attributes[] = {
    QUESTIONS(shown_answer),
    {"is_global", shown_answer, NULL, "Whether it is globally reachable by the registries of IANA.", &is_global},
    MAPPED,
    {"sixtofour", address_by, NULL, "The IPv4 address of the site of a 6to4 address, or None.", &ipv4_6to4_by_value},
    {"nat64", address_by, NULL, "The IPv4 address in an address of translation, or None.", &ipv4_nat64_by_value},
    {"special_entry", address_special_entry, NULL, "The entry of the longest block that it is in, or None.", NULL},
    SHOWN_BY(print_address, print_exploded_address),
    PACKED,
    {NULL, NULL, NULL, NULL, NULL},
};

static PyType_Slot address_slots[] = {
    {Py_tp_getset, address_attributes},
    {Py_nb_int, shown_int},
    {Py_nb_add, address_add},
    {Py_nb_subtract, address_subtract},
    SLOTS_OF(address),
    {0, NULL},
};

/* Where a host or a network keeps a part of it, the call that makes it, and its class. */
typedef struct {
    int place;
    part *call;
    PyObject **class;
} keeping;

static keeping its_first = {0, &first_by_value, &address_class}, its_last = {1, &last_by_value, &address_class};
static keeping its_address = {0, &address_by_value, &address_class}, its_network = {1, &network_by_value, &network_class};

static PyObject *kept_by(PyObject *self, void *closure) {
    keeping *how = closure;
    PyObject **kept = &((keeper *)self)->kept[how->place];
    if (*kept) return Py_NewRef(*kept);
    PyObject *made = part_of(self, *how->call, *how->class);
    if (made && !*kept) *kept = Py_NewRef(made);
    return made;
}

static void keeper_dealloc(PyObject *self) {
    Py_CLEAR(((keeper *)self)->kept[0]);
    Py_CLEAR(((keeper *)self)->kept[1]);
    shown_dealloc(self);
}

/* Of a host its address is asked. */
static PyObject *host_answer(PyObject *self, void *call) {
    pcidr_value address;
    uint32_t code = address_by_value(*value_in(self), &address);
    return code ? raised(code, self, NULL) : PyBool_FromLong((*(question *)call)(&address) == 1);
}

static PyObject *host_name(PyObject *self, void *unused) {
    (void)unused;
    pcidr_value address;
    uint32_t code = address_by_value(*value_in(self), &address);
    return code ? raised(code, self, NULL) : name_of(self, &address);
}

static PyGetSetDef host_attributes[] = {
    QUESTIONS(host_answer),
    SHOWN_BY(print_host_with_length, print_exploded_host),
    PACKED,
    {"reverse_pointer", host_name, NULL, "The domain name of the address in reverse DNS.", NULL},
    {"with_prefixlen", string_by, NULL, "The string with its prefix length, also a full one.", &print_host_with_length},
    {"with_netmask", string_by, NULL, "The string with the mask in place of the prefix length.", &print_host_with_mask},
    {"with_hostmask", string_by, NULL, "The string with the inverse of the mask in its place.", &print_host_with_host_mask},
    {"ip", kept_by, NULL, "The address.", &its_address},
    {"network", kept_by, NULL, "The network.", &its_network},
    {NULL, NULL, NULL, NULL, NULL},
};

static PyType_Slot host_slots[] = {
    SLOTS_OF(host),
    {Py_tp_dealloc, keeper_dealloc},
    {Py_nb_int, shown_int},
    {Py_tp_getset, host_attributes},
    {0, NULL},
};

/* Reads a string, or an object of one of the two classes: 1, or 0 for another object, and -1 after an exception. */
static int is_read(PyObject *given, pcidr_value *value) {
    PyObject *class = (PyObject *)Py_TYPE(given);
    if (PyUnicode_Check(given)) return read_string(read_network, given, value) ? -1 : 1;
    if (class != address_class && class != network_class) return 0;
    *value = *value_in(given);
    return 1;
}

/* What a call says of a network and what stands for another one, or -1 after an exception. */
static int compared_by(comparer call, PyObject *self, PyObject *inner) {
    pcidr_value value;
    int is_done = is_read(inner, &value);
    if (!is_done) {
        PyObject *given = PyObject_CallFunctionObjArgs(network_value, inner, NULL);
        is_done = given && !copied(given, &value) ? 1 : -1;
        Py_XDECREF(given);
    }
    return is_done < 0 ? -1 : call(value_in(self), &value) == 1;
}

static int network_contains(PyObject *self, PyObject *inner) {
    return compared_by(contains, self, inner);
}

static PyObject *network_overlaps(PyObject *self, PyObject *other) {
    int answer = compared_by(overlaps, self, other);
    return answer < 0 ? NULL : PyBool_FromLong(answer);
}

static PyObject *network_num_addresses(PyObject *self, void *unused) {
    (void)unused;
    return PySequence_GetItem(counts, value_in(self)->tag);
}

/* The address at an index, which counts from the end where it is below 0. */
static PyObject *network_at(PyObject *self, PyObject *index) {
    unsigned long long high, low;
    pcidr_value out;
    PyObject *place = PyNumber_Index(index);
    if (!place) return NULL;
    int is_below, fits = halves_of(place, &is_below, &high, &low);
    if (fits >= 0 && is_below) {
        PyObject *all = network_num_addresses(self, NULL), *behind = all ? PyNumber_Add(place, all) : NULL;
        fits = behind ? halves_of(behind, &is_below, &high, &low) : -1;
        Py_XDECREF(all);
        Py_XDECREF(behind);
    }
    Py_DECREF(place);
    if (fits < 0) return NULL;
    if (fits && !is_below && !nth_by_value(*value_in(self), high, low, &out)) return made_of(address_class, &out);
    return PyErr_Format(PyExc_IndexError, "%S has no address %S", self, index);
}

/* The network that a call finds beside it. */
static PyObject *beside(PyObject *self, part call) {
    pcidr_value out;
    uint32_t code = call(*value_in(self), &out);
    if (!code) return made_of(network_class, &out);
    if (code != PCIDR_NONE) return raised(code, self, NULL);
    return PyErr_Format(PyExc_ValueError, "there is no such network beside %S", self);
}

static PyObject *network_next(PyObject *self, PyObject *unused) {
    (void)unused;
    return beside(self, next_network_by_value);
}

static PyObject *network_previous(PyObject *self, PyObject *unused) {
    (void)unused;
    return beside(self, previous_network_by_value);
}

static PyObject *network_sibling(PyObject *self, PyObject *unused) {
    (void)unused;
    return beside(self, sibling_by_value);
}

static PyMethodDef network_methods[] = {
    {"next", network_next, METH_NOARGS, "The network of the same length behind it; the last one raises `ValueError`."},
    {"previous", network_previous, METH_NOARGS, "The network of the same length before it."},
    {"sibling", network_sibling, METH_NOARGS, "The other half of the network that is twice as large."},
    {"_at", network_at, METH_O, NULL},
    {"overlaps", network_overlaps, METH_O, "Whether an address is in both."},
    {NULL, NULL, 0, NULL},
};

static PyGetSetDef network_attributes[] = {
    QUESTIONS(shown_answer),
    MAPPED,
    SHOWN_BY(print_host_with_length, print_exploded_host),
    {"with_prefixlen", string_by, NULL, "The string with its prefix length, also a full one.", &print_network_with_length},
    {"with_netmask", string_by, NULL, "The string with the mask in place of the prefix length.", &print_with_mask},
    {"with_hostmask", string_by, NULL, "The string with the inverse of the mask in its place.", &print_with_host_mask},
    {"num_addresses", network_num_addresses, NULL, "The number of addresses.", NULL},
    {"first", kept_by, NULL, "The first address; `any` raises `ValueError`.", &its_first},
    {"last", kept_by, NULL, "The last address, as `first` has the first one.", &its_last},
    {"network_address", kept_by, NULL, "The first address.", &its_first},
    {"broadcast_address", kept_by, NULL, "The last address, which is that of broadcasts in IPv4.", &its_last},
    {"_first_usable", address_by, NULL, "The first address that a host may have.", &first_usable_by_value},
    {"_last_usable", address_by, NULL, "The last address that a host may have.", &last_usable_by_value},
    {NULL, NULL, NULL, NULL, NULL},
};

static PyType_Slot network_slots[] = {
    SLOTS_OF(network),
    {Py_tp_dealloc, keeper_dealloc},
    {Py_mp_subscript, network_at},
    {Py_sq_contains, network_contains},
    {Py_tp_methods, network_methods},
    {Py_tp_getset, network_attributes},
    {0, NULL},
};

/* ---- look-ups of one address, in the arrays of a table or in the bytes of a file */

enum { OF_TABLE, OF_ROWS, OF_FILE };

typedef struct {
    PyObject_HEAD
    int kind;              /* of what it finds rows */
    PyObject *kept;        /* what has the memory, or null once the collector has it; of rows that change their networks */
    PyObject *rows[2];     /* of each family; of rows that change their list, and what has their number and lengths */
    const void *places[2]; /* of a table those of each family; of rows that change their number and lengths; of a file its bytes, and it */
    size_t size;           /* of a file, in bytes; of rows that change how many lengths there are */
} finder;

static PyTypeObject *finder_type;

static int finder_traverse(PyObject *self, visitproc visit, void *arg) {
    finder *it = (finder *)self;
    Py_VISIT(Py_TYPE(self));
    Py_VISIT(it->kept);
    Py_VISIT(it->rows[0]);
    Py_VISIT(it->rows[1]);
    return 0;
}

static int finder_clear(PyObject *self) {
    finder *it = (finder *)self;
    Py_CLEAR(it->kept);
    Py_CLEAR(it->rows[0]);
    Py_CLEAR(it->rows[1]);
    return 0;
}

static void finder_dealloc(PyObject *self) {
    PyTypeObject *type = Py_TYPE(self);
    PyObject_GC_UnTrack(self);
    finder_clear(self);
    ((freefunc)PyType_GetSlot(type, Py_tp_free))(self);
    Py_DECREF(type);
}

/* Which family an address is of, 0 or 1, and its value; 2 where it is no address; 3 for an object of another class; -1
 * after an exception. */
static int asked(PyObject *given, pcidr_value *value) {
    int is_done = is_read(given, value);
    if (is_done < 1) return is_done ? -1 : 3;
    return value->tag == 32 ? 0 : value->tag == 192 ? 1 : value->tag == NO_TAG ? 3 : 2;
}

/* Of rows that change, the one of the longest network that a network is in, or None. Nothing else runs meanwhile. */
static PyObject *row_around(finder *it, const pcidr_value *network) {
    Py_buffer memory; /* which may be another one at each call */
    size_t index;
    if (PyObject_GetBuffer(it->kept, &memory, PyBUF_SIMPLE)) return NULL;
    uint32_t code = rows_longest(memory.buf, *(const size_t *)it->places[0], it->places[1], it->size, network, &index);
    PyBuffer_Release(&memory);
    PyObject *row = code ? Py_None : PyList_GetItem(it->rows[0], (Py_ssize_t)index);
    Py_XINCREF(row);
    return row;
}

/* The row of an address, which is the last one of its family's where it is in none; NotImplemented for what is none. */
static PyObject *finder_call(PyObject *self, PyObject *given) {
    finder *it = (finder *)self;
    pcidr_value value;
    int family = asked(given, &value);
    if (family < 0) return NULL;
    if (!it->kept || family > (it->kind == OF_ROWS ? 2 : 1)) return Py_NewRef(Py_NotImplemented);
    if (it->kind == OF_ROWS) return row_around(it, &value);
    PyObject *rows = it->rows[family];
    if (it->kind == OF_FILE) {
        pcidr_found found;
        file_lookup(it->places[0], it->size, it->places[1], &value, &found);
        PyObject *row = PyLong_FromUnsignedLong(found.row), *made = row ? PyObject_GetItem(rows, row) : NULL;
        Py_XDECREF(row);
        return made;
    }
    const pcidr_table *of = it->places[family];
    uint32_t row = (family ? ipv6_table_lookup : ipv4_table_lookup)(of->first, of->first_len, of->words, of->words_len, of, &value);
    PyObject *made = PyTuple_GetItem(rows, row == PCIDR_NO_ROW ? PyTuple_Size(rows) - 1 : (Py_ssize_t)row);
    Py_XINCREF(made);
    return made;
}

/* Whether an address is in one of the networks of a file; NotImplemented for what is none. */
static PyObject *finder_has(PyObject *self, PyObject *given) {
    finder *it = (finder *)self;
    pcidr_value value;
    int family = asked(given, &value);
    if (family < 0) return NULL;
    if (!it->kept || family > 1 || it->kind != OF_FILE) return Py_NewRef(Py_NotImplemented);
    return PyBool_FromLong(set_has(it->places[0], it->size, it->places[1], &value) == 1);
}

static PyMethodDef finder_methods[] = {
    {"row", finder_call, METH_O, NULL},
    {"has", finder_has, METH_O, NULL},
    {NULL, NULL, 0, NULL},
};

static PyType_Slot finder_slots[] = {
    {Py_tp_doc, "Looks up one address."},
    {Py_tp_traverse, finder_traverse},
    {Py_tp_clear, finder_clear},
    {Py_tp_dealloc, finder_dealloc},
    {Py_tp_methods, finder_methods},
    {0, NULL},
};

/* A finder, by all that it has; the places are numbers. */
static PyObject *finder_made(PyObject *module, PyObject *arguments) {
    (void)module;
    PyObject *kept, *rows[2];
    unsigned long long places[2];
    Py_ssize_t size;
    int kind;
    if (!PyArg_ParseTuple(arguments, "iOOOKKn", &kind, &kept, &rows[0], &rows[1], &places[0], &places[1], &size)) return NULL;
    finder *made = (finder *)PyType_GenericAlloc(finder_type, 0);
    if (!made) return NULL;
    made->kind = kind, made->size = (size_t)size, made->kept = Py_NewRef(kept);
    for (int family = 0; family < 2; family++) {
        made->rows[family] = Py_NewRef(rows[family]);
        made->places[family] = (const void *)(uintptr_t)places[family];
    }
    return (PyObject *)made;
}

/* ---- many values */

/* Writes the values of a list of objects into memory, which has room for them. */
static PyObject *put_values(PyObject *module, PyObject *arguments) {
    (void)module;
    PyObject *listed;
    Py_buffer room;
    if (!PyArg_ParseTuple(arguments, "O!w*", &PyList_Type, &listed, &room)) return NULL;
    Py_ssize_t count = PyList_Size(listed), place = 0;
    char *out = room.buf;
    int fits = room.len >= count * (Py_ssize_t)sizeof(pcidr_value);
    for (; fits && place < count; place++, out += sizeof(pcidr_value)) {
        PyObject *each = PyList_GetItem(listed, place);
        if (!PyObject_TypeCheck(each, shown_type)) break;
        memcpy(out, value_in(each), sizeof(pcidr_value));
    }
    PyBuffer_Release(&room);
    if (place == count && fits) return Py_NewRef(Py_None);
    PyErr_SetString(PyExc_TypeError, "a list of addresses, hosts and networks, and room for them, are wanted");
    return NULL;
}

/* A list of objects of a class, one for each value in memory. */
static PyObject *each_value(PyObject *module, PyObject *arguments) {
    (void)module;
    PyObject *class;
    Py_buffer values;
    if (!PyArg_ParseTuple(arguments, "O!y*", &PyType_Type, &class, &values)) return NULL;
    Py_ssize_t count = values.len / (Py_ssize_t)sizeof(pcidr_value);
    PyObject *listed = PyType_IsSubtype((PyTypeObject *)class, shown_type) ? PyList_New(count) : NULL;
    const char *in = values.buf;
    for (Py_ssize_t place = 0; listed && place < count; place++, in += sizeof(pcidr_value)) {
        pcidr_value value;
        memcpy(&value, in, sizeof value);
        PyObject *made = made_of(class, &value);
        if (!made || PyList_SetItem(listed, place, made)) Py_CLEAR(listed);
    }
    PyBuffer_Release(&values);
    if (!listed && !PyErr_Occurred()) PyErr_SetString(PyExc_TypeError, "a class of values is wanted");
    return listed;
}

/* ---- the module */

/* Loads the library, once and for all. */
static PyObject *connect(PyObject *module, PyObject *arguments) {
    (void)module;
    PyObject *encoded;
    if (!is_owned() || !PyArg_ParseTuple(arguments, "O&", PyUnicode_FSConverter, &encoded)) return NULL;
    void *library = dlopen(PyBytes_AsString(encoded), RTLD_NOW | RTLD_LOCAL);
    Py_DECREF(encoded);
    if (!library) return PyErr_Format(PyExc_ImportError, "%s", dlerror());
#define NAMED(name) {"pcidr_" #name, &name},
    const struct {
        const char *name;
        void *place;
    } calls[] = {CALLS(NAMED)};
    for (size_t place = 0; place < sizeof calls / sizeof *calls; place++) {
        void *found = dlsym(library, calls[place].name);
        if (!found) return PyErr_Format(PyExc_ImportError, "the library has no %s", calls[place].name);
        memcpy(calls[place].place, &found, sizeof found);
    }
    return Py_NewRef(Py_None);
}

/* Takes the classes and functions of the module. */
static PyObject *take(PyObject *module, PyObject *arguments) {
    (void)module;
    PyObject **places[] = {&address_class, &network_class, &value_class, &check_code, &network_value, &entry_made, &counts};
    for (Py_ssize_t place = 0; place < 7; place++) {
        PyObject *given = PySequence_GetItem(arguments, place), *before = *places[place];
        if (!given) return NULL;
        *places[place] = given;
        Py_XDECREF(before);
    }
    return Py_NewRef(Py_None);
}

static PyMethodDef functions[] = {
    {"connect", connect, METH_VARARGS, "Loads the library."},
    {"register", take, METH_VARARGS, "Takes the classes, functions and counts of the module."},
    {"finder", finder_made, METH_VARARGS, "What looks up one address in a table, in rows that change, or in a file."},
    {"put_values", put_values, METH_VARARGS, "Writes the values of a list of objects into memory."},
    {"each_value", each_value, METH_VARARGS, "A list of objects of a class, one for each value in memory."},
    {NULL, NULL, 0, NULL},
};

static struct PyModuleDef definition = {
    PyModuleDef_HEAD_INIT, "pcidr._fast", "Addresses, hosts and networks in C.", -1, functions, NULL, NULL, NULL, NULL,
};

/* A class in the module, below the first one where there is a base. */
static PyTypeObject *added(PyObject *module, const char *name, int size, PyType_Slot *slots, PyTypeObject *base) {
    unsigned flags = Py_TPFLAGS_DEFAULT | Py_TPFLAGS_BASETYPE;
    PyType_Spec spec = {name, size, 0, flags, slots};
    PyObject *made = PyType_FromModuleAndSpec(module, &spec, (PyObject *)base);
    if (made && PyModule_AddObjectRef(module, strrchr(name, '.') + 1, made)) Py_CLEAR(made);
    return (PyTypeObject *)made;
}

PyMODINIT_FUNC PyInit__fast(void) {
    PyObject *module = is_owned() ? PyModule_Create(&definition) : NULL;
    if (!module) return NULL;
    /* what an interpreter that has ended left here */
    address_class = network_class = value_class = check_code = network_value = entry_made = counts = NULL;
    memset(kept_entries, 0, sizeof kept_entries);
    memset(kept_masks, 0, sizeof kept_masks);
    shown_type = added(module, "pcidr._fast.Shown", sizeof(shown), shown_slots, NULL);
    unsigned flags = Py_TPFLAGS_DEFAULT | Py_TPFLAGS_HAVE_GC | Py_TPFLAGS_DISALLOW_INSTANTIATION;
    PyType_Spec spec = {"pcidr._fast.Finder", sizeof(finder), 0, flags, finder_slots};
    finder_type = (PyTypeObject *)PyType_FromModuleAndSpec(module, &spec, NULL);
    if (shown_type && finder_type && added(module, "pcidr._fast.OfAddress", sizeof(shown), address_slots, shown_type) &&
        added(module, "pcidr._fast.OfHost", sizeof(keeper), host_slots, shown_type) &&
        added(module, "pcidr._fast.OfNetwork", sizeof(keeper), network_slots, shown_type))
        return module;
    Py_DECREF(module);
    return NULL;
}
