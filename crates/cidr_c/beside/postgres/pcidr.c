/* Functions of SQL over the library for C: the longest match of an address in a file of look-up tables, and whether one of
 * its networks has the address. Their page is README.md. */
#include <postgres.h>

#include <access/xact.h>
#include <fcntl.h>
#include <fmgr.h>
#include <mb/pg_wchar.h>
#include <miscadmin.h>
#include <pcidr.h>
#include <storage/fd.h>
#include <sys/socket.h> /* for utils/inet.h */
#include <sys/stat.h>
#include <tcop/pquery.h>
#include <time.h>
#include <unistd.h>
#include <utils/builtins.h>
#include <utils/inet.h>
#include <utils/memutils.h>
#include <utils/portal.h>

PG_MODULE_MAGIC;

/* ---- copies of files, which stay for the queries to come: each is read and checked once */

/* How many bytes of copies stay that no query reads, besides the newest copy. */
#define SPARE ((size_t)64 << 20)

/* How old a file must be for its copy to stay: one that is changed so soon after it was read may keep its time. */
enum { SECONDS = 2 };

typedef struct Copy {
    struct Copy *next; /* one that was asked for earlier */
    MemoryContext memory;
    struct stat status; /* of the file as it was read */
    uint8_t *bytes;
    size_t length;
    pcidr_file file;
    int users; /* how many paths of queries that run lead to it */
    bool stays;
} Copy;

/* What this process has, the last that was asked for first. */
static Copy *copies;

static bool are_same(const struct stat *a, const struct stat *b) {
    return a->st_dev == b->st_dev && a->st_ino == b->st_ino && a->st_size == b->st_size &&
           a->st_mtim.tv_sec == b->st_mtim.tv_sec && a->st_mtim.tv_nsec == b->st_mtim.tv_nsec &&
           a->st_ctim.tv_sec == b->st_ctim.tv_sec && a->st_ctim.tv_nsec == b->st_ctim.tv_nsec;
}

/* Frees the copies that no query reads but for the newest ones. */
static void tidy(void) {
    size_t spare = 0;
    for (Copy **place = &copies; *place;) {
        Copy *each = *place;
        bool is_newest = spare == 0;
        if (each->users == 0 && each->stays) spare += each->length;
        if (each->users > 0 || (each->stays && (is_newest || spare <= SPARE))) {
            place = &each->next;
            continue;
        }
        *place = each->next;
        MemoryContextDelete(each->memory);
    }
}

/* Reads so many bytes, or all that are left. */
static size_t read_into(const char *path, int file, uint8_t *to, size_t length) {
    size_t done = 0;
    while (done < length) {
        ssize_t count = read(file, to + done, Min(length - done, 1 << 20));
        CHECK_FOR_INTERRUPTS();
        if (count < 0 && errno != EINTR)
            ereport(ERROR, (errcode_for_file_access(), errmsg("could not read the file \"%s\": %m", path)));
        if (count == 0) break;
        if (count > 0) done += count;
    }
    return done;
}

static void refuse(const char *path, uint32_t code) {
    char message[PCIDR_MESSAGE_ROOM];
    pcidr_message(code, message, sizeof message);
    ereport(ERROR, (errcode(ERRCODE_DATA_CORRUPTED), errmsg("%s: %s", path, message)));
}

/* Reads a file of this status whole, and checks it. What does not begin as a file of tables is not read further. */
static Copy *copied(const char *path, int file, const struct stat *status) {
    MemoryContext memory = AllocSetContextCreate(CurrentMemoryContext, "file of look-up tables", ALLOCSET_SMALL_SIZES);
    Copy *made = MemoryContextAllocZero(memory, sizeof *made);
    uint8_t start[64];
    size_t count = read_into(path, file, start, sizeof start);
    uint32_t code = pcidr_file_open(start, count, &made->file);
    struct stat after;
    if (code != PCIDR_OK && code != PCIDR_SHORT) refuse(path, code);
    made->memory = memory;
    made->status = *status;
    made->length = Max(status->st_size, sizeof start);
    made->bytes = MemoryContextAllocHuge(memory, made->length);
    memcpy(made->bytes, start, count);
    count += read_into(path, file, made->bytes + count, made->length - count);
    /* A file that is renamed or loses its name gets another st_ctim, and is the same. */
    if (fstat(file, &after) != 0 || after.st_size != status->st_size || after.st_mtim.tv_sec != status->st_mtim.tv_sec ||
        after.st_mtim.tv_nsec != status->st_mtim.tv_nsec)
        ereport(ERROR, (errcode(ERRCODE_OBJECT_IN_USE), errmsg("the file \"%s\" was changed while it was read", path)));
    made->length = count;
    code = pcidr_file_open(made->bytes, made->length, &made->file);
    if (code == PCIDR_OK) code = pcidr_file_check(made->bytes, made->length);
    if (code != PCIDR_OK) refuse(path, code);
    made->stays = time(NULL) - status->st_ctim.tv_sec >= SECONDS;
    MemoryContextSetParent(memory, TopMemoryContext);
    return made;
}

/* The copy of the file that has a path now: one that is there, or a new one, in the first place of all. */
static Copy *copy_at(const char *path) {
    struct stat status;
    Copy **place = &copies, *found;
    /* Not to wait for whoever writes into a pipe. */
    int file = OpenTransientFile(path, O_RDONLY | O_NONBLOCK | PG_BINARY);
    if (file < 0 || fstat(file, &status) != 0)
        ereport(ERROR, (errcode_for_file_access(), errmsg("could not open the file \"%s\": %m", path)));
    if (!S_ISREG(status.st_mode))
        ereport(ERROR, (errcode(ERRCODE_WRONG_OBJECT_TYPE), errmsg("\"%s\" is not a regular file", path)));
    if (status.st_size == 0)
        ereport(ERROR, (errcode(ERRCODE_DATA_CORRUPTED), errmsg("the file \"%s\" is empty", path)));
    while (*place && !((*place)->stays && are_same(&(*place)->status, &status))) place = &(*place)->next;
    found = *place;
    if (found)
        *place = found->next;
    else
        found = copied(path, file, &status);
    found->next = copies;
    copies = found;
    CloseTransientFile(file);
    return found;
}

/* ---- what a query reads: at each path one file, also where another one takes its name meanwhile
 *
 * A query is what the client sends at once, with all that functions run for it, or that of a cursor: its portals have the
 * time at which the client sent it. */

typedef struct Path {
    struct Path *next;
    TimestampTz query;
    char portal[NAMEDATALEN]; /* one of it */
    Copy *copy;
    size_t length;
    char text[FLEXIBLE_ARRAY_MEMBER];
} Path;

static Path *paths;
static TimestampTz statement; /* the last one that asked */
static uint64 turn;           /* counts how often paths were forgotten */

/* Forgets the paths of queries that have ended, or all. */
static void forget(bool all) {
    for (Path **place = &paths; *place;) {
        Path *each = *place;
        Portal portal = all ? NULL : GetPortalByName(each->portal);
        if (portal && portal->creation_time == each->query) {
            place = &each->next;
            continue;
        }
        *place = each->next;
        each->copy->users--;
        pfree(each);
    }
    turn++;
    tidy();
}

static void at_end(XactEvent event, void *unused) {
    if (event == XACT_EVENT_COMMIT || event == XACT_EVENT_ABORT || event == XACT_EVENT_PREPARE ||
        event == XACT_EVENT_PARALLEL_COMMIT || event == XACT_EVENT_PARALLEL_ABORT)
        forget(true);
}

void _PG_init(void);
void _PG_init(void) { RegisterXactCallback(at_end, NULL); }

static bool is_path(const Path *it, text *path) {
    return it->length == VARSIZE_ANY_EXHDR(path) && memcmp(it->text, VARDATA_ANY(path), it->length) == 0;
}

/* The file at a path, of a query. */
static Path *path_of(TimestampTz query, text *path) {
    size_t length = VARSIZE_ANY_EXHDR(path);
    Path *made = paths;
    Copy *copy;
    while (made && !(made->query == query && is_path(made, path))) made = made->next;
    if (made) return made;
    copy = copy_at(text_to_cstring(path));
    made = MemoryContextAlloc(TopMemoryContext, offsetof(Path, text) + length);
    made->query = query;
    strlcpy(made->portal, ActivePortal ? ActivePortal->name : "", sizeof made->portal);
    made->copy = copy;
    made->length = length;
    memcpy(made->text, VARDATA_ANY(path), length);
    made->next = paths;
    copy->users++;
    return paths = made;
}

/* What a call found last, in this turn. */
typedef struct {
    uint64 turn;
    Path *path;
} Last;

static const Copy *copy_of(FunctionCallInfo fcinfo, text *path) {
    TimestampTz now = GetCurrentStatementStartTimestamp(), query = ActivePortal ? ActivePortal->creation_time : now;
    Last *last = fcinfo->flinfo->fn_extra;
    if (statement != now) {
        forget(false);
        statement = now;
    }
    if (!last) fcinfo->flinfo->fn_extra = last = MemoryContextAllocZero(fcinfo->flinfo->fn_mcxt, sizeof *last);
    if (last->turn != turn || last->path->query != query || !is_path(last->path, path)) {
        last->turn = 0;
        last->path = path_of(query, path);
        last->turn = turn;
    }
    return last->path->copy;
}

/* ---- addresses of `inet` */

static uint64_t number_of(const unsigned char *octets, int count) {
    uint64_t number = 0;
    for (int i = 0; i < count; i++) number = number << 8 | octets[i];
    return number;
}

static pcidr_value address_of(inet *it) {
    pcidr_value made = {0};
    if (ip_bits(it) != ip_maxbits(it))
        ereport(ERROR, (errcode(ERRCODE_INVALID_PARAMETER_VALUE), errmsg("a network where an address is looked up")));
    if (ip_family(it) == PGSQL_AF_INET) {
        made.low = number_of(ip_addr(it), 4);
        made.tag = ip_bits(it);
    } else {
        made.high = number_of(ip_addr(it), 8);
        made.low = number_of(ip_addr(it) + 8, 8);
        made.tag = 64 + ip_bits(it);
    }
    return made;
}

/* ---- the functions */

PG_FUNCTION_INFO_V1(sql_lookup);
Datum sql_lookup(PG_FUNCTION_ARGS) {
    const Copy *copy = copy_of(fcinfo, PG_GETARG_TEXT_PP(0));
    pcidr_value address = address_of(PG_GETARG_INET_PP(1));
    pcidr_found found;
    const char *value;
    if (!pcidr_file_lookup(copy->bytes, copy->length, &copy->file, &address, &found)) PG_RETURN_NULL();
    value = (const char *)copy->bytes + found.value;
    pg_verifymbstr(value, found.value_len, false);
    PG_RETURN_TEXT_P(cstring_to_text_with_len(value, found.value_len));
}

PG_FUNCTION_INFO_V1(sql_contains);
Datum sql_contains(PG_FUNCTION_ARGS) {
    const Copy *copy = copy_of(fcinfo, PG_GETARG_TEXT_PP(0));
    pcidr_value address = address_of(PG_GETARG_INET_PP(1));
    PG_RETURN_BOOL(pcidr_set_has(copy->bytes, copy->length, &copy->file, &address));
}
