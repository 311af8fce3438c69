/* Loaded before the C library (LD_PRELOAD): does to a program's calls what SHIM says, a list of orders with ';' between them, each a word and
   what it takes with blanks between. shim.py has the orders.

   kill|stop|fail|full CALLS N   At the Nth of these calls, counted from 1, ends the process (KILL), stops it (STOP), fails the call (EIO), or
                                 fails it and all after it (ENOSPC). CALLS: `any` call on a file or a connection; calls on `files`, those that
                                 make `changes` and those that take `room`, of which the system's own files, connections and the file in which a
                                 station notes what it is doing are left out; or
                                 the name of one of the latter calls.
   met PATH                      Adds the call that was met so, and its file, to the file of this path.
   refuse N                      Refuses the Nth growth of memory, and says so on standard error.
   delay MILLISECONDS            A slow disk: each sync of a file or a folder takes so much longer.
   lose PASS COUNT               Of the transmissions PASS pass, and then COUNT are lost on their way.
   error PASS NUMBER             Of the transmissions PASS pass (with those that are lost), and then all fail with this number (errno).
   exchange NAME OTHER AT        Another user who is quick: before the file AT is opened, or gets a second name, the file OTHER takes the place of
                                 NAME, once.
   hosts NAME FIRST SECOND       A host of this name has these two addresses, in this order.
   clock PATH                    All clocks but the time of day are ahead by as many seconds as stand in the file of this path.
   options PATH                  Adds what is asked of connections to this file: small pieces at once, and how many milliseconds a call may take.
   record PATH                   Writes each call that changes a file or a folder, has one on disk, or says or hears something over a
                                 connection into this file, one a line, once it is done.
   unsynced KIND                 Syncs of files, of folders, of data alone, or all, do nothing and aren't recorded. */
#define _GNU_SOURCE
#include <dlfcn.h>
#include <errno.h>
#include <linux/fcntl.h>
#include <netdb.h>
#include <netinet/in.h>
#include <netinet/tcp.h>
#include <signal.h>
#include <stdarg.h>
#include <stdio.h>
#include <stdlib.h>
#include <string.h>
#include <sys/socket.h>
#include <sys/stat.h>
#include <sys/syscall.h>
#include <sys/time.h>
#include <sys/types.h>
#include <time.h>
#include <unistd.h>

enum { MOST_FILES = 256, MOST_LETTERS = 4096, MOST_WORDS = 3 };

/* ---- The orders. */

/* Whether SHIM has an order of this word; what it takes goes to `words`, as many as it has, and the others are empty. */
static int order(const char *word, char words[MOST_WORDS][MOST_LETTERS])
{
    const char *at = getenv("SHIM");
    size_t length = strlen(word);
    for (; at && *at; at = strchr(at, ';'), at = at ? at + 1 : NULL) {
        const char *end = strchr(at, ';');
        size_t left = end ? (size_t)(end - at) : strlen(at);
        if (left < length || strncmp(at, word, length) != 0 || (left > length && at[length] != ' '))
            continue;
        for (int number = 0; number < MOST_WORDS; number++)
            words[number][0] = 0;
        at += length;
        left -= length;
        for (int number = 0; number < MOST_WORDS && left > 0; number++) {
            size_t size = 0;
            at++, left--;
            while (size < left && at[size] != ' ')
                size++;
            snprintf(words[number], MOST_LETTERS, "%.*s", (int)size, at);
            at += size;
            left -= size;
        }
        return 1;
    }
    return 0;
}

/* The only number, or the number of this place, that an order of this word takes; 0 where there is no such order. */
static long number_of(const char *word, int place)
{
    char words[MOST_WORDS][MOST_LETTERS];
    return order(word, words) ? atol(words[place]) : 0;
}

/* A line is added to the file that this order names, if there is one: words, and then these bytes as hexadecimal digits. */
static void note(const char *word, const unsigned char *bytes, ssize_t length, const char *text, ...)
{
    char words[MOST_WORDS][MOST_LETTERS];
    FILE *file = order(word, words) ? fopen(words[0], "a") : NULL;
    va_list values;
    if (!file)
        return;
    va_start(values, text);
    vfprintf(file, text, values);
    va_end(values);
    for (ssize_t place = 0; place < length; place++)
        fprintf(file, "%02x", bytes[place]);
    fprintf(file, "\n");
    fclose(file);
}

/* A new process begins a new record. */
__attribute__((constructor)) static void begin_record(void)
{
    char words[MOST_WORDS][MOST_LETTERS];
    FILE *record = order("record", words) ? fopen(words[0], "w") : NULL;
    if (record)
        fclose(record);
}

/* ---- Calls that are met. */

/* What a call does: it is on no file that counts, or it looks at one, changes one, or takes room. */
enum { OTHER, LOOKS, CHANGES, TAKES_ROOM };

/* The paths of the open files that count. */
static char paths[MOST_FILES][512];

static const char *of(int file)
{
    return file >= 0 && file < MOST_FILES && paths[file][0] ? paths[file] : NULL;
}

/* Whether this is the file in which a station notes what it is doing, or the new one beside it: of which nothing is promised. */
static int is_note(const char *path)
{
    const char *name = strrchr(path, '/');
    return name && (strcmp(name, "/status") == 0 || strcmp(name, "/.status.new") == 0);
}

static const char *named(const char *path)
{
    if (path[0] == 0 || strncmp(path, "/proc/", 6) == 0 || strncmp(path, "/dev/", 5) == 0 || is_note(path))
        return NULL;
    return path;
}

/* A file that was opened counts from then on, where its path does. */
static void keep(int file, const char *path)
{
    if (file >= 0 && file < MOST_FILES)
        snprintf(paths[file], sizeof paths[file], "%s", path ? path : "");
}

/* Whether this call is one of those that an order counts. */
static int is_of(const char *calls, const char *name, const char *path, int does, int is_any)
{
    if (strcmp(calls, "any") == 0)
        return is_any;
    if (!path)
        return 0;
    if (strcmp(calls, "files") == 0)
        return does >= LOOKS;
    if (strcmp(calls, "changes") == 0)
        return does >= CHANGES;
    if (strcmp(calls, "room") == 0)
        return does >= TAKES_ROOM;
    return strcmp(calls, name) == 0;
}

/* Whether a call fails; errno says how. The path is NULL where the call is on no file that counts. */
static int is_met(const char *name, const char *path, int does, int is_any)
{
    static const char *const verbs[] = {"kill", "stop", "fail", "full", NULL};
    static long counts[4];
    char words[MOST_WORDS][MOST_LETTERS];
    for (int verb = 0; verbs[verb]; verb++) {
        if (!order(verbs[verb], words) || !is_of(words[0], name, path, does, is_any))
            continue;
        long count = ++counts[verb], at = atol(words[1]);
        int is_full = verb == 3;
        if (at == 0 || count < at || (count > at && !is_full))
            continue;
        if (count == at)
            note("met", NULL, 0, "%s %s", name, path ? path : "-");
        if (verb == 0)
            raise(SIGKILL);
        if (verb == 1) {
            raise(SIGSTOP);
            continue;
        }
        errno = is_full ? ENOSPC : EIO;
        return 1;
    }
    return 0;
}

#define REAL(type, name, takes)                                      \
    static type(*real) takes;                                        \
    if (!real)                                                       \
        real = (type(*) takes)dlsym(RTLD_NEXT, #name)

/* A call: the path of its file where that counts, what it does, whether it is of `any`, and what follows once it went well. */
#define CALL(type, name, takes, gives, path, does, is_any, then)     \
    type name takes                                                  \
    {                                                                \
        type done;                                                   \
        REAL(type, name, takes);                                     \
        if (is_met(#name, path, does, is_any))                       \
            return -1;                                               \
        done = real gives;                                           \
        if (done >= 0) {                                             \
            then;                                                    \
        }                                                            \
        return done;                                                 \
    }

static void exchange(const char *path)
{
    char words[MOST_WORDS][MOST_LETTERS];
    if (order("exchange", words) && strcmp(path, words[2]) == 0)
        syscall(SYS_rename, words[1], words[0]);
}

int open(const char *path, int flags, mode_t mode)
{
    int done;
    REAL(int, open, (const char *, int, mode_t));
    exchange(path);
    if (is_met("open", named(path), flags & O_CREAT ? TAKES_ROOM : LOOKS, 1))
        return -1;
    done = real(path, flags, mode);
    keep(done, named(path));
    if (done >= 0)
        note("record", NULL, 0, "open %d %d %s", done, flags, path);
    return done;
}

/* A file that can't be closed is closed all the same. */
int close(int file)
{
    char path[sizeof paths[0]];
    int counts = of(file) != NULL, done;
    REAL(int, close, (int));
    if (counts) {
        strcpy(path, paths[file]);
        keep(file, NULL);
    }
    if (is_met("close", counts ? path : NULL, LOOKS, 1)) {
        real(file);
        errno = EIO;
        return -1;
    }
    done = real(file);
    if (done >= 0)
        note("record", NULL, 0, "close %d", file);
    return done;
}

static void wait_for_disk(void)
{
    long milliseconds = number_of("delay", 0);
    struct timespec left = {milliseconds / 1000, milliseconds % 1000 * 1000000};
    while (milliseconds > 0 && nanosleep(&left, &left) != 0)
        ;
}

/* Whether syncs of this kind, or of folders where it is one, do nothing. */
static int is_unsynced(int file, const char *kind)
{
    char words[MOST_WORDS][MOST_LETTERS];
    struct stat found;
    if (!order("unsynced", words))
        return 0;
    if (fstat(file, &found) == 0 && S_ISDIR(found.st_mode))
        kind = "folders";
    return strcmp(words[0], kind) == 0 || strcmp(words[0], "all") == 0;
}

#define SYNC(name, kind)                                             \
    int name(int file)                                               \
    {                                                                \
        int done;                                                    \
        REAL(int, name, (int));                                      \
        if (is_met(#name, of(file), TAKES_ROOM, 1))                  \
            return -1;                                               \
        wait_for_disk();                                             \
        if (is_unsynced(file, kind))                                 \
            return 0;                                                \
        done = real(file);                                           \
        if (done == 0)                                               \
            note("record", NULL, 0, "sync %d", file);                \
        return done;                                                 \
    }

SYNC(fsync, "files")
SYNC(fdatasync, "data")

CALL(ssize_t, read, (int file, void *bytes, size_t length), (file, bytes, length), of(file), LOOKS, 1, )
CALL(ssize_t, write, (int file, const void *bytes, size_t length), (file, bytes, length), of(file), TAKES_ROOM, 1,
     note("record", bytes, done, "write %d %lld ", file, (long long)lseek64(file, 0, SEEK_CUR) - done))
CALL(ssize_t, pwrite, (int file, const void *bytes, size_t length, off_t place), (file, bytes, length, place), NULL, OTHER, 0,
     note("record", bytes, done, "write %d %lld ", file, (long long)place))
CALL(int, fchmod, (int file, mode_t mode), (file, mode), of(file), CHANGES, 1, )
CALL(int, ftruncate, (int file, off_t length), (file, length), of(file), TAKES_ROOM, 1,
     note("record", NULL, 0, "truncate %d %lld", file, (long long)length))
CALL(off_t, lseek, (int file, off_t offset, int whence), (file, offset, whence), of(file), LOOKS, 1, )
CALL(int, flock, (int file, int operation), (file, operation), of(file), CHANGES, 1, )
CALL(int, link, (const char *from, const char *to), (from, to), (exchange(from), named(from)), TAKES_ROOM, 1, note("record", NULL, 0, "link %s %s", from, to))
CALL(int, rename, (const char *from, const char *to), (from, to), named(from), TAKES_ROOM, 1, note("record", NULL, 0, "rename %s %s", from, to))
CALL(int, unlink, (const char *path), (path), named(path), CHANGES, 1, note("record", NULL, 0, "unlink %s", path))
CALL(int, statx, (int folder, const char *path, int flags, unsigned mask, struct statx *found), (folder, path, flags, mask, found),
     path[0] ? named(path) : of(folder), LOOKS, 0, )
CALL(ssize_t, recv, (int file, void *bytes, size_t length, int flags), (file, bytes, length, flags), NULL, OTHER, 1,
     note("record", bytes, done, "recv "))

/* ---- Transmissions, connections, memory and time. */

ssize_t send(int file, const void *bytes, size_t length, int flags)
{
    static long sent;
    char words[MOST_WORDS][MOST_LETTERS];
    ssize_t done;
    long behind, lost = number_of("lose", 1);
    REAL(ssize_t, send, (int, const void *, size_t, int));
    if (is_met("send", NULL, OTHER, 1))
        return -1;
    behind = ++sent - number_of("lose", 0);
    if (behind > 0 && behind <= lost)
        return (ssize_t)length;
    if (order("error", words) && sent > atol(words[0])) {
        errno = (int)atol(words[1]);
        return -1;
    }
    done = real(file, bytes, length, flags);
    if (done >= 0)
        note("record", bytes, done, "send ");
    return done;
}

int setsockopt(int socket, int level, int option, const void *value, socklen_t length)
{
    const struct timeval *time = value;
    REAL(int, setsockopt, (int, int, int, const void *, socklen_t));
    if (level == IPPROTO_TCP && option == TCP_NODELAY && *(const int *)value)
        note("options", NULL, 0, "pieces at once");
    if (level == SOL_SOCKET && (option == SO_RCVTIMEO || option == SO_SNDTIMEO))
        note("options", NULL, 0, "%s %ld", option == SO_RCVTIMEO ? "reads" : "writes", (long)(time->tv_sec * 1000 + time->tv_usec / 1000));
    return real(socket, level, option, value, length);
}

/* (the C library frees a list of addresses one after another) */
int getaddrinfo(const char *node, const char *service, const struct addrinfo *hints, struct addrinfo **found)
{
    char words[MOST_WORDS][MOST_LETTERS];
    struct addrinfo **end = found;
    REAL(int, getaddrinfo, (const char *, const char *, const struct addrinfo *, struct addrinfo **));
    if (!node || !order("hosts", words) || strcmp(node, words[0]) != 0)
        return real(node, service, hints, found);
    for (int number = 1; number < MOST_WORDS; number++) {
        int done = real(words[number], service, hints, end);
        if (done != 0)
            return done;
        while (*end)
            end = &(*end)->ai_next;
    }
    return 0;
}

static int is_refused(void)
{
    static long count, at = -1;
    if (at == -1)
        at = number_of("refuse", 0);
    return at > 0 && ++count == at && syscall(SYS_write, 2, "REFUSED\n", 8) == 8;
}

void *malloc(size_t size)
{
    REAL(void *, malloc, (size_t));
    return is_refused() ? NULL : real(size);
}

void *realloc(void *block, size_t size)
{
    REAL(void *, realloc, (void *, size_t));
    return is_refused() ? NULL : real(block, size);
}

/* (by the system's own calls, which nothing above counts) */
static long seconds_ahead(void)
{
    char words[MOST_WORDS][MOST_LETTERS], text[32] = {0};
    long file = order("clock", words) ? syscall(SYS_openat, AT_FDCWD, words[0], O_RDONLY | O_CLOEXEC) : -1;
    if (file < 0)
        return 0;
    if (syscall(SYS_read, file, text, sizeof text - 1) < 0)
        text[0] = 0;
    syscall(SYS_close, file);
    return atol(text);
}

int clock_gettime(clockid_t clock, struct timespec *time)
{
    int done = (int)syscall(SYS_clock_gettime, clock, time);
    if (done == 0 && clock != CLOCK_REALTIME)
        time->tv_sec += seconds_ahead();
    return done;
}
