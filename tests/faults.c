/* Stands between the program under test and the C library, and makes one call fail, or one and all after it, or has the
 * process end there, with or without what it had not synced.
 *
 * tests/faults loads it by LD_PRELOAD. What goes wrong is told by the environment:
 *
 *   FAULT=WHAT AT HOW LASTS
 *
 * WHAT is what is counted, AT which one goes wrong (from 1), LASTS 1 where all after it go wrong too.
 *
 *   memory  a request for memory. HOW is `refused`.
 *   calls   a call that reads, writes, syncs, opens, closes, cuts, locks, looks up or removes a file, sets its mode or
 *           owner, or asks for a random number.
 *           HOW is `EIO` or `ENOSPC` (the call fails), `one` (it moves one byte), `killed` (the process ends there),
 *           `torn` (half of the bytes are written, and then the process ends), or `lost-` and a word of `losses` below
 *           (the process ends there, and of what was not synced so much is lost).
 *   output  a byte of standard output. AT bytes are taken, and then each write fails; HOW is `ENOSPC` or `EPIPE`.
 *
 * A fault of a file lasts for files, and one of standard output for standard output. Standard error always works.
 *
 *   FAULT_STRUCK=F  F is made where the fault is met.
 *   FAULT_LOG=F     At the end F is given the number of requests for memory, a blank, a letter for each call, a blank,
 *                   and for each call * where something is not synced before it, else -.
 *   FAULT_SECONDS=N The process is ended by SIGALRM after so many seconds.
 *   FAULT_SYNCS=no  Each sync is answered with success, and nothing is synced.
 *
 * The letters: r read, w write, W write to standard output, s sync, o open, c close, t cut, l lock, f look up,
 * u remove, m mode or owner, e random number.
 *
 * What a power failure may take is known of regular files that are opened for writing, by their bytes at the last sync
 * (or as they were opened, or none where they are new) and by each write and cut since; and of the names of new files,
 * until their folder is synced. Standard output has been read by then. A process that removes a file, or cuts one while
 * it opens it, is ended with status 99, since what that leaves is not known here.
 */
#define _GNU_SOURCE
#include <errno.h>
#include <fcntl.h>
#include <libgen.h>
#include <limits.h>
#include <signal.h>
#include <stdarg.h>
#include <stdio.h>
#include <stdlib.h>
#include <string.h>
#include <sys/stat.h>
#include <sys/syscall.h>
#include <sys/uio.h>
#include <unistd.h>

#define MOST_CALLS 1000000

enum what { NOTHING, MEMORY, CALLS, OUTPUT };
enum how { GOES_WELL, FAILS, MOVES_ONE, KILLED, TORN, LOST };

/* What of the changes that are not synced is lost: all; none; of each file each second one, counted back from the
 * newest, which stays or goes too; each second sector; the lengths; all but the lengths; all those of the file that was
 * opened first, which is the database, or all those of the other files, which are its log. */
enum loss { ALL, NONE, SECOND, NEWEST, SECTORS, LENGTH, BYTES, DATABASE, LOG, LOSSES };
static const char *const losses[LOSSES] = {
    "all", "none", "second", "newest", "sectors", "length", "bytes", "database", "log",
};
#define SECTOR 512

static int ready;
static enum what what;
static enum how how;
static int error;
static long at;
static int lasts;
static enum loss loss;
static int syncs = 1;

static long requests;
static long calls;
static char letters[MOST_CALLS + 1];
static char unsynced[MOST_CALLS + 1];
static int struck;
static int struck_output;

extern void *__libc_malloc(size_t size);
extern void *__libc_calloc(size_t count, size_t size);
extern void *__libc_realloc(void *block, size_t size);
extern void *__libc_memalign(size_t alignment, size_t size);

/* A file of this name is made, or given these bytes, past all that stands below. */
static void note(const char *variable, const char *bytes, size_t length)
{
    const char *name = getenv(variable);
    if (name == NULL)
        return;
    int kept = errno;
    int fd = syscall(SYS_openat, AT_FDCWD, name, O_WRONLY | O_CREAT | O_TRUNC, 0600);
    while (length > 0) {
        long n = syscall(SYS_write, fd, bytes, length);
        if (n <= 0)
            break;
        bytes += n;
        length -= n;
    }
    syscall(SYS_close, fd);
    errno = kept;
}

static void strike(int output)
{
    if (!struck)
        note("FAULT_STRUCK", "", 0);
    struck = 1;
    struck_output = output;
}

static void die(void)
{
    syscall(SYS_kill, syscall(SYS_getpid), SIGKILL);
    for (;;)
        syscall(SYS_pause);
}

__attribute__((constructor)) static void begin(void)
{
    const char *seconds = getenv("FAULT_SECONDS");
    if (seconds != NULL)
        alarm(atoi(seconds));
    char counted[16] = "", manner[16] = "";
    const char *fault = getenv("FAULT");
    if (fault != NULL && *fault != 0) {
        if (sscanf(fault, "%15s %ld %15s %d", counted, &at, manner, &lasts) != 4) {
            fprintf(stderr, "faults: FAULT is not four words: %s\n", fault);
            _exit(99);
        }
        what = strcmp(counted, "memory") == 0 ? MEMORY : strcmp(counted, "calls") == 0 ? CALLS : OUTPUT;
        how = strcmp(manner, "one") == 0 ? MOVES_ONE : strcmp(manner, "killed") == 0 ? KILLED
            : strcmp(manner, "torn") == 0 ? TORN : strncmp(manner, "lost-", 5) == 0 ? LOST : FAILS;
        while (how == LOST && strcmp(manner + 5, losses[loss]) != 0)
            if (++loss == LOSSES) {
                fprintf(stderr, "faults: FAULT loses what is not known: %s\n", fault);
                _exit(99);
            }
        error = strcmp(manner, "EIO") == 0 ? EIO : strcmp(manner, "ENOSPC") == 0 ? ENOSPC
            : strcmp(manner, "EPIPE") == 0 ? EPIPE : ENOMEM;
    }
    const char *made = getenv("FAULT_SYNCS");
    syncs = made == NULL || strcmp(made, "no") != 0;
    ready = 1;
}

__attribute__((destructor)) static void end(void)
{
    static char text[2 * MOST_CALLS + 32];
    ready = 0;
    note("FAULT_LOG", text, snprintf(text, sizeof text, "%ld %s %s\n", requests, letters, unsynced));
}

/* Memory */

static int is_refused(void)
{
    if (!ready)
        return 0;
    requests++;
    if (what != MEMORY || requests < at || (requests > at && !lasts))
        return 0;
    strike(0);
    errno = ENOMEM;
    return 1;
}

void *malloc(size_t size) { return is_refused() ? NULL : __libc_malloc(size); }

void *calloc(size_t count, size_t size) { return is_refused() ? NULL : __libc_calloc(count, size); }

void *realloc(void *block, size_t size) { return is_refused() ? NULL : __libc_realloc(block, size); }

void *memalign(size_t alignment, size_t size) { return is_refused() ? NULL : __libc_memalign(alignment, size); }

void *aligned_alloc(size_t alignment, size_t size) { return memalign(alignment, size); }

int posix_memalign(void **block, size_t alignment, size_t size)
{
    int kept = errno;
    void *made = memalign(alignment, size);
    errno = kept;
    if (made == NULL)
        return ENOMEM;
    *block = made;
    return 0;
}

/* What is not synced */

/* What this library needs to know and can't be told. */
static void give_up(const char *why)
{
    ready = 0;
    fprintf(stderr, "faults: %s\n", why);
    _exit(99);
}

static void *sure(void *block)
{
    if (block == NULL)
        give_up("this library itself is out of memory");
    return block;
}

struct content {
    char *bytes;
    long length;
};

/* A write of these bytes at this place; or a cut to this length, where there are no bytes. */
struct change {
    long place;
    struct content with;
};

struct file {
    int fd;
    dev_t device;
    ino_t number;
    struct content synced;
    struct change *changes;
    long count;
};

/* A new file whose folder was not synced since. */
struct name {
    char *path;
    struct file *file;
    dev_t device;
    ino_t folder;
};

#define MOST_FILES 64
static struct file files[MOST_FILES];
static long known_files;
static struct name names[MOST_FILES];
static long new_names;

/* Whether it may be asked what is not synced. */
static int keeps_track(void)
{
    return ready && ((what == CALLS && how == LOST) || getenv("FAULT_LOG") != NULL);
}

static int is_all_synced(void)
{
    for (long i = 0; i < known_files; i++)
        if (files[i].count > 0)
            return 0;
    return new_names == 0;
}

/* As long as it is wanted, with zeros at the end where it was shorter. */
static void resize(struct content *it, long length)
{
    it->bytes = sure(__libc_realloc(it->bytes, length + 1));
    if (length > it->length)
        memset(it->bytes + it->length, 0, length - it->length);
    it->length = length;
}

static struct content copied(const void *bytes, long length)
{
    struct content copy = {sure(__libc_malloc(length + 1)), length};
    memcpy(copy.bytes, bytes, length);
    return copy;
}

static struct content content_of(int fd)
{
    struct stat found;
    struct content content = {NULL, 0};
    if (fstat(fd, &found) != 0)
        give_up("a file can't be looked up");
    resize(&content, found.st_size);
    for (long got = 0; got < content.length;) {
        long n = syscall(SYS_pread64, fd, content.bytes + got, content.length - got, got);
        if (n <= 0)
            give_up("a file that is written can't be read");
        got += n;
    }
    return content;
}

/* The file of a descriptor, where it is one of those that were opened for writing. */
static struct file *file_of(int fd)
{
    struct stat found;
    if (fstat(fd, &found) != 0)
        return NULL;
    for (long i = 0; i < known_files; i++)
        if (files[i].device == found.st_dev && files[i].number == found.st_ino)
            return &files[i];
    return NULL;
}

static void apply(struct content *content, const struct change *change)
{
    long length = change->with.length;
    if (change->with.bytes == NULL) {
        resize(content, change->place);
        return;
    }
    if (change->place + length > content->length)
        resize(content, change->place + length);
    memcpy(content->bytes + change->place, change->with.bytes, length);
}

static void has_changed(int fd, struct change change)
{
    struct file *file = file_of(fd);
    if (file == NULL)
        return;
    file->changes = sure(__libc_realloc(file->changes, (file->count + 1) * sizeof change));
    file->changes[file->count++] = change;
}

static void was_opened(int folder, const char *path, int fd, int is_new)
{
    struct stat found;
    if (fstat(fd, &found) != 0 || !S_ISREG(found.st_mode))
        return;
    struct file *file = file_of(fd);
    if (file == NULL) {
        if (known_files == MOST_FILES)
            give_up("too many files");
        /* A descriptor of its own, by which the file is known when the program has closed its. */
        int own = syscall(SYS_fcntl, fd, F_DUPFD_CLOEXEC, 500);
        if (own < 0)
            give_up("no descriptor");
        file = &files[known_files++];
        *file = (struct file){own, found.st_dev, found.st_ino, content_of(own), NULL, 0};
    }
    if (!is_new)
        return;
    char whole[PATH_MAX];
    if (folder != AT_FDCWD || new_names == MOST_FILES || realpath(path, whole) == NULL)
        give_up("a new file whose name is not known");
    struct name *name = &names[new_names++];
    name->path = copied(whole, strlen(whole) + 1).bytes;
    name->file = file;
    if (stat(dirname(whole), &found) != 0)
        give_up("a new file whose folder is not known");
    name->device = found.st_dev;
    name->folder = found.st_ino;
}

/* The names of this folder, or the bytes of this file, are safe. */
static void was_synced(int fd)
{
    struct stat found;
    struct file *file = file_of(fd);
    if (file != NULL) {
        file->synced = content_of(file->fd);
        file->count = 0;
    } else if (fstat(fd, &found) == 0 && S_ISDIR(found.st_mode)) {
        long left = 0;
        for (long i = 0; i < new_names; i++)
            if (names[i].device != found.st_dev || names[i].folder != found.st_ino)
                names[left++] = names[i];
        new_names = left;
    }
}

/* What the loss leaves of a file. */
static struct content left_of(const struct file *file)
{
    struct content now = content_of(file->fd), left = copied(file->synced.bytes, file->synced.length);
    int is_database = file == &files[0];
    switch (loss) {
    case ALL:
        return left;
    case SECOND:
    case NEWEST:
        for (long i = 0; i < file->count; i++)
            if ((file->count - 1 - i) % 2 == (loss == NEWEST))
                apply(&left, &file->changes[i]);
        return left;
    case SECTORS:
        resize(&left, now.length);
        for (long at = 0; at < now.length; at += 2 * SECTOR)
            memcpy(left.bytes + at, now.bytes + at, now.length - at < SECTOR ? now.length - at : SECTOR);
        return left;
    case LENGTH:
        if (now.length < left.length) {
            memcpy(left.bytes, now.bytes, now.length);
            return left;
        }
        resize(&now, left.length);
        return now;
    case BYTES:
        resize(&left, now.length);
        return left;
    case DATABASE:
        return is_database ? left : now;
    case LOG:
        return is_database ? now : left;
    default:
        return now;
    }
}

static void lose(void)
{
    for (long i = 0; i < known_files; i++) {
        if (files[i].count == 0)
            continue;
        struct content left = left_of(&files[i]);
        if (syscall(SYS_ftruncate, files[i].fd, left.length) != 0)
            give_up("a file can't be cut");
        for (long put = 0; put < left.length;) {
            long n = syscall(SYS_pwrite64, files[i].fd, left.bytes + put, left.length - put, put);
            if (n <= 0)
                give_up("a file can't be written");
            put += n;
        }
    }
    for (long i = 0; i < new_names; i++)
        if (loss == ALL || loss == (names[i].file == &files[0] ? DATABASE : LOG))
            syscall(SYS_unlink, names[i].path);
}

/* Calls */

/* How this call goes. A fault other than a failing call is the caller's to carry out. */
static enum how meet(char letter)
{
    int output = letter == 'W';
    if (!ready)
        return GOES_WELL;
    if (calls < MOST_CALLS) {
        letters[calls] = letter;
        unsynced[calls] = is_all_synced() ? '-' : '*';
    }
    calls++;
    if (what != CALLS)
        return GOES_WELL;
    if (calls != at && !(lasts && struck && output == struck_output))
        return GOES_WELL;
    strike(output);
    if (how == LOST)
        lose();
    if (how == KILLED || how == LOST)
        die();
    if (how == FAILS)
        errno = error;
    return how;
}

static ssize_t reading(long number, int fd, void *buffer, size_t size, off_t place)
{
    switch (meet('r')) {
    case FAILS: return -1;
    case MOVES_ONE: return syscall(number, fd, buffer, size < 1 ? size : 1, place);
    default: return syscall(number, fd, buffer, size, place);
    }
}

static ssize_t writing(long number, int fd, const void *bytes, size_t size, off_t place)
{
    if (fd == STDERR_FILENO)
        return syscall(number, fd, bytes, size, place);
    enum how goes = meet(fd == STDOUT_FILENO ? 'W' : 'w');
    if (goes == FAILS)
        return -1;
    if (goes == TORN) {
        syscall(number, fd, bytes, size / 2, place);
        die();
    }
    if (goes == MOVES_ONE && size > 1)
        size = 1;
    if (what == OUTPUT && fd == STDOUT_FILENO && size > (size_t)at) {
        strike(1);
        if (at == 0) {
            if (error == EPIPE)
                raise(SIGPIPE);
            errno = error;
            return -1;
        }
        size = at;
    }
    int is_tracked = fd != STDOUT_FILENO && keeps_track();
    if (is_tracked && number == SYS_write)
        place = lseek(fd, 0, SEEK_CUR);
    ssize_t moved = syscall(number, fd, bytes, size, place);
    if (is_tracked && moved > 0)
        has_changed(fd, (struct change){place, copied(bytes, moved)});
    if (what == OUTPUT && fd == STDOUT_FILENO && moved > 0)
        at -= moved;
    return moved;
}

ssize_t read(int fd, void *buffer, size_t size) { return reading(SYS_read, fd, buffer, size, 0); }

ssize_t __read(int fd, void *buffer, size_t size) { return reading(SYS_read, fd, buffer, size, 0); }

ssize_t pread(int fd, void *buffer, size_t size, off_t place) { return reading(SYS_pread64, fd, buffer, size, place); }

ssize_t pread64(int fd, void *buffer, size_t size, off64_t place) { return pread(fd, buffer, size, place); }

ssize_t write(int fd, const void *bytes, size_t size) { return writing(SYS_write, fd, bytes, size, 0); }

ssize_t __write(int fd, const void *bytes, size_t size) { return writing(SYS_write, fd, bytes, size, 0); }

ssize_t pwrite(int fd, const void *bytes, size_t size, off_t place)
{
    return writing(SYS_pwrite64, fd, bytes, size, place);
}

ssize_t pwrite64(int fd, const void *bytes, size_t size, off64_t place) { return pwrite(fd, bytes, size, place); }

/* A write of several pieces: that of the first that is not empty may be all that is taken. */
ssize_t writev(int fd, const struct iovec *pieces, int count)
{
    for (int i = 0; i < count; i++)
        if (pieces[i].iov_len > 0)
            return write(fd, pieces[i].iov_base, pieces[i].iov_len);
    return 0;
}

/* A call that moves no bytes: it fails, or is made. */
static int fails(char letter)
{
    return meet(letter) == FAILS;
}

static int opening(int folder, const char *name, int flags, mode_t mode)
{
    if (fails('o'))
        return -1;
    if (!keeps_track() || (flags & O_ACCMODE) == O_RDONLY)
        return syscall(SYS_openat, folder, name, flags, mode);
    if (flags & (O_TRUNC | O_APPEND))
        give_up("a file is opened in a way that is not known");
    struct stat found;
    int is_new = fstatat(folder, name, &found, 0) != 0;
    int fd = syscall(SYS_openat, folder, name, flags, mode);
    if (fd >= 0)
        was_opened(folder, name, fd, is_new);
    return fd;
}

#define MODE(flags, mode)                              \
    mode_t mode = 0;                                   \
    if ((flags) & (O_CREAT | O_TMPFILE)) {             \
        va_list rest;                                  \
        va_start(rest, flags);                         \
        mode = va_arg(rest, mode_t);                   \
        va_end(rest);                                  \
    }

int open(const char *name, int flags, ...)
{
    MODE(flags, mode)
    return opening(AT_FDCWD, name, flags, mode);
}

int open64(const char *name, int flags, ...)
{
    MODE(flags, mode)
    return opening(AT_FDCWD, name, flags, mode);
}

int openat(int folder, const char *name, int flags, ...)
{
    MODE(flags, mode)
    return opening(folder, name, flags, mode);
}

int openat64(int folder, const char *name, int flags, ...)
{
    MODE(flags, mode)
    return opening(folder, name, flags, mode);
}

/* A close that fails has closed the file all the same. */
int close(int fd)
{
    int failed = fails('c');
    int kept = errno;
    int answer = syscall(SYS_close, fd);
    if (!failed)
        return answer;
    errno = kept;
    return -1;
}

static int syncing(long number, int fd)
{
    if (fails('s'))
        return -1;
    if (!syncs)
        return 0;
    int answer = syscall(number, fd);
    if (answer == 0 && keeps_track())
        was_synced(fd);
    return answer;
}

int fsync(int fd) { return syncing(SYS_fsync, fd); }

int fdatasync(int fd) { return syncing(SYS_fdatasync, fd); }

int ftruncate(int fd, off_t size)
{
    if (fails('t'))
        return -1;
    int answer = syscall(SYS_ftruncate, fd, size);
    if (answer == 0 && keeps_track())
        has_changed(fd, (struct change){size, {NULL, 0}});
    return answer;
}

int ftruncate64(int fd, off64_t size) { return ftruncate(fd, size); }

int flock(int fd, int operation) { return fails('l') ? -1 : (int)syscall(SYS_flock, fd, operation); }

static int controlling(int fd, int command, void *with)
{
    int locks = command == F_SETLK || command == F_SETLKW || command == F_OFD_SETLK || command == F_OFD_SETLKW;
    return locks && fails('l') ? -1 : (int)syscall(SYS_fcntl, fd, command, with);
}

int fcntl(int fd, int command, ...)
{
    va_list rest;
    va_start(rest, command);
    void *with = va_arg(rest, void *);
    va_end(rest);
    return controlling(fd, command, with);
}

int fcntl64(int fd, int command, ...)
{
    va_list rest;
    va_start(rest, command);
    void *with = va_arg(rest, void *);
    va_end(rest);
    return controlling(fd, command, with);
}

int fchmod(int fd, mode_t mode) { return fails('m') ? -1 : (int)syscall(SYS_fchmod, fd, mode); }

int fchown(int fd, uid_t owner, gid_t group) { return fails('m') ? -1 : (int)syscall(SYS_fchown, fd, owner, group); }

/* The same number each time, so that two runs with one fault leave the same bytes. */
int getentropy(void *bytes, size_t size)
{
    if (fails('e'))
        return -1;
    memset(bytes, 0x5A, size);
    return 0;
}

int unlink(const char *name)
{
    if (keeps_track())
        give_up("a file is removed");
    return fails('u') ? -1 : (int)syscall(SYS_unlink, name);
}

int statx(int folder, const char *restrict name, int flags, unsigned mask, struct statx *restrict found)
{
    return fails('f') ? -1 : (int)syscall(SYS_statx, folder, name, flags, mask, found);
}
