/* Preloaded into a program, this library counts its calls of one kind and makes some of them fail.

   REFUSE_KIND    memory: allocations (malloc, calloc, realloc, aligned_alloc, posix_memalign);
                  files: open, read, write, writev, fsync, fchmod, statx, readlink, rename, unlink
                  sync: fsync alone
                  chance: getentropy, which then gives zeros
   REFUSE_FIRST   the first call that fails, numbered from 1; 0 or empty: none
   REFUSE_LAST    the last call that fails; empty: only the first
   REFUSE_SIGNAL  the program gets this signal instead of the failure
   REFUSE_SHORT   each read and write moves one byte
   REFUSE_NOTE    a file of 16 bytes with the number of calls and the number of failures

   It counts from its own start, so it counts no allocation of the loader or of earlier libraries. It is for
   x86-64 Linux and glibc. It includes no header, since the kit's clang has none. */

typedef unsigned long size;

enum kind { NOTHING, MEMORY, FILES, SYNCS, CHANCE };

enum error { IO_ERROR = 5, OUT_OF_MEMORY = 12, NO_ACCESS = 13, NO_SPACE = 28 };

/* Numbers of system calls. */
enum call {
    READ = 0,
    WRITE = 1,
    OPEN = 2,
    CLOSE = 3,
    WRITEV = 20,
    PAUSE = 34,
    GETPID = 39,
    KILL = 62,
    FSYNC = 74,
    RENAME = 82,
    UNLINK = 87,
    READLINK = 89,
    FCHMOD = 91,
    GETRANDOM = 318,
    STATX = 332,
};

struct part {
    void *bytes;
    size count;
};

struct note {
    long made;
    long refused;
};

int *__errno_location(void);
void _exit(int status);
char *getenv(const char *name);
long atol(const char *text);
void *mmap(void *at, size count, int access, int flags, int file, long offset);
long syscall(long call, ...);

/* The C library's functions, under their internal names. */
void *__libc_malloc(size count);
void *__libc_calloc(size items, size count);
void *__libc_realloc(void *old, size count);
void *__libc_memalign(size alignment, size count);

static struct note own_note;
static struct note *note = &own_note;
static enum kind counted = NOTHING;
static long first, last, signal_number, is_short;

static long number(const char *name, long otherwise) {
    const char *text = getenv(name);
    return text && *text ? atol(text) : otherwise;
}

/* The note is in a shared file, so that it can be read even if the program is killed. */
static struct note *note_in(const char *name) {
    const int read_and_write = 2, both = 3, shared = 1;
    long file = syscall(OPEN, name, read_and_write, 0);
    struct note *found = mmap(0, sizeof(struct note), both, shared, (int)file, 0);
    if (file < 0 || found == (void *)-1)
        _exit(125);
    syscall(CLOSE, file);
    return found;
}

__attribute__((constructor)) static void start(void) {
    const char *kind = getenv("REFUSE_KIND"), *name = getenv("REFUSE_NOTE");
    first = number("REFUSE_FIRST", 0);
    last = number("REFUSE_LAST", first);
    signal_number = number("REFUSE_SIGNAL", 0);
    is_short = number("REFUSE_SHORT", 0);
    if (name)
        note = note_in(name);
    if (kind)
        counted = *kind == 'm' ? MEMORY : *kind == 's' ? SYNCS : *kind == 'c' ? CHANCE : FILES;
}

/* Counts a call. Returns whether it must fail. */
static int refuses(enum kind kind) {
    if (kind != counted)
        return 0;
    long made = __atomic_add_fetch(&note->made, 1, __ATOMIC_SEQ_CST);
    if (first == 0 || made < first || made > last)
        return 0;
    __atomic_add_fetch(&note->refused, 1, __ATOMIC_SEQ_CST);
    if (signal_number)
        syscall(KILL, syscall(GETPID), signal_number);
    while (signal_number)
        syscall(PAUSE);
    return 1;
}

static int fails(enum error error) {
    *__errno_location() = error;
    return -1;
}

static void *no_memory(void) {
    fails(OUT_OF_MEMORY);
    return 0;
}

void *malloc(size count) {
    return refuses(MEMORY) ? no_memory() : __libc_malloc(count);
}

void *calloc(size items, size count) {
    return refuses(MEMORY) ? no_memory() : __libc_calloc(items, count);
}

void *realloc(void *old, size count) {
    return refuses(MEMORY) ? no_memory() : __libc_realloc(old, count);
}

void *aligned_alloc(size alignment, size count) {
    return refuses(MEMORY) ? no_memory() : __libc_memalign(alignment, count);
}

int posix_memalign(void **place, size alignment, size count) {
    void *made = refuses(MEMORY) ? 0 : __libc_memalign(alignment, count);
    if (!made)
        return OUT_OF_MEMORY;
    *place = made;
    return 0;
}

/* The mode is only passed if a file may be created. It is forwarded in any case. */
int open(const char *path, int flags, unsigned mode) {
    return refuses(FILES) ? fails(NO_ACCESS) : (int)syscall(OPEN, path, flags, mode);
}

/* Returns the number of these bytes to move at once. */
static size moved(size count) {
    return is_short && count > 1 ? 1 : count;
}

long read(int file, void *bytes, size count) {
    return refuses(FILES) ? fails(IO_ERROR) : syscall(READ, file, bytes, moved(count));
}

long write(int file, const void *bytes, size count) {
    return refuses(FILES) ? fails(NO_SPACE) : syscall(WRITE, file, bytes, moved(count));
}

long writev(int file, const struct part *parts, int count) {
    if (refuses(FILES))
        return fails(NO_SPACE);
    for (int at = 0; is_short && at < count; at++)
        if (parts[at].count > 0)
            return syscall(WRITE, file, parts[at].bytes, 1L);
    return syscall(WRITEV, file, parts, count);
}

int fsync(int file) {
    return refuses(FILES) || refuses(SYNCS) ? fails(IO_ERROR) : (int)syscall(FSYNC, file);
}

int fchmod(int file, unsigned mode) {
    return refuses(FILES) ? fails(IO_ERROR) : (int)syscall(FCHMOD, file, mode);
}

int statx(int folder, const char *path, int flags, unsigned wanted, void *found) {
    if (refuses(FILES))
        return fails(IO_ERROR);
    return (int)syscall(STATX, folder, path, flags, wanted, found);
}

long readlink(const char *path, char *bytes, size count) {
    return refuses(FILES) ? fails(IO_ERROR) : syscall(READLINK, path, bytes, count);
}

int rename(const char *from, const char *to) {
    return refuses(FILES) ? fails(IO_ERROR) : (int)syscall(RENAME, from, to);
}

int unlink(const char *path) {
    return refuses(FILES) ? fails(IO_ERROR) : (int)syscall(UNLINK, path);
}

/* Random bytes. Where they are counted they are zeros, so that what is made of them is known. */
int getentropy(void *bytes, size count) {
    if (refuses(CHANCE))
        return fails(IO_ERROR);
    if (counted != CHANCE)
        return syscall(GETRANDOM, bytes, count, 0L) == (long)count ? 0 : fails(IO_ERROR);
    for (size at = 0; at < count; at++)
        ((volatile char *)bytes)[at] = 0;
    return 0;
}
