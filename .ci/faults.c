// Loaded before a program's own libraries (`programs.py`), counts what the program asks for, and lets some of it fail.
// The environment says what:
// - WRITES and READS: how many writes to standard output, and reads of standard input, succeed; each later one fails.
// - SHORT: how many bytes one of these calls moves at most.
// - FILES: reads of files that the program opens count as reads of standard input.
// - CHANGES: how many calls succeed that make, write, flush, link or rename a file, or set its owner or permissions; each
//   later one fails.
// - REFUSED: the number of the one request for memory that is refused.
// - ROOM: how many bytes all requests together may take; later ones are refused.
// - COUNTS: when the program ends, file 9 gets the bytes of all requests, the reads and the writes.
// A call that fails by one of the others puts a byte on file 9, except for ROOM.
typedef unsigned long size_t;

extern char *getenv(const char *);
extern long atol(const char *);
extern long syscall(long, ...);
extern int *__errno_location(void);
extern void *__libc_malloc(size_t);
extern void *__libc_realloc(void *, size_t);

enum { READ, WRITE, OPEN, FSYNC = 74, RENAME = 82, LINK = 86, FCHMOD = 91, FCHOWN = 93 };
enum { EIO = 5, O_CREAT = 0100 };

static long taken, requests, changes, calls[2];

// A number in the environment, -1 for none.
static long number_in(const char *name) {
    const char *number = getenv(name);
    return number ? atol(number) : -1;
}

// Whether this change of a file fails.
static int is_stopped(void) {
    long left = number_in("CHANGES");
    if (left < 0 || changes++ < left) {
        return 0;
    }
    syscall(WRITE, 9, "!", 1);
    *__errno_location() = EIO;
    return 1;
}

static long moved(long call, int file, const void *bytes, size_t len) {
    if (call == WRITE && file > 2 && file != 9 && is_stopped()) {
        return -1;
    }
    if (file == call || (call == READ && file > 2 && file != 9 && number_in("FILES") > 0)) {
        long left = number_in(call == READ ? "READS" : "WRITES"), most = number_in("SHORT");
        if (left >= 0 && calls[call] >= left) {
            syscall(WRITE, 9, "!", 1);
            *__errno_location() = EIO;
            return -1;
        }
        calls[call]++;
        if (most > 0 && len > (size_t)most) {
            len = most;
        }
    }
    return syscall(call, file, bytes, len);
}

static int is_refused(size_t size) {
    long room = number_in("ROOM");
    taken += size;
    if (room > 0 && taken > room) {
        return 1;
    }
    return ++requests == number_in("REFUSED") && syscall(WRITE, 9, "!", 1) == 1;
}

static void write_number(long number, char after) {
    char text[24];
    int at = sizeof text;
    text[--at] = after;
    do {
        text[--at] = '0' + number % 10;
        number /= 10;
    } while (number);
    syscall(WRITE, 9, text + at, sizeof text - at);
}

__attribute__((destructor)) static void write_counts(void) {
    if (number_in("COUNTS") > 0) {
        write_number(taken, ' ');
        write_number(calls[READ], ' ');
        write_number(calls[WRITE], '\n');
    }
}

void *malloc(size_t size) { return is_refused(size) ? 0 : __libc_malloc(size); }

void *realloc(void *old, size_t size) { return is_refused(size) ? 0 : __libc_realloc(old, size); }

long read(int file, void *bytes, size_t len) { return moved(READ, file, bytes, len); }

long write(int file, const void *bytes, size_t len) { return moved(WRITE, file, bytes, len); }

long __read(int file, void *bytes, size_t len) { return moved(READ, file, bytes, len); }

long __write(int file, const void *bytes, size_t len) { return moved(WRITE, file, bytes, len); }

int open(const char *path, int flags, unsigned mode) {
    return flags & O_CREAT && is_stopped() ? -1 : (int)syscall(OPEN, path, flags, mode);
}

int fsync(int file) { return is_stopped() ? -1 : (int)syscall(FSYNC, file); }

int rename(const char *from, const char *to) { return is_stopped() ? -1 : (int)syscall(RENAME, from, to); }

int link(const char *from, const char *to) { return is_stopped() ? -1 : (int)syscall(LINK, from, to); }

int fchmod(int file, unsigned mode) { return is_stopped() ? -1 : (int)syscall(FCHMOD, file, mode); }

int fchown(int file, unsigned owner, unsigned group) {
    return is_stopped() ? -1 : (int)syscall(FCHOWN, file, owner, group);
}
