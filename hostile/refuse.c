/* Loaded before a program's own libraries (LD_PRELOAD): counts its requests for memory, reads, writes and threads, and
 * refuses one of them.
 *
 * Only calls whose return address lies in the program itself count. So requests of the C library and of the loader, as
 * those before main and those inside pthread_create, are left out by that rule and never refused.
 *
 * HOSTILE_COUNTS=FILE     where the counts are kept, as in struct counts
 * HOSTILE_KIND=WORD       what is refused: memory, read, write or thread
 * HOSTILE_AT=N            which of them, from 1; with 0 none, and with `all` each
 * HOSTILE_HOW=WORD        how a read or write is refused: error (EIO), interrupt (EINTR) or zero (it moves nothing)
 * HOSTILE_BYTES=one       each read or write moves one byte at most
 * HOSTILE_WINDOW=WORD     counts and refuses only from a write to standard output that begins with WORD to the next one
 * HOSTILE_TOGETHER=N      a started thread waits until N of them are at work at once, three seconds at most
 */
#define _GNU_SOURCE
#include <dlfcn.h>
#include <errno.h>
#include <fcntl.h>
#include <link.h>
#include <pthread.h>
#include <stdatomic.h>
#include <stdint.h>
#include <stdlib.h>
#include <string.h>
#include <sys/mman.h>
#include <sys/syscall.h>
#include <unistd.h>

enum kind { MEMORY, READ, WRITE, THREAD, KINDS };

/* The file of counts, 64-bit numbers in this order. */
struct counts {
    _Atomic uint64_t calls[KINDS];  /* of each kind, how many were made */
    _Atomic uint64_t asked;         /* bytes asked for in all; a block that grows counts whole each time */
    _Atomic uint64_t greatest;      /* the greatest request */
    _Atomic uint64_t refused;       /* how many calls were refused */
    _Atomic uint64_t foreign;       /* requests for memory from outside the program, which are left out */
    _Atomic uint64_t together;      /* the most started threads that were at work at the same time */
    _Atomic uint64_t beside;        /* reads and writes while a thread was started and had not ended */
};

static struct counts unseen;
static struct counts *counts = &unseen;
static enum kind refused_kind = KINDS;
static uint64_t refused_at;
static int all_refused;
static int refused_errno;
static int one_byte;
static uint64_t awaited;
static const char *window;
static _Atomic int open_window = 1;
static uintptr_t program_begin = UINTPTR_MAX, program_end;

static void *(*next_malloc)(size_t);
static void *(*next_calloc)(size_t, size_t);
static void *(*next_realloc)(void *, size_t);
static void *(*next_aligned_alloc)(size_t, size_t);
static int (*next_posix_memalign)(void **, size_t, size_t);
static int (*next_pthread_create)(pthread_t *, const pthread_attr_t *, void *(*)(void *), void *);

/* dlsym itself may ask for memory before the calls are known: it gets a piece of this, which is never given back. */
static char early[65536];
static _Atomic size_t early_used;

static void *early_block(size_t size) {
    size_t at = atomic_fetch_add(&early_used, (size + 15) & ~(size_t)15);
    return at + size <= sizeof early ? early + at : NULL;
}

static int is_early(void *block) {
    return (char *)block >= early && (char *)block < early + sizeof early;
}

/* The first object that is named is the program. */
static int note_program(struct dl_phdr_info *object, size_t size, void *unused) {
    (void)size;
    (void)unused;
    for (int i = 0; i < object->dlpi_phnum; i++) {
        const ElfW(Phdr) *part = &object->dlpi_phdr[i];
        if (part->p_type != PT_LOAD) continue;
        uintptr_t begin = object->dlpi_addr + part->p_vaddr;
        if (begin < program_begin) program_begin = begin;
        if (begin + part->p_memsz > program_end) program_end = begin + part->p_memsz;
    }
    return 1;
}

static int is_program(void *from) {
    return (uintptr_t)from >= program_begin && (uintptr_t)from < program_end;
}

static int is_word(const char *name, const char *word) {
    const char *value = getenv(name);
    return value && strcmp(value, word) == 0;
}

static void share_counts(const char *path) {
    int file = open(path, O_RDWR | O_CREAT | O_TRUNC | O_CLOEXEC, 0600);
    if (file < 0) return;
    if (ftruncate(file, sizeof *counts) == 0) {
        void *shared = mmap(NULL, sizeof *counts, PROT_READ | PROT_WRITE, MAP_SHARED, file, 0);
        if (shared != MAP_FAILED) counts = shared;
    }
    close(file);
}

__attribute__((constructor)) static void begin(void) {
    static const char *const kinds[KINDS] = {"memory", "read", "write", "thread"};
    next_malloc = (void *(*)(size_t))dlsym(RTLD_NEXT, "malloc");
    next_calloc = (void *(*)(size_t, size_t))dlsym(RTLD_NEXT, "calloc");
    next_realloc = (void *(*)(void *, size_t))dlsym(RTLD_NEXT, "realloc");
    next_aligned_alloc = (void *(*)(size_t, size_t))dlsym(RTLD_NEXT, "aligned_alloc");
    next_posix_memalign = (int (*)(void **, size_t, size_t))dlsym(RTLD_NEXT, "posix_memalign");
    next_pthread_create =
        (int (*)(pthread_t *, const pthread_attr_t *, void *(*)(void *), void *))dlsym(RTLD_NEXT, "pthread_create");
    if (getenv("HOSTILE_COUNTS")) share_counts(getenv("HOSTILE_COUNTS"));
    for (int kind = 0; kind < KINDS; kind++) {
        if (is_word("HOSTILE_KIND", kinds[kind])) refused_kind = kind;
    }
    if (getenv("HOSTILE_AT")) refused_at = strtoull(getenv("HOSTILE_AT"), NULL, 10);
    all_refused = is_word("HOSTILE_AT", "all");
    refused_errno = is_word("HOSTILE_HOW", "interrupt") ? EINTR : is_word("HOSTILE_HOW", "zero") ? 0 : EIO;
    one_byte = is_word("HOSTILE_BYTES", "one");
    if (getenv("HOSTILE_TOGETHER")) awaited = strtoull(getenv("HOSTILE_TOGETHER"), NULL, 10);
    window = getenv("HOSTILE_WINDOW");
    if (window) open_window = 0;
    dl_iterate_phdr(note_program, NULL);
}

/* Counts a call, and says whether it is the one that is refused. */
static int is_refused(enum kind kind) {
    if (!open_window) return 0;
    uint64_t number = atomic_fetch_add(&counts->calls[kind], 1) + 1;
    if (kind != refused_kind || (number != refused_at && !all_refused)) return 0;
    atomic_fetch_add(&counts->refused, 1);
    return 1;
}

static int is_memory_refused(void *from, size_t size) {
    if (!is_program(from)) {
        atomic_fetch_add(&counts->foreign, 1);
        return 0;
    }
    if (open_window) {
        atomic_fetch_add(&counts->asked, size);
        uint64_t greatest = atomic_load(&counts->greatest);
        while (size > greatest && !atomic_compare_exchange_weak(&counts->greatest, &greatest, size)) {}
    }
    if (!is_refused(MEMORY)) return 0;
    errno = ENOMEM;
    return 1;
}

#define CALLER __builtin_return_address(0)

void *malloc(size_t size) {
    if (is_memory_refused(CALLER, size)) return NULL;
    return next_malloc ? next_malloc(size) : early_block(size);
}

void *calloc(size_t number, size_t size) {
    if (is_memory_refused(CALLER, number * size)) return NULL;
    return next_calloc ? next_calloc(number, size) : early_block(number * size);
}

void *realloc(void *block, size_t size) {
    if (is_memory_refused(CALLER, size)) return NULL;
    if (!is_early(block)) return next_realloc(block, size);
    void *moved = next_malloc(size);
    size_t left = (size_t)(early + sizeof early - (char *)block);
    return moved ? memcpy(moved, block, size < left ? size : left) : NULL;
}

void *aligned_alloc(size_t alignment, size_t size) {
    return is_memory_refused(CALLER, size) ? NULL : next_aligned_alloc(alignment, size);
}

int posix_memalign(void **block, size_t alignment, size_t size) {
    return is_memory_refused(CALLER, size) ? ENOMEM : next_posix_memalign(block, alignment, size);
}

void free(void *block) {
    static void (*next_free)(void *);
    if (!block || is_early(block)) return;
    if (!next_free) next_free = (void (*)(void *))dlsym(RTLD_NEXT, "free");
    next_free(block);
}

struct started { void *(*work)(void *); void *given; };

static _Atomic uint64_t at_work;
static _Atomic uint64_t begun;

/* How many milliseconds a started thread waits for others. */
enum { PATIENCE = 3000 };

/* The work of a thread, between two counts of those that are at work. */
static void *counted_work(void *started) {
    struct started own = *(struct started *)started;
    free(started);
    uint64_t now = atomic_fetch_add(&at_work, 1) + 1;
    uint64_t most = atomic_load(&counts->together);
    while (now > most && !atomic_compare_exchange_weak(&counts->together, &most, now)) {}
    for (int turn = 0; turn < PATIENCE && atomic_load(&counts->together) < awaited; turn++) usleep(1000);
    void *made = own.work(own.given);
    atomic_fetch_sub(&at_work, 1);
    atomic_fetch_sub(&begun, 1);
    return made;
}

int pthread_create(pthread_t *thread, const pthread_attr_t *how, void *(*work)(void *), void *given) {
    if (!is_program(CALLER)) return next_pthread_create(thread, how, work, given);
    if (is_refused(THREAD)) return EAGAIN;
    struct started *own = next_malloc(sizeof *own);
    if (!own) return EAGAIN;
    *own = (struct started){work, given};
    atomic_fetch_add(&begun, 1);
    int refused = next_pthread_create(thread, how, counted_work, own);
    if (refused) atomic_fetch_sub(&begun, 1);
    return refused;
}

/* Counts a read or write of the program, if threads are started. */
static void count_beside(void) {
    if (atomic_load(&begun)) atomic_fetch_add(&counts->beside, 1);
}

/* What a refused read or write answers. */
static ssize_t refusal(void) {
    if (refused_errno == 0) return 0;
    errno = refused_errno;
    return -1;
}

ssize_t read(int file, void *bytes, size_t size) {
    if (is_program(CALLER)) count_beside();
    if (is_program(CALLER) && is_refused(READ)) return refusal();
    return syscall(SYS_read, file, bytes, one_byte && size > 1 ? 1 : size);
}

/* A write to standard output opens the window, or shuts it. */
static void turn_window(int file, const void *bytes, size_t size) {
    if (!window || file != STDOUT_FILENO) return;
    size_t length = strlen(window);
    open_window = size >= length && memcmp(bytes, window, length) == 0;
}

static ssize_t write_from(void *from, int file, const void *bytes, size_t size) {
    if (is_program(from)) count_beside();
    if (is_program(from) && is_refused(WRITE)) return refusal();
    turn_window(file, bytes, size);
    return syscall(SYS_write, file, bytes, one_byte && size > 1 ? 1 : size);
}

ssize_t write(int file, const void *bytes, size_t size) {
    return write_from(CALLER, file, bytes, size);
}

ssize_t __write(int file, const void *bytes, size_t size) {
    return write_from(CALLER, file, bytes, size);
}
