/* Preloaded into a program: makes one of its calls go wrong, or several, and tells on file descriptor 9 that it did.

   FAULT is a letter and a number n. The nth call of the letter's kind goes wrong:
   g  a growth is refused
   G  a growth is refused, and so is each later one
   f  a read or a write fails
   i  a read or a write is interrupted
   s  a read or a write moves one byte alone
   z  a write takes nothing
   h  all growths come from a heap of n bytes, to which goes back what is freed; those for which it has no room are refused  */

typedef unsigned long size;

extern char *getenv(const char *);
extern int *__errno_location(void);
extern long syscall(long, ...);
extern void *__libc_malloc(size);
extern void *__libc_calloc(size, size);
extern void *__libc_realloc(void *, size);
extern void *__libc_memalign(size, size);
extern void __libc_free(void *);

enum { NUMBER_OF_READ = 0, NUMBER_OF_WRITE = 1, NUMBER_OF_YIELD = 24 };
enum { INTERRUPTED = 4, FAILED = 5, NO_MEMORY = 12 };

static char kind;
static long left;

__attribute__((constructor)) static void begin(void) {
    const char *fault = getenv("FAULT");
    if (!fault) return;
    kind = *fault++;
    for (; *fault; fault++) left = 10 * left + (*fault - '0');
}

static void tell(void) { syscall(NUMBER_OF_WRITE, 9, "!", 1ul); }

/* Whether this call is the one, or one behind it where these go wrong too. Threads count side by side. */
static int goes_wrong(void) {
    long rest = __atomic_sub_fetch(&left, 1, __ATOMIC_RELAXED);
    if (!rest) tell();
    return !rest || (kind == 'G' && rest < 0);
}

static void *refused(void) {
    *__errno_location() = NO_MEMORY;
    return 0;
}

static int is_refused(void) { return (kind == 'g' || kind == 'G') && goes_wrong(); }

/* The heap: blocks side by side, each behind its head. */
typedef struct {
    size n; /* its bytes, a multiple of the head's */
    size is_free;
} head;

enum { UNIT = sizeof(head), MOST = 1 << 20 };

static char heap[MOST] __attribute__((aligned(64)));
static char is_begun, is_locked, is_told;

static void lock(void) {
    while (__atomic_test_and_set(&is_locked, __ATOMIC_ACQUIRE)) syscall(NUMBER_OF_YIELD);
}
static void unlock(void) { __atomic_clear(&is_locked, __ATOMIC_RELEASE); }

static head *head_at(size place) { return (head *)(heap + place); }
static int is_of_heap(const void *it) { return (const char *)it >= heap && (const char *)it < heap + MOST; }

/* The first free block that has room at such a place, cut to it. Free neighbours become one on the way. */
static void *block_of(size to, size n, size all) {
    size at = 0, next, place;
    for (; at < all; at = next) {
        head *it = head_at(at);
        next = at + UNIT + it->n;
        if (!it->is_free) continue;
        for (; next < all && head_at(next)->is_free; next += UNIT + head_at(next)->n) it->n += UNIT + head_at(next)->n;
        place = (at + UNIT + to - 1) / to * to;
        if (place + n > next) continue;
        if (place > at + UNIT) { /* what stands in front of it stays free */
            it->n = place - UNIT - UNIT - at;
            it = head_at(place - UNIT);
            it->n = next - place;
        }
        if (it->n > n) {
            head_at(place + n)->n = it->n - n - UNIT;
            head_at(place + n)->is_free = 1;
            it->n = n;
        }
        it->is_free = 0;
        return heap + place;
    }
    return 0;
}

static void *take(size to, size n) {
    size all = (size)(left < MOST ? left : MOST) / UNIT * UNIT;
    void *it = 0;
    if (to < UNIT) to = UNIT;
    n = n ? (n + UNIT - 1) / UNIT * UNIT : UNIT;
    lock();
    if (!is_begun) {
        is_begun = 1;
        head_at(0)->n = all - UNIT;
        head_at(0)->is_free = 1;
    }
    if (n < all) it = block_of(to, n, all);
    if (!it && !is_told) is_told = 1, tell();
    unlock();
    return it ? it : refused();
}

static void give_back(void *it) {
    lock();
    ((head *)it)[-1].is_free = 1;
    unlock();
}

static void copy(char *to, const char *from, size n) {
    for (size i = 0; i < n; i++) ((volatile char *)to)[i] = from[i];
}

void *malloc(size n) {
    if (kind == 'h') return take(UNIT, n);
    return is_refused() ? refused() : __libc_malloc(n);
}

void *calloc(size n, size each) {
    if (kind != 'h') return is_refused() ? refused() : __libc_calloc(n, each);
    size all;
    if (__builtin_mul_overflow(n, each, &all)) return refused();
    char *it = take(UNIT, all);
    if (it) for (size i = 0; i < all; i++) ((volatile char *)it)[i] = 0;
    return it;
}

void free(void *it) {
    if (is_of_heap(it)) give_back(it);
    else __libc_free(it);
}

void *realloc(void *old, size n) {
    if (!is_of_heap(old) && (old || kind != 'h')) return is_refused() ? refused() : __libc_realloc(old, n);
    if (!old) return take(UNIT, n);
    size had = ((head *)old)[-1].n;
    if (n && n <= had) return old;
    void *it = n ? take(UNIT, n) : 0;
    if (it) copy(it, old, had);
    if (it || !n) give_back(old);
    return it;
}

void *aligned_alloc(size to, size n) {
    if (kind == 'h') return take(to, n);
    return is_refused() ? refused() : __libc_memalign(to, n);
}

int posix_memalign(void **made, size to, size n) {
    *made = aligned_alloc(to, n);
    return *made ? 0 : NO_MEMORY;
}

static int has_to_fail(long number) {
    return kind == 'f' || kind == 'i' || kind == 's' || (kind == 'z' && number == NUMBER_OF_WRITE);
}

static long moved(long number, int file, const void *bytes, size count) {
    if (has_to_fail(number) && goes_wrong()) {
        if (kind == 'z') return 0;
        if (kind != 's') {
            *__errno_location() = kind == 'i' ? INTERRUPTED : FAILED;
            return -1;
        }
        if (count > 1) count = 1;
    }
    return syscall(number, file, bytes, count);
}

long read(int file, void *bytes, size count) { return moved(NUMBER_OF_READ, file, bytes, count); }
long write(int file, const void *bytes, size count) { return moved(NUMBER_OF_WRITE, file, bytes, count); }
long __write(int file, const void *bytes, size count) { return moved(NUMBER_OF_WRITE, file, bytes, count); }
