/* Refuses one request for memory of a program that is started with this in LD_PRELOAD: with REFUSE=N its N-th call of
   malloc or realloc is answered as where there is no memory, and a byte is written to the file that REFUSE_NOTE
   numbers. The programs of this repository take all their memory by these two calls. */
typedef unsigned long size_t;
extern void *__libc_malloc(size_t size);
extern void *__libc_realloc(void *old, size_t size);
extern char *getenv(const char *name);
extern int atoi(const char *text);
extern long write(int file, const void *bytes, size_t size);

static long refused_call = -1, note, calls;

static int number_in(const char *name) {
    char *text = getenv(name);
    return text ? atoi(text) : 0;
}

static int is_refused(void) {
    if (refused_call < 0) {
        refused_call = number_in("REFUSE");
        note = number_in("REFUSE_NOTE");
    }
    if (++calls != refused_call) {
        return 0;
    }
    write(note, "r", 1);
    return 1;
}

void *malloc(size_t size) {
    return is_refused() ? 0 : __libc_malloc(size);
}

void *realloc(void *old, size_t size) {
    return is_refused() ? 0 : __libc_realloc(old, size);
}
