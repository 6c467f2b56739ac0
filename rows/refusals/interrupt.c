/* Interrupts the reads and the writes of a program that is started with this in LD_PRELOAD: every other call, from the
   first one on, is answered as where a signal came before anything was read or written. The first read so and the first
   write write a byte to the file that INTERRUPT_NOTE numbers. */
typedef unsigned long size_t;
extern int *__errno_location(void);
extern void *dlsym(void *library, const char *name);
extern char *getenv(const char *name);
extern int atoi(const char *text);

#define NEXT ((void *)-1L)
#define INTERRUPTED 4

typedef long (*write_call)(int file, const void *bytes, size_t size);
typedef long (*read_call)(int file, void *bytes, size_t size);
typedef long (*send_call)(int file, const void *bytes, size_t size, int flags);
typedef long (*receive_call)(int file, void *bytes, size_t size, int flags);

/* Of the kind r or w. */
static int is_interrupted(char kind) {
    static unsigned long calls;
    static int r_is_noted, w_is_noted;
    int *is_noted = kind == 'r' ? &r_is_noted : &w_is_noted;
    char *note = getenv("INTERRUPT_NOTE");
    if (calls++ % 2) {
        return 0;
    }
    if (!*is_noted && note) {
        *is_noted = 1;
        ((write_call)dlsym(NEXT, "write"))(atoi(note), &kind, 1);
    }
    *__errno_location() = INTERRUPTED;
    return 1;
}

long read(int file, void *bytes, size_t size) {
    return is_interrupted('r') ? -1 : ((read_call)dlsym(NEXT, "read"))(file, bytes, size);
}

long recv(int file, void *bytes, size_t size, int flags) {
    return is_interrupted('r') ? -1 : ((receive_call)dlsym(NEXT, "recv"))(file, bytes, size, flags);
}

long write(int file, const void *bytes, size_t size) {
    return is_interrupted('w') ? -1 : ((write_call)dlsym(NEXT, "write"))(file, bytes, size);
}

long send(int file, const void *bytes, size_t size, int flags) {
    return is_interrupted('w') ? -1 : ((send_call)dlsym(NEXT, "send"))(file, bytes, size, flags);
}
