/* Refuses one growth of memory: the call of malloc or realloc whose number the variable REFUSE names, from 1 on. It
   writes a byte to descriptor 9 then. It is loaded before a program by LD_PRELOAD, and needs no header. */
typedef unsigned long size_t;

extern void *__libc_malloc(size_t size);
extern void *__libc_realloc(void *block, size_t size);
extern char *getenv(const char *name);
extern long atol(const char *digits);
extern long write(int file, const void *bytes, size_t count);

static long left;

__attribute__((constructor)) static void begin(void)
{
    const char *number = getenv("REFUSE");
    left = number ? atol(number) : 0;
}

static int is_refused(void)
{
    if (left > 0 && --left == 0) {
        write(9, "", 1);
        return 1;
    }
    return 0;
}

void *malloc(size_t size)
{
    return is_refused() ? 0 : __libc_malloc(size);
}

void *realloc(void *block, size_t size)
{
    return is_refused() ? 0 : __libc_realloc(block, size);
}
