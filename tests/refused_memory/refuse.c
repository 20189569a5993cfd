// Refuses one allocation of a program that `rt try` has made: the one whose number, from 1, is in the environment
// variable REFUSE. At its end the program writes to its standard error how many there were.
typedef struct {
    long there;
    void *place;
} Tried;

Tried rattle_alloc(unsigned long size, unsigned long align);
Tried rattle_realloc(void *old, unsigned long kept, unsigned long size, unsigned long align);
char *getenv(const char *name);
int atoi(const char *text);
int dprintf(int file, const char *form, ...);
void __real__exit(int status);

static int count = 0;
static int number = 0;

__attribute__((constructor)) static void begin(void)
{
    const char *text = getenv("REFUSE");
    number = text ? atoi(text) : 0;
}

__attribute__((destructor)) static void end(void)
{
    dprintf(2, "allocations=%d\n", count);
}

// A program with threads ends by `_exit`, which calls no destructor.
void __wrap__exit(int status)
{
    end();
    __real__exit(status);
}

static int is_refused(void)
{
    return __atomic_add_fetch(&count, 1, __ATOMIC_SEQ_CST) == number;
}

Tried try_rattle_alloc(unsigned long size, unsigned long align)
{
    return is_refused() ? (Tried){0, (void *)4096} : rattle_alloc(size, align);
}

Tried try_rattle_realloc(void *old, unsigned long kept, unsigned long size, unsigned long align)
{
    return is_refused() ? (Tried){0, (void *)4096} : rattle_realloc(old, kept, size, align);
}
