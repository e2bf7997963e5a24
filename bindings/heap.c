/* What the library takes from C as WebAssembly (scripts/one-file): above all a heap, with a list of free blocks for each power of two, and
 * new ones from the end. */
typedef __SIZE_TYPE__ size_t;
typedef __UINT64_TYPE__ uint64_t;

/* What stands before each block. */
struct head {
    struct head *next; /* where the block is free: the next free one of its size */
    size_t order;      /* head and block have 2 to this many bytes */
};
struct taken { uint64_t ok; void *block; };

enum { LEAST = 5, MOST = 40, PAGE = 65536 };
extern char __heap_base;
static struct head *free_heads[MOST + 1];
static char *end = &__heap_base;
static char nothing;

/* New memory of so many bytes at the end, or null. */
static struct head *grow(size_t size) {
    char *begin = (char *)(((size_t)end + 15) & ~(size_t)15), *wanted = begin + size;
    size_t have = __builtin_wasm_memory_size(0) * PAGE;
    if ((size_t)wanted > have && __builtin_wasm_memory_grow(0, ((size_t)wanted - have + PAGE - 1) / PAGE) == (size_t)-1) return 0;
    end = wanted;
    return (struct head *)begin;
}

void *malloc(size_t size) {
    size_t order = LEAST;
    while (order <= MOST && ((size_t)1 << order) - sizeof(struct head) < size) order++;
    if (order > MOST) return 0;
    struct head *head = free_heads[order];
    if (head) free_heads[order] = head->next;
    else if (!(head = grow((size_t)1 << order))) return 0;
    head->order = order;
    return head + 1;
}

void free(void *block) {
    if (!block) return;
    struct head *head = (struct head *)block - 1;
    head->next = free_heads[head->order];
    free_heads[head->order] = head;
}

static struct taken answer(void *block) { return (struct taken){block != 0, block ? block : &nothing}; }
struct taken rattle_alloc(size_t size, size_t align) { return answer(malloc(size ? size : align)); }
void rattle_dealloc(void *block) { free(block); }
struct taken rattle_realloc(void *block, size_t kept, size_t size, size_t align) {
    void *moved = malloc(size ? size : align);
    if (moved) {
        __builtin_memcpy(moved, block, kept < size ? kept : size);
        free(block);
    }
    return answer(moved);
}

/* The text of a system's error: none of the page's files comes from a system. */
int __xpg_strerror_r(int number, char *text, size_t room) {
    (void)number;
    if (room) *text = 0;
    return 22;
}
