/* The three functions by which the library takes memory and gives it back. */
#include <stddef.h>
#include <stdint.h>
#include <stdlib.h>

struct taken { uint64_t ok; void *block; };
static char nothing;

static struct taken answer(void *block) { return (struct taken){block != NULL, block != NULL ? block : &nothing}; }
struct taken rattle_alloc(size_t size, size_t align) { return answer(malloc(size ? size : align)); }
struct taken rattle_realloc(void *block, size_t kept, size_t size, size_t align) { (void)kept; return answer(realloc(block, size ? size : align)); }
void rattle_dealloc(void *block) { free(block); }
