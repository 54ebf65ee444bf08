/* The memory of torusmem, from malloc, realloc and free: link it with libtorusmem_c.a. A program with an allocator of
   its own supplies these three functions over that one instead. The three have to be of one allocator, which aligns
   each block to every power of two up to 16 that divides its size, as that of every C library does. It compiles as C and
   as C++. */
#include <stdbool.h>
#include <stddef.h>
#include <stdlib.h>

/* Whether there is memory, and where: `at` is never null. */
struct rattle_tried {
  bool ok;
  void *at;
};

#ifdef __cplusplus
extern "C" {
#endif

struct rattle_tried rattle_alloc(size_t size, size_t align);
struct rattle_tried rattle_realloc(void *at, size_t kept, size_t size, size_t align);
void rattle_dealloc(void *at);

/* Where `at` points if there is no memory. */
static char nowhere;

static struct rattle_tried tried(void *at) {
  struct rattle_tried answer = {at != NULL, at != NULL ? at : &nowhere};
  return answer;
}

/* malloc and realloc may answer null for no bytes, which here would read as a refusal. */
static size_t some_bytes(size_t size, size_t align) { return size > 0 ? size : align; }

struct rattle_tried rattle_alloc(size_t size, size_t align) { return tried(malloc(some_bytes(size, align))); }

/* The first `kept` bytes stay as they were, which realloc sees to. Where it fails, the block is as it was. */
struct rattle_tried rattle_realloc(void *at, size_t kept, size_t size, size_t align) {
  (void)kept;
  return tried(realloc(at, some_bytes(size, align)));
}

void rattle_dealloc(void *at) { free(at); }

#ifdef __cplusplus
}
#endif
