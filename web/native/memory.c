/* The heap of the library for C: what the compiled code calls for memory, over malloc. The alignment is at most that of malloc, 16. A
 * block of 0 bytes gets the bytes of its alignment; a failed call returns the address of `nothing`, because the pointer of a result is
 * never null. */
typedef __SIZE_TYPE__ size_t;

void *malloc(size_t bytes);
void *realloc(void *block, size_t bytes);
void free(void *block);

typedef struct {
    size_t is_block;
    void *bytes;
} Allocation;

static _Alignas(16) unsigned char nothing[16];

static Allocation allocation_of(void *block) { return (Allocation){block != 0, block ? block : nothing}; }

Allocation rattle_alloc(size_t bytes, size_t alignment) { return allocation_of(malloc(bytes ? bytes : alignment)); }

Allocation rattle_realloc(void *block, size_t kept, size_t bytes, size_t alignment) {
    (void)kept;
    return allocation_of(realloc(block, bytes ? bytes : alignment));
}

void rattle_dealloc(void *block) { free(block); }
