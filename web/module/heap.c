/* The heap of the WebAssembly module: what the compiled code and the host call for memory.
 *
 * Blocks lie side by side. The 16 bytes before a block hold its size and the size of the block before it, so a released block merges
 * with free neighbours at once. Free blocks are in lists by size, two lists for each power of two. Memory grows by memory.grow; if the
 * browser refuses that, the call reports that there is no memory. A pointer has four bytes on wasm32 and eight on wasm64; sizes have
 * eight on both.
 */
typedef unsigned long address;
typedef unsigned long long u64;
typedef unsigned char u8;

extern u8 __heap_base;

#define PAGE ((u64)65536)
#define HEADER ((u64)16)
#define SMALLEST ((u64)48)
#define USED ((u64)1)
#define LISTS 64
/* No block is larger: 2 GiB on wasm32, 16 GiB on wasm64. */
#define LARGEST ((u64)1 << (sizeof(address) == 8 ? 34 : 31))

/* The links are meaningful only in a free block; they overlap its bytes. */
typedef struct Block {
    u64 size;   /* in bytes, with the header; the lowest bit is USED */
    u64 before; /* the size of the block before it, 0 for the first */
    struct Block *next, *previous;
} Block;

static u8 *heap_end;
static Block *last_block;
static Block *free_lists[LISTS];
static u64 filled_lists; /* bit N: free_lists[N] has a block */

static u64 size_of(const Block *block) { return block->size & ~USED; }

static int is_free(const Block *block) { return block && !(block->size & USED); }

static Block *block_at(const Block *block, u64 distance) { return (Block *)((u8 *)block + distance); }

static Block *block_after(const Block *block) { return block == last_block ? 0 : block_at(block, size_of(block)); }

static Block *block_before(const Block *block) { return block->before ? (Block *)((u8 *)block - block->before) : 0; }

static Block *header_of(void *bytes) { return (Block *)((u8 *)bytes - HEADER); }

static unsigned list_of(u64 size) {
    unsigned power = 63 - __builtin_clzll(size);
    unsigned list = (power - 5) * 2 + ((size >> (power - 1)) & 1);
    return list < LISTS ? list : LISTS - 1;
}

static void insert_free(Block *block) {
    unsigned list = list_of(block->size);
    block->previous = 0;
    block->next = free_lists[list];
    if (block->next) block->next->previous = block;
    free_lists[list] = block;
    filled_lists |= (u64)1 << list;
}

static void remove_free(Block *block) {
    unsigned list = list_of(block->size);
    if (block->previous) block->previous->next = block->next;
    else free_lists[list] = block->next;
    if (block->next) block->next->previous = block->previous;
    if (!free_lists[list]) filled_lists &= ~((u64)1 << list);
}

/* Sets the size of a free block that is in no list. */
static void set_size(Block *block, u64 size, int is_last) {
    block->size = size;
    if (is_last) {
        last_block = block;
        heap_end = (u8 *)block + size;
    } else {
        block_at(block, size)->before = size;
    }
}

/* Makes a block of the size used, from a larger free block that is in no list; the rest stays free. */
static void *use(Block *block, u64 size) {
    u64 rest = block->size - size;
    if (rest >= SMALLEST) {
        int is_last = block == last_block;
        Block *other = block_at(block, size);
        other->before = size;
        block->size = size;
        set_size(other, rest, is_last);
        Block *after = block_after(other);
        if (is_free(after)) {
            int after_is_last = after == last_block;
            remove_free(after);
            set_size(other, rest + after->size, after_is_last);
        }
        insert_free(other);
    }
    block->size |= USED;
    return (u8 *)block + HEADER;
}

/* Grows the memory until it reaches this end; returns whether it does. Tries to grow by an eighth, so that growth stays rare. */
static int has_memory_to(u64 end) {
    u64 pages = __builtin_wasm_memory_size(0);
    if (end <= pages * PAGE) return 1;
    u64 missing = (end - pages * PAGE + PAGE - 1) / PAGE, eighth = pages / 8;
    if (missing < eighth && __builtin_wasm_memory_grow(0, (address)eighth) != (address)-1) return 1;
    return missing < ((u64)1 << 32) && __builtin_wasm_memory_grow(0, (address)missing) != (address)-1;
}

/* Returns the size of a block for so many bytes: a multiple of 16, so that every block is aligned to 16. */
static u64 block_size(u64 bytes) {
    u64 size = (bytes + HEADER + 15) & ~(u64)15;
    return size < SMALLEST ? SMALLEST : size;
}

/* Takes a free block of at least the size out of its list; returns 0 if there is none. */
static Block *take_free(u64 size) {
    unsigned list = list_of(size);
    for (Block *block = free_lists[list]; block; block = block->next)
        if (block->size >= size) {
            remove_free(block);
            return block;
        }
    /* Every block of a later list is large enough. */
    u64 later = list + 1 < LISTS ? filled_lists >> (list + 1) : 0;
    if (!later) return 0;
    Block *block = free_lists[list + 1 + __builtin_ctzll(later)];
    remove_free(block);
    return block;
}

/* Adds a block of the size at the end of the heap, or extends the last block to it if that is free. */
static Block *extend_heap(u64 size) {
    if (!heap_end) heap_end = (u8 *)(((address)&__heap_base + 15) & ~(address)15);
    Block *block = is_free(last_block) ? last_block : (Block *)heap_end;
    if (!has_memory_to((u64)(address)block + size)) return 0;
    if (block == last_block) remove_free(block);
    else block->before = last_block ? size_of(last_block) : 0;
    set_size(block, size, 1);
    return block;
}

static void *allocate(u64 bytes) {
    if (bytes >= LARGEST) return 0;
    u64 size = block_size(bytes);
    Block *block = take_free(size);
    if (!block) block = extend_heap(size);
    return block ? use(block, size) : 0;
}

static void release(void *bytes) {
    Block *block = header_of(bytes), *after = block_after(block), *before = block_before(block);
    u64 size = size_of(block);
    int is_last = block == last_block;
    if (is_free(after)) {
        is_last = after == last_block;
        remove_free(after);
        size += after->size;
    }
    if (is_free(before)) {
        remove_free(before);
        size += before->size;
        block = before;
    }
    set_size(block, size, is_last);
    insert_free(block);
}

/* Tries to give a used block this size where it is; returns whether it could. */
static int resize_in_place(Block *block, u64 size) {
    u64 has = size_of(block);
    Block *after = block_after(block);
    int is_near_end = !after || (is_free(after) && after == last_block);
    u64 possible = has + (is_free(after) ? after->size : 0);
    if (size > possible && !(is_near_end && has_memory_to((u64)(address)block + size))) return 0;
    if (size <= has) {
        block->size = has;
    } else {
        if (is_free(after)) remove_free(after);
        set_size(block, size > possible ? size : possible, is_near_end);
    }
    use(block, size);
    return 1;
}

/* Gives a block another size, elsewhere if necessary, with its first bytes; returns 0, and changes nothing, if there is no memory. */
static void *reallocate(void *bytes, u64 wanted) {
    if (wanted >= LARGEST) return 0;
    Block *block = header_of(bytes);
    if (resize_in_place(block, block_size(wanted))) return bytes;
    void *moved = allocate(wanted);
    if (!moved) return 0;
    __builtin_memcpy(moved, bytes, (address)(size_of(block) - HEADER));
    release(bytes);
    return moved;
}

/* What compiled code calls. The alignment divides 16. A block of 0 bytes gets the bytes of its alignment; a failed call returns the
 * address of `nothing`, because the pointer of a result is never null. */
typedef struct {
    u64 is_block, bytes;
} Allocation;

static u8 nothing[16] __attribute__((aligned(16)));

static Allocation allocation_of(void *bytes) { return (Allocation){bytes != 0, (address)(bytes ? bytes : nothing)}; }

Allocation rattle_alloc(u64 bytes, u64 alignment) { return allocation_of(allocate(bytes ? bytes : alignment)); }

Allocation rattle_realloc(void *block, u64 kept, u64 bytes, u64 alignment) {
    (void)kept; /* all bytes of the block are kept */
    return allocation_of(reallocate(block, bytes ? bytes : alignment));
}

void rattle_dealloc(void *block) {
    if (block) release(block);
}

/* What the host calls for the bytes that it passes: the address of so many bytes, 0 if there is no memory, and their end. */
__attribute__((export_name("allocate"))) void *host_allocate(u64 bytes) { return allocate(bytes ? bytes : 1); }

__attribute__((export_name("release"))) void host_release(void *block) {
    if (block) release(block);
}
