/* The allocator with calls for its test, which node makes: tests/heap.mjs. */
#include "../module/heap.c"

/* Returns the address of a block, or 0. */
__attribute__((export_name("test_alloc"))) u64 test_alloc(u64 bytes) {
    Allocation made = rattle_alloc(bytes, 16);
    return made.is_block ? made.bytes : 0;
}

__attribute__((export_name("test_realloc"))) u64 test_realloc(void *block, u64 bytes) {
    Allocation made = rattle_realloc(block, 0, bytes, 16);
    return made.is_block ? made.bytes : 0;
}

__attribute__((export_name("test_dealloc"))) void test_dealloc(void *block) { rattle_dealloc(block); }

static u64 count_listed(u64 *lists) {
    u64 count = 0;
    *lists = 0;
    for (unsigned list = 0; list < LISTS; list++)
        for (Block *block = free_lists[list]; block; block = block->next) {
            if (!is_free(block) || list_of(block->size) != list || (block->next && block->next->previous != block)) return ~(u64)0;
            *lists |= (u64)1 << list;
            count++;
        }
    return count;
}

/* Returns the number of used blocks, or -1 if the heap is inconsistent: sizes and neighbours of all blocks, free blocks side by side,
 * the lists of free blocks. */
__attribute__((export_name("test_heap"))) long long test_heap(void) {
    long long used = 0;
    u64 free_blocks = 0, before = 0, lists;
    int was_free = 0;
    if (!heap_end) return 0;
    Block *block = (Block *)(((address)&__heap_base + 15) & ~(address)15);
    for (;;) {
        if (block->before != before || size_of(block) < SMALLEST || size_of(block) % 16) return -1;
        if (is_free(block) && was_free) return -1;
        was_free = is_free(block);
        if (was_free) free_blocks++;
        else used++;
        before = size_of(block);
        if (block == last_block) break;
        block = block_at(block, before);
    }
    if ((u8 *)block + before != heap_end || (u64)(address)heap_end > __builtin_wasm_memory_size(0) * PAGE) return -1;
    return count_listed(&lists) == free_blocks && lists == filled_lists ? used : -1;
}
