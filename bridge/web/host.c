// What the library takes of a C library, for a WebAssembly module that imports nothing: memory, and sums of 128 bits.
//
// A block of memory has 2^k bytes, behind a head of 16 bytes that holds k. The freed blocks of one k are a list.
typedef unsigned long long u64;
typedef long long i64;
typedef unsigned char u8;
typedef unsigned __int128 u128;
typedef __int128 i128;

typedef struct {
    u64 ok;
    void *at;
} Tried;

typedef struct Block {
    u64 k;
    struct Block *next;
} Block;

enum { HEAD = 16, SMALLEST = 5, PAGE = 16 };

extern u8 __heap_base;
static u8 *top;
static u64 limit;
static Block *freed[48];

// In a module that is lowered to 32 bits, the -1 of a refusal comes as 2^32 - 1.
static int grow(u64 pages) {
    return __builtin_wasm_memory_grow(0, pages) < 0xffffffff;
}

// A block that was never taken before. Memory grows by 4 MiB at least, if it can.
static Block *new_block(u64 k) {
    u64 size = 1ull << k;
    if (!top) {
        top = (u8 *)(((u64)&__heap_base + 15) & ~15ull);
        limit = __builtin_wasm_memory_size(0) << PAGE;
    }
    if ((u64)top + size > limit) {
        u64 needed = ((u64)top + size - limit + 0xffff) >> PAGE;
        u64 pages = needed < 64 ? 64 : needed;
        if (!grow(pages)) {
            pages = needed;
            if (!grow(pages)) return 0;
        }
        limit += pages << PAGE;
    }
    Block *found = (Block *)top;
    top += size;
    found->k = k;
    return found;
}

void *host_malloc(u64 size) {
    if (size > (1ull << 40)) return 0;
    u64 k = 64 - __builtin_clzll(size + HEAD - 1);
    if (k < SMALLEST) k = SMALLEST;
    Block *found = freed[k];
    if (found) freed[k] = found->next;
    else if (!(found = new_block(k))) return 0;
    return (u8 *)found + HEAD;
}

void host_free(void *at) {
    if (!at) return;
    Block *given = (Block *)((u8 *)at - HEAD);
    given->next = freed[given->k];
    freed[given->k] = given;
}

// The three calls of the compiled library. Alignment is 16 at least, which is all that it asks for.
Tried rattle_alloc(u64 size, u64 align) {
    void *at = host_malloc(size ? size : align);
    return (Tried){at != 0, at};
}

Tried rattle_realloc(void *old, u64 kept, u64 size, u64 align) {
    if (!size) size = align;
    Block *block = (Block *)((u8 *)old - HEAD);
    u64 room = (1ull << block->k) - HEAD;
    if (size <= room && (size > room / 4 || block->k <= SMALLEST)) return (Tried){1, old};
    void *at = host_malloc(size);
    if (!at) return (Tried){0, 0};
    __builtin_memcpy(at, old, kept < size ? kept : size);
    host_free(old);
    return (Tried){1, at};
}

void rattle_dealloc(void *at) {
    host_free(at);
}

// LLVM calls these by name. With bulk memory the first three are one instruction each.
void *memcpy(void *to, const void *from, u64 size) {
    __asm__ volatile("local.get %0\nlocal.get %1\nlocal.get %2\nmemory.copy 0, 0" ::"r"(to), "r"(from), "r"(size));
    return to;
}

void *memmove(void *to, const void *from, u64 size) {
    __asm__ volatile("local.get %0\nlocal.get %1\nlocal.get %2\nmemory.copy 0, 0" ::"r"(to), "r"(from), "r"(size));
    return to;
}

void *memset(void *to, int byte, u64 size) {
    __asm__ volatile("local.get %0\nlocal.get %1\nlocal.get %2\nmemory.fill 0" ::"r"(to), "r"(byte), "r"(size));
    return to;
}

int memcmp(const void *left, const void *right, u64 size) {
    const u8 *a = left, *b = right;
    for (u64 at = 0; at < size; at++)
        if (a[at] != b[at]) return a[at] < b[at] ? -1 : 1;
    return 0;
}

typedef union {
    u128 whole;
    i128 sig;
    struct {
        u64 low, high;
    };
} Halves;

u128 __multi3(u128 x, u128 y) {
    Halves a = {x}, b = {y}, product;
    u64 a0 = a.low & 0xffffffff, a1 = a.low >> 32, b0 = b.low & 0xffffffff, b1 = b.low >> 32;
    u64 first = a0 * b0, second = a1 * b0 + (first >> 32), third = a0 * b1 + (second & 0xffffffff);
    product.low = third << 32 | (first & 0xffffffff);
    product.high = a1 * b1 + (second >> 32) + (third >> 32) + a.low * b.high + a.high * b.low;
    return product.whole;
}

u128 __ashlti3(u128 x, int n) {
    Halves a = {x}, shifted;
    if (n & 64) {
        shifted.low = 0;
        shifted.high = a.low << (n & 63);
    } else {
        shifted.low = a.low << (n & 63);
        shifted.high = a.high << (n & 63) | a.low >> 1 >> (63 - (n & 63));
    }
    return shifted.whole;
}

u128 __lshrti3(u128 x, int n) {
    Halves a = {x}, shifted;
    if (n & 64) {
        shifted.high = 0;
        shifted.low = a.high >> (n & 63);
    } else {
        shifted.high = a.high >> (n & 63);
        shifted.low = a.low >> (n & 63) | a.high << 1 << (63 - (n & 63));
    }
    return shifted.whole;
}

i128 __ashrti3(i128 x, int n) {
    Halves a, shifted;
    a.sig = x;
    if (n & 64) {
        shifted.high = (u64)((i64)a.high >> 63);
        shifted.low = (u64)((i64)a.high >> (n & 63));
    } else {
        shifted.high = (u64)((i64)a.high >> (n & 63));
        shifted.low = a.low >> (n & 63) | a.high << 1 << (63 - (n & 63));
    }
    return shifted.sig;
}
