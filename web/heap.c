// A plain heap over the memory of a WebAssembly module, and the few functions that clang calls of its own accord.
// Blocks have sizes of powers of two, each with its class in front; what is given back is kept for the next block of its class. It is tested,
// not proved.
typedef unsigned long word;
typedef unsigned char byte;

enum { HEAD = 16, SMALLEST = 5, CLASSES = 64, PAGE = 65536, FEWEST_PAGES = 16 };

extern byte __heap_base;
static byte *top, *end;
static void *kept[CLASSES];
static word used, limit = (word)1 << 40;

// From now on no more than so many bytes are lent at once beside those that are, heads among them.
void heap_limit(word bytes) { limit = used + bytes; }

static int class_of(word size) {
    int class = SMALLEST;
    while (((word)1 << class) < size + HEAD) class++;
    return class;
}

// Whether there are so many bytes behind the top.
static int has_room(word size) {
    if (!top) {
        top = (byte *)(((word)&__heap_base + HEAD - 1) & ~(word)(HEAD - 1));
        end = (byte *)(__builtin_wasm_memory_size(0) * PAGE);
    }
    if ((word)(end - top) >= size) return 1;
    word pages = (size - (word)(end - top) + PAGE - 1) / PAGE;
    if (pages < FEWEST_PAGES) pages = FEWEST_PAGES;
    if (__builtin_wasm_memory_grow(0, pages) == (word)-1) return 0;
    end += pages * PAGE;
    return 1;
}

void *heap_take(word size) {
    if (size > (word)1 << 40) return 0;
    int class = class_of(size);
    word whole = (word)1 << class;
    if (used + whole > limit) return 0;
    byte *block = kept[class];
    if (block) {
        kept[class] = *(void **)block;
    } else {
        if (!has_room(whole)) return 0;
        block = top + HEAD;
        top += whole;
        *(word *)(block - HEAD) = class;
    }
    used += whole;
    return block;
}

void heap_give(void *block) {
    word class = *(word *)((byte *)block - HEAD);
    *(void **)block = kept[class];
    kept[class] = block;
    used -= (word)1 << class;
}

void *heap_resize(void *block, word size) {
    word room = ((word)1 << *(word *)((byte *)block - HEAD)) - HEAD;
    if (size <= room) return block;
    void *larger = heap_take(size);
    if (!larger) return 0;
    __builtin_memcpy(larger, block, room);
    heap_give(block);
    return larger;
}

// ---- what clang calls: bytes
void *memcpy(void *to, const void *from, word count) {
    byte *a = to;
    const byte *b = from;
    for (word i = 0; i < count; i++) a[i] = b[i];
    return to;
}

// (the instruction of the module that moves bytes)
void *memmove(void *to, const void *from, word count) {
    __builtin_memmove(to, from, count);
    return to;
}

int memcmp(const void *left, const void *right, word count) {
    const byte *a = left, *b = right;
    for (word i = 0; i < count; i++)
        if (a[i] != b[i]) return a[i] < b[i] ? -1 : 1;
    return 0;
}

int bcmp(const void *left, const void *right, word count) { return memcmp(left, right, count); }

// ---- what clang calls: numbers of 128 bits
typedef __int128 wide;
typedef union {
    unsigned __int128 all;
    struct {
        word low, high;
    };
} halves;

wide __multi3(wide x, wide y) {
    halves a, b, product;
    a.all = x, b.all = y;
    word mask = 0xffffffff, a0 = a.low & mask, a1 = a.low >> 32, b0 = b.low & mask, b1 = b.low >> 32;
    word t = a0 * b0, first = t & mask;
    t = a1 * b0 + (t >> 32);
    word second = t & mask, third = t >> 32;
    t = a0 * b1 + second;
    product.low = (t << 32) | first;
    product.high = a1 * b1 + third + (t >> 32) + a.high * b.low + a.low * b.high;
    return product.all;
}

wide __ashlti3(wide x, int by) {
    halves a, out;
    if (!by) return x;
    a.all = x;
    if (by & 64) {
        out.low = 0;
        out.high = a.low << (by & 63);
    } else {
        out.low = a.low << by;
        out.high = (a.high << by) | (a.low >> (64 - by));
    }
    return out.all;
}

wide __lshrti3(wide x, int by) {
    halves a, out;
    if (!by) return x;
    a.all = x;
    if (by & 64) {
        out.high = 0;
        out.low = a.high >> (by & 63);
    } else {
        out.high = a.high >> by;
        out.low = (a.low >> by) | (a.high << (64 - by));
    }
    return out.all;
}
