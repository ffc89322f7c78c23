// A small heap for WebAssembly, which has no C library. It is trusted: no proof covers it.
// Blocks have a power of two of bytes, from 32 on; one that is given back goes to the list of its size.
typedef __SIZE_TYPE__ size_t;

// Its first byte is Rust's `bool`.
struct tried {
    size_t ok;
    unsigned char *at;
};

struct block {
    size_t order;
    struct block *next;
};

extern unsigned char __heap_base;
static unsigned char nothing;
static unsigned char *top;
static struct block *lists[48];

static struct tried none(void) {
    return (struct tried){0, &nothing};
}

// 16 bytes of a block are its head
static size_t order_of(size_t size) {
    size_t order = 5;
    while (order < 47 && ((size_t)1 << order) - 16 < size) order += 1;
    return order;
}

// Whether the memory has this many bytes, or has grown to them. It grows by an eighth at least, since an engine may take a millisecond for
// each growth of a large memory; by no more than is missing only if there is no room for that.
static int reaches(size_t end) {
    size_t pages = __builtin_wasm_memory_size(0);
    if (end <= pages * 65536) return 1;
    size_t missing = (end - pages * 65536 + 65535) / 65536, more = pages / 8;
    return (missing < more && __builtin_wasm_memory_grow(0, more) != (size_t)-1) || __builtin_wasm_memory_grow(0, missing) != (size_t)-1;
}

struct tried rattle_alloc(size_t size, size_t align) {
    (void)align;
    if (size > (size_t)1 << 40) return none();
    size_t order = order_of(size);
    struct block *block = lists[order];
    if (block) {
        lists[order] = block->next;
        return (struct tried){1, (unsigned char *)(block + 1)};
    }
    if (!top) top = (unsigned char *)(((size_t)&__heap_base + 15) & ~(size_t)15);
    size_t end = (size_t)top + ((size_t)1 << order);
    if (!reaches(end)) return none();
    block = (struct block *)top;
    top = (unsigned char *)end;
    block->order = order;
    return (struct tried){1, (unsigned char *)(block + 1)};
}

void rattle_dealloc(void *at) {
    struct block *block = (struct block *)at - 1;
    block->next = lists[block->order];
    lists[block->order] = block;
}

struct tried rattle_realloc(void *at, size_t kept, size_t size, size_t align) {
    struct block *block = (struct block *)at - 1;
    if (size <= ((size_t)1 << block->order) - 16) return (struct tried){1, at};
    struct tried made = rattle_alloc(size, align);
    if (made.ok) {
        __builtin_memcpy(made.at, at, kept);
        rattle_dealloc(at);
    }
    return made;
}

// For the host: room for the bytes that it passes, and back.
__attribute__((export_name("room"))) void *room(size_t size) {
    struct tried made = rattle_alloc(size, 16);
    return made.ok ? made.at : 0;
}

__attribute__((export_name("give_back"))) void give_back(void *at) {
    rattle_dealloc(at);
}

// The quotient and the rest of two numbers of 128 bits, which there is no library for here.
typedef unsigned __int128 wide;
typedef unsigned long long word;

// The quotient of `high` and `low` after it by `divisor`, if `high` is less than it: two digits of 32 bits, by Knuth's division.
static word long_quotient(word high, word low, word divisor) {
    // so that the divisor has its highest bit, and a digit is guessed too high by 2 at most
    int shift = __builtin_clzll(divisor);
    divisor <<= shift;
    wide dividend = ((wide)high << 64 | low) << shift;
    word first = divisor >> 32, second = divisor & 0xffffffff, rest = (word)(dividend >> 64), quotient = 0;
    for (int digit = 32; digit >= 0; digit -= 32) {
        word next = (word)dividend >> digit & 0xffffffff;
        word guess = rest / first, left = rest % first;
        while (guess >> 32 || guess * second > (left << 32 | next)) {
            guess -= 1;
            left += first;
            if (left >> 32) break;
        }
        rest = (rest << 32 | next) - guess * divisor;
        quotient = quotient << 32 | guess;
    }
    return quotient;
}

wide __udivti3(wide dividend, wide divisor) {
    word high = (word)(dividend >> 64), divisor_high = (word)(divisor >> 64);
    if (!divisor_high) {
        word by = (word)divisor;
        if (!high) return (word)dividend / by;
        return (wide)(high / by) << 64 | long_quotient(high % by, (word)dividend, by);
    }
    // the quotient has at most 64 bits: bit by bit, from the highest that it can have
    wide quotient = 0;
    for (int bit = high ? __builtin_clzll(divisor_high) - __builtin_clzll(high) : -1; bit >= 0; bit -= 1) {
        if (dividend >= divisor << bit) {
            dividend -= divisor << bit;
            quotient |= (wide)1 << bit;
        }
    }
    return quotient;
}

wide __umodti3(wide dividend, wide divisor) {
    return dividend - __udivti3(dividend, divisor) * divisor;
}
