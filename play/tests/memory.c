// What lower.test.mjs compiles: code that reads and writes memory in each way that the compiler knows, and answers a number for each seed.
typedef unsigned long long word;
typedef unsigned char byte;
typedef float lanes __attribute__((vector_size(16)));

static word state;
static byte bytes[4096] __attribute__((aligned(16)));
static const word primes[] = {2, 3, 5, 7, 11, 13, 17, 19, 23, 29, 31, 37, 41, 43, 47, 53};

static word draw(void) {
    state ^= state << 13;
    state ^= state >> 7;
    state ^= state << 17;
    return state;
}

#define AT(type, place) (*(volatile type *)(bytes + (place) % 512 * sizeof(type)))

static word narrow(word place) {
    AT(byte, place) = (byte)draw();
    AT(unsigned short, place + 1) = (unsigned short)draw();
    AT(unsigned, place + 2) = (unsigned)draw();
    return AT(signed char, place) + AT(short, place + 1) + AT(int, place + 2) + (word)AT(unsigned short, place);
}

static word wide(word place) {
    AT(word, place) = draw() * primes[place % 16];
    AT(float, place + 1) = (float)(draw() % 1000);
    AT(double, place + 2) = (double)(draw() % 1000);
    return AT(word, place) + (word)AT(float, place + 1) + (word)AT(double, place + 2);
}

static word vectors(word place) {
    lanes *all = (lanes *)bytes;
    all[place % 64] = all[place % 61] * 2.0f + (lanes){1, 2, 3, (float)(place % 100)};
    float sum = all[place % 64][0] + all[place % 64][3];
    return sum > 0 && sum < 1e6f ? (word)sum : 1;
}

static word moved(word place) {
    word count = draw() % 300;
    __builtin_memmove(bytes + place % 1000, bytes + draw() % 1000, count);
    __builtin_memset(bytes + draw() % 2000, (int)place, count);
    return count;
}

static word grown(word place) {
    word before = __builtin_wasm_memory_size(0);
    if (place % 8) return before;
    word at = __builtin_wasm_memory_grow(0, 1) * 65536;
    *(volatile word *)(at + 8 * (place % 8192)) = place;
    return at + *(volatile word *)(at + 8 * (place % 8192)) + __builtin_wasm_memory_grow(0, (word)1 << 31);
}

static word deep(word depth) {
    volatile word here[64];
    here[depth % 64] = depth;
    return depth ? deep(depth - 1) + here[depth % 64] : 0;
}

// With TABLE it is called by a pointer, which engines of 64-bit memories may not know for functions.
#ifdef TABLE
static word (*const ways[])(word) = {narrow, wide, vectors, moved, grown};

static word any(word which, word place) {
    word (*volatile way)(word) = ways[which];
    return way(place);
}
#else
static word any(word which, word place) {
    switch (which) {
        case 0: return narrow(place);
        case 1: return wide(place);
        case 2: return vectors(place);
        case 3: return moved(place);
        default: return grown(place);
    }
}
#endif

__attribute__((export_name("run"))) word run(word seed, word steps) {
    word sum = 0;
    state = seed | 1;
    for (word step = 0; step < steps; step += 1) {
        word which = draw() % 5;
        sum = sum * 31 + any(which, draw());
    }
    for (word place = 0; place < sizeof bytes; place += 1) sum = sum * 31 + bytes[place];
    return sum;
}

__attribute__((export_name("overflow"))) word overflow(word depth) {
    return deep(depth);
}
