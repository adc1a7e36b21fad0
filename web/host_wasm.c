// What the program calls of an operating system, for a page: a heap in a memory that grows, words, files that lie in this memory,
// and an output that is kept here. A page makes a new instance of the module for each run, puts in words and files, and calls `run`.
// Nothing of this is proved. It stands where the kit's C code and the C library stand in the program for a machine.
typedef unsigned char u8;
typedef unsigned long long u64;
typedef long long i64;
typedef unsigned __int128 u128;

enum { NO_FILE = 2, BAD_NUMBER = 9, NO_ROOM = 12, REFUSED = 13, BAD_PLACE = 22, TOO_MANY_OPEN = 24, NO_PLACES = 29 };  // as Linux has them
static int error;
static int fails(int why) { return error = why, -1; }

// ---- The heap. A block of class c has 2^c bytes, and 16 bytes before it that hold c. Free blocks of a class are a list. ----

typedef struct Block { struct Block *next; } Block;
extern u8 __heap_base;
static Block *free_blocks[41];
static u64 top, end;

static u64 *class_of(void *block) { return (u64 *)((u8 *)block - 16); }

static void *take(u64 size) {
    u64 class = 4;
    while (class < 41 && (u64)1 << class < size) class++;
    if (class == 41) return 0;
    Block *block = free_blocks[class];
    if (block) {
        free_blocks[class] = block->next;
        return block;
    }
    if (!top) {
        top = ((u64)&__heap_base + 15) & ~(u64)15;
        end = (u64)__builtin_wasm_memory_size(0) << 16;
    }
    u64 whole = ((u64)1 << class) + 16;
    if (top + whole > end) {
        u64 pages = ((top + whole - end) >> 16) + 16;
        // A refusal is -1 as a number of 32 bits, once the addresses have so many.
        if ((unsigned)__builtin_wasm_memory_grow(0, pages) == -1u) return 0;
        end += pages << 16;
    }
    block = (Block *)(top + 16);
    *class_of(block) = class;
    top += whole;
    return block;
}

static void give(void *block) {
    if (!block) return;
    Block *it = block;
    it->next = free_blocks[*class_of(block)];
    free_blocks[*class_of(block)] = it;
}

typedef struct { u64 is_there; void *block; } Taken;

Taken rattle_alloc(u64 size, u64 align) {
    void *block = take(size ? size : align);
    return (Taken){block != 0, block};
}

Taken rattle_realloc(void *old, u64 kept, u64 size, u64 align) {
    if (!size) size = align;
    if (old && size <= (u64)1 << *class_of(old)) return (Taken){1, old};
    void *block = take(size);
    if (!block) return (Taken){0, old};
    if (old) __builtin_memcpy(block, old, kept < size ? kept : size);
    give(old);
    return (Taken){1, block};
}

void rattle_dealloc(void *block) { give(block); }

// ---- Words, files and output. ----

typedef struct { u8 *at; u64 size; } Bytes;
static Bytes words[8], names[4], files[4], output_bytes;
static u64 word_count, file_count, output_room;
// Files that are open have the numbers 3, 4 and so on.
static struct { Bytes *file; u64 place; } opened[8];
enum { FIRST = 3, MOST = 8 };

int open(const u8 *name, int flags, ...) {
    u64 size = 0, file = 0, slot = 0;
    while (name[size]) size++;
    while (file < file_count && (names[file].size != size || __builtin_memcmp(names[file].at, name, size))) file++;
    if (file == file_count) return fails(NO_FILE);
    if (flags & 3) return fails(REFUSED);  // files are read, and never written
    while (slot < MOST && opened[slot].file) slot++;
    if (slot == MOST) return fails(TOO_MANY_OPEN);
    opened[slot].file = &files[file];
    opened[slot].place = 0;
    return FIRST + slot;
}

static int is_open(int number) { return number >= FIRST && number < FIRST + MOST && opened[number - FIRST].file; }

int close(int number) {
    if (!is_open(number)) return fails(BAD_NUMBER);
    opened[number - FIRST].file = 0;
    return 0;
}

i64 lseek(int number, i64 by, int from) {
    if (!is_open(number)) return fails(number < FIRST ? NO_PLACES : BAD_NUMBER);
    u64 *place = &opened[number - FIRST].place;
    i64 to = by + (i64)(from == 0 ? 0 : from == 1 ? *place : opened[number - FIRST].file->size);
    return to < 0 ? fails(BAD_PLACE) : (i64)(*place = to);
}

i64 read(int number, u8 *into, u64 room) {
    if (!is_open(number)) return number ? fails(BAD_NUMBER) : 0;
    Bytes *file = opened[number - FIRST].file;
    u64 *place = &opened[number - FIRST].place, left = *place < file->size ? file->size - *place : 0;
    u64 size = left < room ? left : room;
    __builtin_memcpy(into, file->at + *place, size);
    *place += size;
    return size;
}

i64 write(int number, const u8 *from, u64 size) {
    if (number != 1) return fails(BAD_NUMBER);
    if (output_bytes.size + size > output_room) {
        u64 room = 2 * (output_bytes.size + size) + 65536;
        u8 *at = take(room);
        if (!at) return fails(NO_ROOM);
        __builtin_memcpy(at, output_bytes.at, output_bytes.size);
        give(output_bytes.at);
        output_bytes.at = at;
        output_room = room;
    }
    __builtin_memcpy(output_bytes.at + output_bytes.size, from, size);
    output_bytes.size += size;
    return size;
}

// (by this name the program tells, before it begins, of a processor that it is not for)
i64 __write(int number, const u8 *from, u64 size) { return write(number, from, size); }

i64 rattle_arg(u64 number, u8 *into, u64 room) {
    if (number >= word_count) return -1;
    if (words[number].size > room) return -2;
    __builtin_memcpy(into, words[number].at, words[number].size);
    return words[number].size;
}

// ---- What there is none of here: an environment, signals, an older processor. ----

int rattle_errno(void) { return error; }
void rattle_set_errno(int value) { error = value; }
i64 rattle_env_at(u64 number, u8 *into, u64 room) { return -1; }
i64 rattle_env(const u8 *name, u8 *into, u64 room) { return -1; }
i64 __sysv_signal(int signal, i64 handler) { return 0; }
// A proved program asks at its start what the processor has, and goes on where it has all that x86-64-v2 has.
const unsigned *__x86_get_cpuid_feature_leaf(unsigned leaf) {
    static const unsigned all[8] = {-1, -1, -1, -1, -1, -1, -1, -1};
    return all;
}

// ---- What the compiler calls: bytes compared, and a product of 128 bits. ----

int memcmp(const void *one, const void *two, u64 size) {
    const u8 *a = one, *b = two;
    for (; size; size--, a++, b++)
        if (*a != *b) return *a - *b;
    return 0;
}

u128 __multi3(u128 a, u128 b) {
    u64 x = a, y = b, x0 = (unsigned)x, x1 = x >> 32, y0 = (unsigned)y, y1 = y >> 32;
    u64 low = x0 * y0, one = x1 * y0 + (low >> 32), two = x0 * y1 + (unsigned)one;
    u64 high = x1 * y1 + (one >> 32) + (two >> 32) + x * (u64)(b >> 64) + (u64)(a >> 64) * y;
    return (u128)high << 64 | two << 32 | (unsigned)low;
}

// ---- What the page calls. Where `room` gives 0 there is no memory, and the page makes no run. ----

int main(void);
static void put(Bytes *list, u64 *count, u64 most, u8 *at, u64 size) {
    if (*count < most) list[(*count)++] = (Bytes){at, size};
}

void *room(u64 size) { return take(size); }
void word(u8 *at, u64 size) { put(words, &word_count, 8, at, size); }
void file(u8 *name, u64 name_size, u8 *at, u64 size) {
    u64 same_place = file_count;
    put(names, &same_place, 4, name, name_size);
    put(files, &file_count, 4, at, size);
}
int run(void) { return main(); }
u8 *output(void) { return output_bytes.at; }
u64 output_size(void) { return output_bytes.size; }
