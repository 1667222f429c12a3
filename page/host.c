// What a program asks of its machine, for a page: memory, arguments, standard streams. No library stands below it.
typedef unsigned long u64;
typedef long i64;
typedef int i32;
typedef unsigned char u8;

// What the page gives.
__attribute__((import_module("host"), import_name("read"))) i64 host_read(i32 file, void *to, u64 room);
__attribute__((import_module("host"), import_name("write"))) i64 host_write(i32 file, const void *from, u64 size);
__attribute__((import_module("host"), import_name("argument"))) i64 host_argument(u64 place, void *to, u64 room);

// ---- Memory: blocks of powers of two, each with its power in the 16 bytes before it. Blocks given back are kept in a list for
// each power and taken again; else the memory grows.

typedef struct { u64 ok; void *at; } Got;

enum { HEAD = 16, PAGE = 65536, LEAST_POWER = 5 };
static const u64 MOST = 1UL << 40;
extern u8 __heap_base;
static u64 top;
static u64 free_lists[64];

static u64 power_of(u64 size) {
    u64 power = LEAST_POWER;
    while ((1UL << power) < size + HEAD) power++;
    return power;
}

// Whether the memory reaches to this address, after it has grown, where possible by a quarter at least.
static i32 reaches(u64 end) {
    u64 have = __builtin_wasm_memory_size(0) * PAGE;
    if (end <= have) return 1;
    u64 pages = (end - have + PAGE - 1) / PAGE, more = have / PAGE / 4;
    if (pages < more && __builtin_wasm_memory_grow(0, more) != (u64)-1) return 1;
    return __builtin_wasm_memory_grow(0, pages) != (u64)-1;
}

static void *take(u64 size) {
    if (size > MOST) return 0;
    u64 power = power_of(size), block = free_lists[power];
    if (block) {
        free_lists[power] = *(u64 *)(block + 8);
        return (void *)(block + HEAD);
    }
    if (!top) top = ((u64)&__heap_base + HEAD - 1) & ~(u64)(HEAD - 1);
    if (!reaches(top + (1UL << power))) return 0;
    block = top;
    top += 1UL << power;
    *(u64 *)block = power;
    return (void *)(block + HEAD);
}

static Got got(void *at) { return (Got){ at != 0, at ? at : (void *)HEAD }; }

void rattle_dealloc(void *at) {
    if (!at) return;
    u64 block = (u64)at - HEAD, power = *(u64 *)block;
    *(u64 *)(block + 8) = free_lists[power];
    free_lists[power] = block;
}

Got rattle_alloc(u64 size, u64 align) { return got(take(size ? size : align)); }

Got rattle_realloc(void *old, u64 old_size, u64 size, u64 align) {
    if (!size) size = align;
    u64 power = *(u64 *)((u64)old - HEAD), room = (1UL << power) - HEAD;
    if (power_of(size) == power) return got(old);
    void *at = take(size);
    if (at) {
        __builtin_memcpy(at, old, room < size ? room : size);
        rattle_dealloc(old);
    }
    return got(at);
}

// ---- Arguments, streams, and no environment.

static i32 error_number;
i32 rattle_errno(void) { return error_number; }
void rattle_set_errno(i32 number) { error_number = number; }
i64 rattle_arg(u64 place, void *to, u64 room) { return host_argument(place, to, room); }
i64 rattle_env(const void *name, void *to, u64 room) { return -1; }
i64 rattle_env_at(u64 place, void *to, u64 room) { return -1; }
i64 read(i32 file, void *to, u64 room) { return host_read(file, to, room); }
i64 write(i32 file, const void *from, u64 size) { return host_write(file, from, size); }
i64 __write(i32 file, const void *from, u64 size) { return host_write(file, from, size); }
i64 __sysv_signal(i32 number, i64 handler) { return 0; }

// A built program asks first whether its x86 processor has what it was compiled for. Its module is compiled for WebAssembly here, which
// has all that this needs, so each feature is there.
const void *__x86_get_cpuid_feature_leaf(i32 leaf) {
    static const u64 features[4] = { ~0UL, ~0UL, ~0UL, ~0UL };
    return features;
}

// ---- Numbers of 128 bits are calculated by compiler-rt, whose functions were compiled to watch over their stack by these two names.

u64 __stack_chk_guard;
void __stack_chk_fail(void) { __builtin_trap(); }
