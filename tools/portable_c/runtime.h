/* What the C of wasm2c 1.0.32 asks of its runtime, for a module with one memory, no tables and no
 * exceptions, on a 64-bit processor that is little-endian. The names are wasm2c's. No proof covers
 * it. */
#if UINTPTR_MAX == 0xffffffff || __BYTE_ORDER__ != __ORDER_LITTLE_ENDIAN__
#error "this program takes a 64-bit processor that is little-endian"
#endif

#define LIKELY(x) __builtin_expect(!!(x), 1)
#define UNLIKELY(x) __builtin_expect(!!(x), 0)
#define wasm_rt_memcpy __builtin_memcpy
/* Loads and stores aren't compared with the memory's size: the addresses that they can have are all
 * reserved, and those past the size can be neither read nor written. */
#define WASM_RT_MEMCHECK_SIGNAL_HANDLER 1
#define WASM_RT_USE_STACK_DEPTH_COUNT 0
#define RESERVED_BYTES ((size_t)1 << 33)    /* an address and an offset, of 32 bits each */
#define PAGE 65536u

typedef enum {
    WASM_RT_TRAP_OOB, WASM_RT_TRAP_INT_OVERFLOW, WASM_RT_TRAP_DIV_BY_ZERO,
    WASM_RT_TRAP_INVALID_CONVERSION, WASM_RT_TRAP_UNREACHABLE, WASM_RT_TRAP_CALL_INDIRECT
} wasm_rt_trap_t;

typedef struct {
    uint8_t *data;
    uint32_t pages, max_pages;
    uint32_t size;                          /* in bytes: less than 65,536 pages */
} wasm_rt_memory_t;

/* The functions that fill tables are there, and nothing calls them. */
typedef void (*wasm_rt_function_ptr_t)(void);
typedef struct {
    uint32_t func_type;
    wasm_rt_function_ptr_t func;
    void *module_instance;
} wasm_rt_funcref_t;
typedef struct { wasm_rt_funcref_t *data; uint32_t max_size, size; } wasm_rt_funcref_table_t;
typedef void *wasm_rt_externref_t;
typedef struct { void **data; uint32_t max_size, size; } wasm_rt_externref_table_t;
#define wasm_rt_externref_null_value NULL
enum { WASM_RT_I32, WASM_RT_I64, WASM_RT_F32, WASM_RT_F64 };

static inline bool wasm_rt_is_initialized(void) { return true; }

/* Types of functions matter to calls through tables alone. */
static inline uint32_t wasm_rt_register_func_type(uint32_t params, uint32_t results, ...) {
    (void)params, (void)results;
    return 0;
}

static const char *program_name = "";

static void say(const char *why) { fprintf(stderr, "%s: %s\n", program_name, why); }

/* No program comes to a trap unless what made it is wrong. */
static inline void wasm_rt_trap(wasm_rt_trap_t trap) {
    (void)trap;
    say("the module came to a trap");
    abort();
}

static void wasm_rt_allocate_memory(wasm_rt_memory_t *memory, uint32_t pages, uint32_t most) {
    void *data = mmap(NULL, RESERVED_BYTES, PROT_NONE, MAP_PRIVATE | MAP_ANON, -1, 0);
    if (data == MAP_FAILED || mprotect(data, (size_t)pages * PAGE, PROT_READ | PROT_WRITE) != 0) {
        say("refused 1 NoMemory");
        exit(4);
    }
    *memory = (wasm_rt_memory_t){ data, pages, most < 65535u ? most : 65535u, pages * PAGE };
}

/* The number of pages before, or the largest number if the system gives no more. */
static uint32_t wasm_rt_grow_memory(wasm_rt_memory_t *memory, uint32_t more) {
    uint32_t before = memory->pages;
    if (more > memory->max_pages - before ||
        mprotect(memory->data + memory->size, (size_t)more * PAGE, PROT_READ | PROT_WRITE) != 0)
        return UINT32_MAX;
    memory->pages += more;
    memory->size += more * PAGE;
    return before;
}

static inline void wasm_rt_free_memory(wasm_rt_memory_t *memory) {
    munmap(memory->data, RESERVED_BYTES);
}
