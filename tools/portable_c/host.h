/* The host of the module, as web/host.js and web/heap.js are the page's: the C library's calls over
 * the module's memory. Addresses and sizes are 64-bit integers at this border, in a memory of 32
 * bits. No proof covers it. */
#define JOINED_AGAIN(a, b, c) a##b##c
#define JOINED(a, b, c) JOINED_AGAIN(a, b, c)
#define OF_MODULE(name) JOINED(Z_, PROGRAM, name)

struct Z_host_instance_t { int unused; };
typedef struct Z_host_instance_t Host;

static OF_MODULE(_instance_t) instance;
static int argument_count;
static char **arguments;

static inline uint8_t *at(u64 address) { return instance.w2c_memory.data + address; }

/* The heap. The size of a block is a power of two up to a page, and then whole pages. Its head, the
 * 16 bytes before it, has the size, and the next spare block if the block is spare. Spare blocks
 * of each power of two stand in a list of their own, the larger ones in the last list. */
#define SMALLEST 16u
#define HEAD 16u
#define LISTS 14
#define GROWTH 256u                         /* pages, since each growth takes a while */

typedef struct { u64 size, next; } Head;
static u64 heap_end, spare[LISTS];

static inline Head *head(u64 block) { return (Head *)at(block - HEAD); }

/* Makes `bytes` the size of a block that has them; returns its list. */
static unsigned list_of(u64 *bytes) {
    unsigned list = 0;
    u64 size = SMALLEST;
    for (; size < *bytes && size < PAGE; size *= 2) list++;
    if (*bytes <= size) *bytes = size;
    else *bytes = (*bytes + PAGE - 1) / PAGE * PAGE, list = LISTS - 1;
    return list;
}

static int reaches(u64 end) {
    wasm_rt_memory_t *memory = &instance.w2c_memory;
    if (end <= memory->size) return 1;
    if (end > (u64)PAGE * memory->max_pages) return 0;
    u32 pages = (u32)((end - memory->size + PAGE - 1) / PAGE);
    return wasm_rt_grow_memory(memory, pages > GROWTH ? pages : GROWTH) != UINT32_MAX ||
           wasm_rt_grow_memory(memory, pages) != UINT32_MAX;
}

/* The address of a block, or 0 if the memory is refused. */
u64 Z_hostZ_malloc(Host *host, u64 bytes) {
    (void)host;
    if (bytes > UINT32_MAX) return 0;
    unsigned list = list_of(&bytes);
    u64 *place = &spare[list];
    while (*place && head(*place)->size != bytes) place = &head(*place)->next;
    u64 block = *place;
    if (block) {
        *place = head(block)->next;
        return block;
    }
    block = heap_end + HEAD;
    if (!reaches(block + bytes)) return 0;
    heap_end = block + bytes;
    head(block)->size = bytes;
    return block;
}

void Z_hostZ_free(Host *host, u64 block) {
    (void)host;
    if (!block) return;
    u64 bytes = head(block)->size;
    u64 *first = &spare[list_of(&bytes)];
    head(block)->next = *first;
    *first = block;
}

u64 Z_hostZ_realloc(Host *host, u64 block, u64 bytes) {
    if (!block) return Z_hostZ_malloc(host, bytes);
    u64 size = head(block)->size;
    if (bytes <= size) return block;
    u64 moved = Z_hostZ_malloc(host, bytes);
    if (!moved) return 0;
    memcpy(at(moved), at(block), size);
    Z_hostZ_free(host, block);
    return moved;
}

u64 Z_hostZ_read(Host *host, u32 file, u64 to, u64 count) {
    (void)host;
    return (u64)(s64)read((int)file, at(to), count);
}

u64 Z_hostZ_write(Host *host, u32 file, u64 from, u64 count) {
    (void)host;
    return (u64)(s64)write((int)file, at(from), count);
}

/* Files are opened to be read alone. */
u32 Z_hostZ_open(Host *host, u64 name, u32 flags, u64 mode) {
    (void)host, (void)flags, (void)mode;
    return (u32)open((char *)at(name), O_RDONLY | O_CLOEXEC);
}

u32 Z_hostZ_close(Host *host, u32 file) {
    (void)host;
    return (u32)close((int)file);
}

/* The numbers are Linux's, where 1 in place of a function is SIG_IGN. */
u64 Z_hostZ___sysv_signal(Host *host, u32 number, u64 action) {
    (void)host;
    signal((int)number, action == 1 ? SIG_IGN : SIG_DFL);
    return 0;
}

u64 Z_hostZ_rattle_arg(Host *host, u64 number, u64 to, u64 most) {
    (void)host;
    if (number >= (u64)argument_count) return UINT64_MAX;
    u64 length = strlen(arguments[number]);
    memcpy(at(to), arguments[number], length < most ? length : most);
    return length;
}

/* By Linux's number: of those that reads and writes give, another system has another EAGAIN. */
u32 Z_hostZ_rattle_errno(Host *host) {
    (void)host;
    return errno == EAGAIN ? 11 : (u32)errno;
}

void Z_hostZ_rattle_set_errno(Host *host, u32 number) {
    (void)host;
    errno = (int)number;
}

int main(int count, char **words) {
    static Host host;
    const char *slash = count > 0 ? strrchr(words[0], '/') : NULL;
    if (count > 0) program_name = slash ? slash + 1 : words[0];
    argument_count = count;
    arguments = words;
    OF_MODULE(_init_module)();
    OF_MODULE(_instantiate)(&instance, &host);
    heap_end = (*OF_MODULE(Z___heap_base)(&instance) + PAGE - 1) / PAGE * PAGE;
    return (int)OF_MODULE(Z_program_main)(&instance);
}
