/* The heap of the library on WebAssembly, by the names under which the kit's modules take memory.
 *
 * gravitar_clear() frees everything: it begins a call. gravitar_room() takes what the caller
 * passes, and the library's own blocks follow. Their lengths are rounded up to powers of two, and a
 * block that was freed is used again for one of the same power, so a long call takes no more than a
 * short one. A block begins at a multiple of 16, and has its power in the 16 bytes before it. A
 * refusal is `ok` 0, as in the native library.
 */
typedef unsigned long long u64;
typedef struct {
    u64 ok, at;
} Got;
enum { SMALLEST = 4, POWERS = 32 };

extern unsigned char __heap_base;
static u64 top;           /* where the next block begins; 0 before the first */
static u64 freed[POWERS]; /* the last freed block of each power; each has the one before it in it */

static u64 *word_at(u64 at) { return (u64 *)(__UINTPTR_TYPE__)at; }
static u64 address_of(void *p) { return (__UINTPTR_TYPE__)p; }
static Got answer(u64 at) { return (Got){at != 0, at ? at : 16}; }

static u64 take(u64 len)
{
    u64 begin = top ? top : address_of(&__heap_base);
    u64 at = ((begin + 15) & ~(u64)15) + 16, end = at + len;
    u64 have = (u64)__builtin_wasm_memory_size(0) << 16, more = end > have ? end - have : 0;
    if (len >> 32 || end >> 32)
        return 0;
    if (more && __builtin_wasm_memory_grow(0, (more + 65535) >> 16) == (__SIZE_TYPE__)-1)
        return 0;
    top = end;
    return at;
}
static u64 power_of(u64 len)
{
    u64 power = SMALLEST;
    while ((u64)1 << power < len)
        power++;
    return power;
}
static u64 block(u64 len)
{
    u64 power, at;
    if (len >> (POWERS - 1))
        return 0;
    power = power_of(len);
    if ((at = freed[power]))
        freed[power] = *word_at(at);
    else if ((at = take((u64)1 << power)))
        *word_at(at - 16) = power;
    return at;
}

/* A block of no bytes has an address too. */
Got rattle_alloc(u64 len, u64 align) { return answer(block(len ? len : align)); }
void rattle_dealloc(void *p)
{
    u64 at = address_of(p);
    if (!at)
        return;
    *word_at(at) = freed[*word_at(at - 16)];
    freed[*word_at(at - 16)] = at;
}
Got rattle_realloc(void *p, u64 old, u64 len, u64 align)
{
    u64 at = address_of(p), want = len ? len : align, has = (u64)1 << *word_at(at - 16), to;
    if (want <= has)
        return answer(at);
    if ((to = block(want))) {
        __builtin_memcpy(word_at(to), p, (__SIZE_TYPE__)(old < has ? old : has));
        rattle_dealloc(p);
    }
    return answer(to);
}

__attribute__((export_name("gravitar_clear"))) void gravitar_clear(void);
__attribute__((export_name("gravitar_room"))) void *gravitar_room(u64 len);

void gravitar_clear(void)
{
    top = 0;
    __builtin_memset(freed, 0, sizeof freed);
}
/* Room for so many bytes that the caller passes; 0 where there is no memory. */
void *gravitar_room(u64 len) { return word_at(take(len)); }
