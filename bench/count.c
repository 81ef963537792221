// Calls the function that bench/count names, N times, on a message or on bytes of length L, with nothing else around it: no C library.
typedef unsigned char u8;
typedef unsigned long u64;

u64 candlebrood_digest(const u8 *key, u64 kk, const u8 *message, u64 ll, u8 *out, u64 nn);
u64 candlebrood_root(const u8 *bytes, u64 n, u8 *out, u64 m);

void *memcpy(void *to, const void *from, u64 n) {
    void *at = to;
    __asm__ volatile("rep movsb" : "+D"(at), "+S"(from), "+c"(n) : : "memory");
    return to;
}

void *memset(void *to, int c, u64 n) {
    void *at = to;
    __asm__ volatile("rep stosb" : "+D"(at), "+c"(n) : "a"(c) : "memory");
    return to;
}

static u8 bytes[1 << 16], out[32];

void count(void) {
    for (int i = 0; i < N; i++) {
        CALL;
    }
    __asm__ volatile("syscall" : : "a"(60), "D"(0));
}

__asm__(".globl _start\n_start: and $-16, %rsp\n call count\n");
