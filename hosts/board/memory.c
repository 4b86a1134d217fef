/* The four functions that a compiler may call by itself, byte by byte. It is compiled so that loops are not turned into these calls again. */
#include <stddef.h>
#include <stdint.h>

void *memcpy(void *restrict to, const void *restrict from, size_t size) {
    uint8_t *put = to;
    const uint8_t *take = from;
    while (size-- > 0)
        *put++ = *take++;
    return to;
}

void *memmove(void *to, const void *from, size_t size) {
    uint8_t *put = to;
    const uint8_t *take = from;
    /* from the end that the other run doesn't begin in */
    if ((uintptr_t)put - (uintptr_t)take >= size) {
        while (size-- > 0)
            *put++ = *take++;
    } else {
        while (size-- > 0)
            put[size] = take[size];
    }
    return to;
}

void *memset(void *to, int byte, size_t size) {
    uint8_t *put = to;
    while (size-- > 0)
        *put++ = (uint8_t)byte;
    return to;
}

int memcmp(const void *one, const void *other, size_t size) {
    const uint8_t *a = one, *b = other;
    for (; size > 0; size--, a++, b++)
        if (*a != *b)
            return *a < *b ? -1 : 1;
    return 0;
}

#ifdef __ARM_EABI__
/* The names that Arm's run-time ABI has for them. */
void __aeabi_memcpy(void *to, const void *from, size_t size) { memcpy(to, from, size); }
void __aeabi_memcpy4(void *to, const void *from, size_t size) { memcpy(to, from, size); }
void __aeabi_memcpy8(void *to, const void *from, size_t size) { memcpy(to, from, size); }
void __aeabi_memmove(void *to, const void *from, size_t size) { memmove(to, from, size); }
void __aeabi_memmove4(void *to, const void *from, size_t size) { memmove(to, from, size); }
void __aeabi_memmove8(void *to, const void *from, size_t size) { memmove(to, from, size); }
void __aeabi_memset(void *to, size_t size, int byte) { memset(to, byte, size); }
void __aeabi_memset4(void *to, size_t size, int byte) { memset(to, byte, size); }
void __aeabi_memset8(void *to, size_t size, int byte) { memset(to, byte, size); }
void __aeabi_memclr(void *to, size_t size) { memset(to, 0, size); }
void __aeabi_memclr4(void *to, size_t size) { memset(to, 0, size); }
void __aeabi_memclr8(void *to, size_t size) { memset(to, 0, size); }
#endif
