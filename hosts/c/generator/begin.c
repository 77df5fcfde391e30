/* What is compiled, with a bit for each unit of those that are compiled beside each other: all; all but trac_check and
 * trac_trace_step; these alone; or one unit by -DTRAC_UNIT=1 to 7. The first four are enough where neither of the two
 * is called. What a unit has for another begins with trac_unit_, and is hidden from what they are linked with. */
#ifndef TRAC_UNIT
#define INTERNAL static
#elif (defined(__GNUC__) || defined(__TINYC__)) && !defined(_WIN32)
#define INTERNAL __attribute__((visibility("hidden")))
#else
#define INTERNAL
#endif
#if defined(TRAC_UNIT)
#if TRAC_UNIT < 1 || TRAC_UNIT > 7
#error "TRAC_UNIT is to be 1 to 7"
#endif
#define UNITS (1 << TRAC_UNIT)
#elif defined(TRAC_WITHOUT_CHECK)
#define UNITS 0x1e
#elif defined(TRAC_CHECK_ALONE)
#define UNITS 0xe1
#else
#define UNITS 0xff
#endif
/* The units that have the functions of trac.h: the first has all but these two, and the fifth has them. */
#define HAS_API (UNITS & 0x22)
#if defined(TRAC_UNIT) && TRAC_UNIT < 5 && !defined(TRAC_WITHOUT_CHECK)
#define TRAC_WITHOUT_CHECK
#elif defined(TRAC_UNIT) && TRAC_UNIT >= 5 && !defined(TRAC_CHECK_ALONE)
#define TRAC_CHECK_ALONE
#endif

#include "trac.h"

#include <string.h>

/* gcc takes apart the loops that make a few turns of a known number, as clang does without being told. The scanner has
 * such a loop for the characters of a call. */
#if defined(__GNUC__) && !defined(__clang__) && !defined(__TINYC__) && defined(__OPTIMIZE__) && \
    !defined(__OPTIMIZE_SIZE__)
#pragma GCC optimize("peel-loops")
#endif

typedef uint8_t u8;
typedef uint16_t u16;
typedef uint32_t u32;
typedef uint64_t u64;
typedef int8_t i8;
typedef int32_t i32;
typedef int64_t i64;
/* An address, or a number of which no more bits matter. */
typedef uintptr_t word;

/* The machine is to be one of those that C is written for today: its int has 32 bits, a number that is made signed
 * keeps its bits, the negative ones are the complement of two, and a shift to the right keeps the sign. */
typedef char machine_is_known[sizeof(int) == 4 && (i32)~(u32)0 == -1 && (i64)~(u64)0 == -1 && -1 >> 1 == -1 ? 1 : -1];

/* What proved code never reaches, a function that is made a part of those that call it, and one that a unit may not
 * need. */
#if defined(__GNUC__) && !defined(__TINYC__)
#define trap() __builtin_trap()
#ifdef __OPTIMIZE_SIZE__
#define INLINE inline __attribute__((unused))
#else
#define INLINE inline __attribute__((always_inline, unused))
#endif
#define HELPER static inline __attribute__((unused))
#define APART static __attribute__((noinline, unused))
#else
#define INLINE inline
#define HELPER static inline
#define APART static
/* Ends the program. Other compilers have no word for it, so it calls a function at address 0, which the compiler reads
 * each time, so that it can't know it. Where a system guards memory, that is a fault. A Cortex-M faults, because the
 * address is even; a small machine whose programs begin there begins again. */
static void trap(void) {
    void (*volatile nowhere)(void) = 0;
    for (;;)
        nowhere();
}
#endif

HELPER u8 *at(word address) { return (u8 *)address; }
HELPER word address_of(const void *place) { return (word)place; }

#define TABLES ((word)tables)

/* The numbers of the engine stand in memory with the lowest byte first. These take a number from this machine's order
 * of bytes to that one, and back. A compiler that doesn't tell the order leaves it to be seen when the program runs. */
#if defined(__BYTE_ORDER__) && defined(__ORDER_LITTLE_ENDIAN__) && __BYTE_ORDER__ == __ORDER_LITTLE_ENDIAN__
HELPER u16 order16(u16 x) { return x; }
HELPER u32 order32(u32 x) { return x; }
HELPER u64 order64(u64 x) { return x; }
#else
HELPER u16 order16(u16 x) {
    u8 bytes[2];
    memcpy(bytes, &x, sizeof x);
    return (u16)(bytes[0] | bytes[1] << 8);
}
HELPER u32 order32(u32 x) {
    u16 halves[2];
    memcpy(halves, &x, sizeof x);
    return order16(halves[0]) | (u32)order16(halves[1]) << 16;
}
HELPER u64 order64(u64 x) {
    u32 halves[2];
    memcpy(halves, &x, sizeof x);
    return order32(halves[0]) | (u64)order32(halves[1]) << 32;
}
#endif

HELPER u32 load8(word address) { return *at(address); }
HELPER u32 load16(word address) {
    u16 value;
    memcpy(&value, at(address), sizeof value);
    return order16(value);
}
HELPER u32 load32(word address) {
    u32 value;
    memcpy(&value, at(address), sizeof value);
    return order32(value);
}
HELPER u64 load64(word address) {
    u64 value;
    memcpy(&value, at(address), sizeof value);
    return order64(value);
}
/* The lowest bits of a number of 64. */
HELPER word load_word(word address) { return sizeof(word) == 4 ? load32(address) : (word)load64(address); }
HELPER void store8(word address, u32 value) { *at(address) = (u8)value; }
HELPER void store16(word address, u32 number) {
    const u16 value = order16((u16)number);
    memcpy(at(address), &value, sizeof value);
}
HELPER void store32(word address, u32 value) {
    value = order32(value);
    memcpy(at(address), &value, sizeof value);
}
HELPER void store64(word address, u64 value) {
    value = order64(value);
    memcpy(at(address), &value, sizeof value);
}

/* The zeros in front of the highest bit of a number. */
HELPER u32 clz32(u32 x) {
    u32 count = 32;
    for (; x; x >>= 1)
        count--;
    return count;
}
HELPER u32 clz64(u64 x) {
    return x >> 32 ? clz32((u32)(x >> 32)) : 32 + clz32((u32)x);
}

/* Moves and fills memory. With no bytes nothing is asked of the places, so they may be any. */
HELPER void copy(word to, word from, word count) {
    if (count)
        memmove(at(to), at(from), count);
}
HELPER void fill(word to, u32 byte, word count) {
    if (count)
        memset(at(to), (int)(byte & 255u), count);
}

/* Divisions by a number that isn't known here, or by which they end the program as in WebAssembly. Proved code never
 * divides by 0, nor the least number by -1. */
HELPER u64 div64_s(u64 a, u64 b) {
    if (b == 0 || (b == ~(u64)0 && a == (u64)1 << 63))
        trap();
    return (u64)((i64)a / (i64)b);
}
HELPER u64 div64_u(u64 a, u64 b) {
    if (b == 0)
        trap();
    return a / b;
}
HELPER u64 rem64_u(u64 a, u64 b) {
    if (b == 0)
        trap();
    return a % b;
}
HELPER u32 div32_u(u32 a, u32 b) {
    if (b == 0)
        trap();
    return a / b;
}
HELPER u32 rem32_u(u32 a, u32 b) {
    if (b == 0)
        trap();
    return a % b;
}
