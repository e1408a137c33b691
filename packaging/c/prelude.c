/* igesolid: a proved checker of the solids in IGES 5.3 files, as one C file. SPDX-License-Identifier: Apache-2.0
 *
 * This is the proved crate igesolid_c, compiled to WebAssembly (packaging/web/module), and from there to C by packaging/c/translate. No
 * proof covers these two steps; tests compare its answers with those of the proved programs.
 *
 * Any compiler of C99 will do: cc -O2 -c igesolid.c. Only malloc, calloc, realloc, free, memcpy, memmove, memset and abort are called;
 * abort stands where the proof shows that no run comes.
 *
 * What the WebAssembly calls an address is a number of 64 bits: the distance, modulo 2^64, of a byte from `b`, a number of each call's own.
 * A call takes a block for itself: for its stack, which grows down from the address STACK, and for a copy of the constants, from STACK.
 * All else is memory of malloc, and the bytes that the caller gave. So nothing is copied, and nothing is kept between calls: any thread
 * may call at any time. */
@HEADER@

#include <stdlib.h>
#include <string.h>

typedef uint8_t u8;
typedef uint16_t u16;
typedef uint32_t u32;
typedef uint64_t u64;
typedef int8_t s8;
typedef int16_t s16;
typedef int32_t s32;
typedef int64_t s64;
typedef uintptr_t B;

/* Small functions have been put into their callers before: more of it would only take the compiler's time. */
#if defined(_MSC_VER) && !defined(__clang__)
#define AT static __forceinline
#define FN static __declspec(noinline)
#elif defined(__GNUC__)
#define AT static inline __attribute__((unused))
#define FN static __attribute__((noinline))
#else
#define AT static inline
#define FN static
#endif

#define PLACE(b, a) ((void *)((b) + (B)(a)))
#define ROOM 65536u /* for the stack: no chain of calls takes half of it, as packaging/c/translate has added up */
#define SP (*(u64 *)PLACE(b, STACK - ROOM)) /* the stack pointer stands at the block's first byte */

/* Numbers lie in memory with the least byte first. Where the compiler tells the order of the machine's own, they are turned if need be;
 * elsewhere they are put together byte by byte. */
#if defined(__BYTE_ORDER__) && defined(__GNUC__) && __BYTE_ORDER__ == __ORDER_BIG_ENDIAN__
#define LE16(v) __builtin_bswap16(v)
#define LE32(v) __builtin_bswap32(v)
#define LE64(v) __builtin_bswap64(v)
#elif (defined(__BYTE_ORDER__) && __BYTE_ORDER__ == __ORDER_LITTLE_ENDIAN__) || defined(_WIN32) || defined(__i386__) || defined(__x86_64__)
#define LE16(v) (v)
#define LE32(v) (v)
#define LE64(v) (v)
#endif

AT u32 get8(B b, u64 a) { return *(const u8 *)PLACE(b, a); }
AT void put8(B b, u64 a, u32 v) { *(u8 *)PLACE(b, a) = (u8)v; }
#ifdef LE64
AT u32 get16(B b, u64 a) { u16 v; memcpy(&v, PLACE(b, a), 2); return LE16(v); }
AT u32 get32(B b, u64 a) { u32 v; memcpy(&v, PLACE(b, a), 4); return LE32(v); }
AT u64 get64(B b, u64 a) { u64 v; memcpy(&v, PLACE(b, a), 8); return LE64(v); }
AT void put16(B b, u64 a, u32 v) { u16 w = LE16((u16)v); memcpy(PLACE(b, a), &w, 2); }
AT void put32(B b, u64 a, u32 v) { v = LE32(v); memcpy(PLACE(b, a), &v, 4); }
AT void put64(B b, u64 a, u64 v) { v = LE64(v); memcpy(PLACE(b, a), &v, 8); }
#else
AT u32 get16(B b, u64 a) { return get8(b, a) | get8(b, a + 1) << 8; }
AT u32 get32(B b, u64 a) { return get16(b, a) | get16(b, a + 2) << 16; }
AT u64 get64(B b, u64 a) { return get32(b, a) | (u64)get32(b, a + 4) << 32; }
AT void put16(B b, u64 a, u32 v) { put8(b, a, v), put8(b, a + 1, v >> 8); }
AT void put32(B b, u64 a, u32 v) { put16(b, a, v), put16(b, a + 2, v >> 16); }
AT void put64(B b, u64 a, u64 v) { put32(b, a, (u32)v), put32(b, a + 4, (u32)(v >> 32)); }
#endif

AT void fill(B b, u64 to, u32 byte, u64 n) { memset(PLACE(b, to), (int)(byte & 255), (size_t)n); }
AT void copy(B b, u64 to, u64 from, u64 n) { memmove(PLACE(b, to), PLACE(b, from), (size_t)n); }

AT u32 rotl32(u32 v, u32 k) { return v << (k & 31) | v >> ((32 - (k & 31)) & 31); }
AT u64 rotl64(u64 v, u64 k) { return v << (k & 63) | v >> ((64 - (k & 63)) & 63); }
AT u32 rotr32(u32 v, u32 k) { return rotl32(v, 32 - (k & 31)); }
AT u64 rotr64(u64 v, u64 k) { return rotl64(v, 64 - (k & 63)); }

#ifdef __GNUC__
AT u32 ctz32(u32 v) { return v ? (u32)__builtin_ctz(v) : 32; }
AT u32 clz32(u32 v) { return v ? (u32)__builtin_clz(v) : 32; }
#else
AT u32 ctz32(u32 v) { u32 k = 0; if (!v) return 32; while (!(v & 1)) v >>= 1, k++; return k; }
AT u32 clz32(u32 v) { u32 k = 0; if (!v) return 32; while (!(v >> 31)) v <<= 1, k++; return k; }
#endif
AT u64 ctz64(u64 v) { return (u32)v ? ctz32((u32)v) : 32 + ctz32((u32)(v >> 32)); }
AT u64 clz64(u64 v) { return v >> 32 ? clz32((u32)(v >> 32)) : 32 + clz32((u32)v); }
AT u32 popcnt32(u32 v) { u32 k = 0; for (; v; v &= v - 1) k++; return k; }
AT u64 popcnt64(u64 v) { return popcnt32((u32)v) + popcnt32((u32)(v >> 32)); }
