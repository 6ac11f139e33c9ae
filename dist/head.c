#define SEC1_INLINE
#include "sec1.h"

#include <string.h>

uint32_t sec1_version(void)
{
  return SEC1_VERSION;
}

#ifdef _MSC_VER
#define ALIGNED(declared) __declspec(align(16)) declared
#else
#define ALIGNED(declared) declared __attribute__((__aligned__(16)))
#endif
/* Ends the program. The proofs say that it isn't called. */
#if defined __GNUC__ || defined __clang__
#define trap() __builtin_trap()
#else
#include <stdlib.h>
#define trap() abort()
#endif
/* The address of an object, as a number. */
#define ADDRESS(pointer) ((uint64_t)(uintptr_t)(pointer))
/* Declares the array of a function, and the number `frame`, which is its address. */
#define FRAME(size) \
  ALIGNED(uint8_t array[size]); \
  const uint64_t frame = ADDRESS(array);

#if defined __BYTE_ORDER__ && __BYTE_ORDER__ == __ORDER_BIG_ENDIAN__
/* Numbers lie in memory with the least significant byte first. What a call stores for its caller is
 * turned round before the call, and again after it, so that what isn't stored stays as it is. No
 * linker writes an address that way, so the constants have addresses of their own, the last of all,
 * where no object of a program is. */
#if defined __GNUC__ && !defined __clang__
/* For GCC any address might be one of a constant, and what is written there too long. */
#pragma GCC diagnostic ignored "-Wstringop-overflow"
#endif
#define CONSTANT(place) (0xffffffffffff0000ull + (place))
#define TO(place) {{(place) & 255, (place) >> 8, 255, 255, 255, 255, 255, 255}}
struct address {
  uint8_t bytes[8];
};
#define POINTER(address) pointer_to(address)
#define TURNED8(number) (number)
#define TURNED16(number) __builtin_bswap16(number)
#define TURNED32(number) __builtin_bswap32(number)
#define TURNED64(number) __builtin_bswap64(number)
#define STORED(pointer, count, size) turn(pointer, (count) * sizeof *(pointer), size)
__attribute__((__noinline__)) static void turn(void *objects, size_t len, size_t size)
{
  uint8_t *number = (uint8_t *)objects, byte;
  size_t i;
  for (; len; len -= size, number += size)
    for (i = 0; i < size / 2; i++) {
      byte = number[i];
      number[i] = number[size - 1 - i];
      number[size - 1 - i] = byte;
    }
}
#else
#define CONSTANT(place) (ADDRESS(&constants) + (place))
#define TO(place) {(const char *)&constants + (place)}
struct address {
  const void *pointer;
};
#define POINTER(address) ((void *)(uintptr_t)(address))
#define TURNED8(number) (number)
#define TURNED16(number) (number)
#define TURNED32(number) (number)
#define TURNED64(number) (number)
#define STORED(pointer, count, size) (void)0
#endif

/* The constants: bytes, and addresses of others among them. */

#if defined __BYTE_ORDER__ && __BYTE_ORDER__ == __ORDER_BIG_ENDIAN__
static inline void *pointer_to(uint64_t address)
{
  uint64_t place = address - CONSTANT(0);
  return place <= sizeof constants ? (uint8_t *)&constants + place : (void *)(uintptr_t)address;
}
#endif

/* Memory, whatever the alignment of an address is, and the type of what is there. */
#define ACCESS(bits) \
  static inline uint##bits##_t load##bits(uint64_t address) \
  { \
    uint##bits##_t number; \
    memcpy(&number, POINTER(address), sizeof number); \
    return TURNED##bits(number); \
  } \
  static inline void store##bits(uint64_t address, uint##bits##_t number) \
  { \
    number = TURNED##bits(number); \
    memcpy(POINTER(address), &number, sizeof number); \
  }
ACCESS(8)
ACCESS(16)
ACCESS(32)
ACCESS(64)
static inline void move(uint64_t to, uint64_t from, uint64_t size)
{
  memmove(POINTER(to), POINTER(from), (size_t)size);
}
static inline void fill(uint64_t to, uint32_t byte, uint64_t size)
{
  memset(POINTER(to), (int)byte, (size_t)size);
}

/* How many zeros are above the highest one of a number, and below its lowest one. */
static inline uint64_t clz64(uint64_t number)
{
#if defined __GNUC__ || defined __clang__
  return number ? (uint64_t)__builtin_clzll(number) : 64;
#else
  uint64_t count = 0;
  while (count < 64 && !(number << count >> 63))
    count++;
  return count;
#endif
}
static inline uint64_t ctz64(uint64_t number)
{
#if defined __GNUC__ || defined __clang__
  return number ? (uint64_t)__builtin_ctzll(number) : 64;
#else
  uint64_t count = 0;
  while (count < 64 && !(number >> count & 1))
    count++;
  return count;
#endif
}
