/* Words, and how these headers define functions. */
#ifndef L4_TYPES_H
#define L4_TYPES_H

typedef unsigned char L4_Word8_t;
typedef unsigned short L4_Word16_t;
typedef unsigned int L4_Word32_t;
typedef unsigned long long L4_Word64_t;
typedef L4_Word32_t L4_Word_t;
typedef L4_Word_t L4_Bool_t;

#define L4_FALSE 0u
#define L4_TRUE 1u

#define L4_INLINE static __inline__ __attribute__((always_inline, unused))

/* Declares a function of the manual that this kernel gives no meaning. A call of it does not compile, and the error says why. */
#ifdef __clang__
#define L4_ABSENT(reason) extern __attribute__((unavailable(reason)))
#else
#define L4_ABSENT(reason) extern __attribute__((error(reason)))
#endif

#ifdef __cplusplus
#define L4_BEGIN_C extern "C" {
#define L4_END_C }
#else
#define L4_BEGIN_C
#define L4_END_C
#endif

#endif
