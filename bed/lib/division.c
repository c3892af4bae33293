/* Division of 64-bit numbers. On 32-bit x86 compilers call these functions, by these names. A program may define its own. */
#define WEAK __attribute__((weak))

typedef unsigned int word;
typedef unsigned long long number;
typedef long long integer;

number __udivmoddi4(number dividend, number divisor, number *rest);
number __udivdi3(number dividend, number divisor);
number __umoddi3(number dividend, number divisor);
integer __divdi3(integer dividend, integer divisor);
integer __moddi3(integer dividend, integer divisor);
integer __divmoddi4(integer dividend, integer divisor, integer *rest);

/* Divides two words by one. The quotient has to fit into a word. */
static word divide(word high, word low, word divisor, word *rest) {
    word quotient;
    __asm__("divl %4" : "=a"(quotient), "=d"(*rest) : "a"(low), "d"(high), "r"(divisor) : "cc");
    return quotient;
}

static number divide_by_word(number dividend, word divisor, word *rest) {
    word high = divide(0, (word)(dividend >> 32), divisor, rest);
    return (number)high << 32 | divide(*rest, (word)dividend, divisor, rest);
}

/* A divisor of more than a word: its highest bits give a quotient that is right, or too large by one. As on a processor, a division by zero raises
 * exception 0. */
WEAK number __udivmoddi4(number dividend, number divisor, number *rest) {
    number quotient, left;
    if (divisor >> 32 == 0) {
        word rest_word;
        quotient = divide_by_word(dividend, (word)divisor, &rest_word);
        left = rest_word;
    } else {
        int shift = 32 - __builtin_clz((word)(divisor >> 32));
        word ignored;
        quotient = divide_by_word(dividend >> 1, (word)(divisor >> shift), &ignored) >> (shift - 1);
        if (quotient != 0)
            quotient--;
        left = dividend - quotient * divisor;
        while (left >= divisor) {
            left -= divisor;
            quotient++;
        }
    }
    if (rest != 0)
        *rest = left;
    return quotient;
}

WEAK number __udivdi3(number dividend, number divisor) {
    return __udivmoddi4(dividend, divisor, 0);
}

WEAK number __umoddi3(number dividend, number divisor) {
    number rest;
    __udivmoddi4(dividend, divisor, &rest);
    return rest;
}

static number size_of(integer signed_number) {
    return signed_number < 0 ? -(number)signed_number : (number)signed_number;
}

WEAK integer __divmoddi4(integer dividend, integer divisor, integer *rest) {
    number left, quotient = __udivmoddi4(size_of(dividend), size_of(divisor), &left);
    *rest = (integer)(dividend < 0 ? -left : left);
    return (integer)((dividend < 0) != (divisor < 0) ? -quotient : quotient);
}

WEAK integer __divdi3(integer dividend, integer divisor) {
    integer rest;
    return __divmoddi4(dividend, divisor, &rest);
}

WEAK integer __moddi3(integer dividend, integer divisor) {
    integer rest;
    __divmoddi4(dividend, divisor, &rest);
    return rest;
}
