/* For tests/dividing: a function with each kind of division that tools/no-divide must see, and some that have none. */
#include <stdint.h>
#include <string.h>

#define APART __attribute__((noinline, noclone))

APART uint32_t shifted(uint32_t n) { return (n >> 8) + (n & 0xff); }
APART void copied(uint8_t *to, const uint8_t *from, size_t bytes) { memcpy(to, from, bytes); }
uint32_t two_steps(uint32_t n) { return shifted(shifted(n) + 1) + 1; }

APART uint32_t quotient(uint32_t n, uint32_t d) { return n / d; }
APART uint32_t rest_of(uint32_t n, uint32_t d) { return n % d; }
APART int32_t signed_quotient(int32_t n, int32_t d) { return n / d; }
APART double of_floats(double n, double d) { return n / d; }
APART unsigned __int128 by_routine(unsigned __int128 n, unsigned __int128 d) { return n / d; }
uint32_t in_a_call(uint32_t n, uint32_t d) { return shifted(quotient(n, d)) + 1; }
uint32_t in_a_jump(uint32_t n, uint32_t d) { return rest_of(n + 1, d); }
uint32_t two_calls_down(uint32_t n, uint32_t d) { return in_a_call(n, d) + in_a_jump(n, d); }
uint32_t by_pointer(uint32_t (*call)(uint32_t), uint32_t n) { return call(n) + 1; }
