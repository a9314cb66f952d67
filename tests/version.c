/* Header and archive of one version, in C and in C++, and the set TWIMBOR_KEYS in each place that may have it. With SECOND it is a second
 * file of the same program, which uses nothing of the header. */
#include "twimbor.h"

int second(void);

#ifdef SECOND
int second(void)
{
    return 0;
}
#else
#ifdef __cplusplus
constexpr twimbor_codes IN_CPP = TWIMBOR_KEYS;
static_assert(IN_CPP.from_0 == 0xffff && IN_CPP.from_192 == 0, "the keys");
static const twimbor_codes COPIED = TWIMBOR_KEYS;
#else
static const twimbor_codes COPIED = TWIMBOR_KEYS_INIT;
#endif
static const struct {
    int call;
    twimbor_codes codes;
} CALLS[] = {{1, TWIMBOR_KEYS_INIT}, {2, {0x20, 0, 0, 0}}};

int main(void)
{
    twimbor_codes keys = TWIMBOR_KEYS;
    twimbor_table table;
    if (twimbor_archive_version() != TWIMBOR_VERSION_NUMBER || twimbor_open(&table, TWIMBOR_KEYS, 101, 7, 0) != 0)
        return 1;
    if (twimbor_codes_count(keys) != 16 || twimbor_codes_count(COPIED) != 16 || twimbor_codes_count(CALLS[0].codes) != 16)
        return 2;
    return second();
}
#endif
