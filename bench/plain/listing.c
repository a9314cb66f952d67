/* The listing program in plain C: the same rules, each piece that is read received in place by one call. */
#include "plain.h"
#include <stdio.h>
#include <stdlib.h>
#include <unistd.h>

static uint8_t buffer[131072];

static bool number(const char **s, const char *name, uint32_t *n)
{
    size_t length = strlen(name);
    if (strncmp(*s, name, length) != 0) return false;
    const char *p = *s + length;
    uint64_t value = 0;
    size_t digits = 0;
    while (p[digits] >= '0' && p[digits] <= '9') {
        value = value * 10 + (uint64_t)(p[digits++] - '0');
        if (value > 0xffffffffu) return false;
    }
    if (digits == 0 || (digits > 1 && p[0] == '0') || p[digits] != '\n') return false;
    *n = (uint32_t)value;
    *s = p + digits + 1;
    return true;
}

static bool session(uint32_t *type, uint32_t *ssrc, uint32_t *origin)
{
    char text[64] = {0};
    FILE *f = fopen("session.txt", "rb");
    if (f == NULL) return false;
    size_t n = fread(text, 1, sizeof text - 1, f);
    fclose(f);
    const char *s = text;
    return number(&s, "pt=", type) && number(&s, "ssrc=", ssrc) && number(&s, "origin=", origin) && s == text + n && *type <= 127;
}

int main(void)
{
    uint32_t type, ssrc, origin;
    if (!session(&type, &ssrc, &origin)) {
        puts("session=bad");
        return 0;
    }
    static twimbor_table t;
    t.head = (twimbor_head){.payload_type = (uint8_t)type, .ssrc = ssrc, .origin = origin, .codes = TWIMBOR_KEYS};
    uint64_t taken = 0, refused = 0, packed = 0;
    size_t kept = 0;
    ssize_t got;
    while ((got = read(0, buffer + kept, sizeof buffer - kept)) > 0) {
        size_t n = kept + (size_t)got;
        twimbor_captured c = plain_receive_capture(&t, buffer, n);
        if (c.refusal != 0) return 1;
        taken += c.taken;
        refused += c.refused;
        packed += c.packed;
        kept = n - c.used;
        memmove(buffer, buffer + c.used, kept);
    }
    static twimbor_event out[128];
    size_t events = plain_list(&t, out, 128).events;
    for (size_t k = 0; k < events; k++)
        printf("start=%u\nkey=%u\nunits=%u\nvolume=%u\nquietest=%u\nbegan=%d\nended=%d\n", out[k].start, out[k].code, out[k].length,
            out[k].volume, out[k].quietest, out[k].began, out[k].ended);
    printf("events=%zu\ntaken=%llu\nrefused=%llu\npacked=%llu\ncut=%d\n", events, (unsigned long long)taken,
        (unsigned long long)refused, (unsigned long long)packed, kept > 0);
    return 0;
}
