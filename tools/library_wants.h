/* What the programs by which tools/library tries the library share: answers that must be had. */
#include <protolink.h>

#include <string.h>

#define WANT(condition)       \
    do {                      \
        if (!(condition))     \
            return __LINE__ % 256; \
    } while (0)

#define WANT_TEXT(call, wanted)                                              \
    do {                                                                     \
        uint8_t text[64];                                                    \
        size_t length;                                                       \
        WANT((call) == PROTOLINK_DONE && length == strlen(wanted));          \
        WANT(memcmp(text, wanted, length) == 0);                             \
    } while (0)

static const uint8_t *as_bytes(const char *text)
{
    return (const uint8_t *)text;
}
