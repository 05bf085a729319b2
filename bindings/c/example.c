/* The least code of D2: a device of kind 1, with cable 9 to kind 2 and cable 4 to kind 3.
 * Prints "0-1:1.4.3 0-2:1.9.2". Build: cc example.c ../../target/staticlib/libholvreiz.a -o example */
#include <stdio.h>

#include "holvreiz.h"

int main(void) {
    static const uint8_t drawing[HOLVREIZ_DRAWING_BYTES] = {3, 2, 1, 2, 3, 0, 0, 0, 0, 0, 0, 0, 0, 1, 9, 0, 2, 4};
    uint8_t code[HOLVREIZ_CODE_BYTES];
    uint64_t returned = holvreiz_code(drawing, sizeof drawing, code, sizeof code);
    uint32_t length = holvreiz_count(returned);

    if (holvreiz_refusal(returned) != HOLVREIZ_ANSWERED) {
        printf("refused %u\n", (unsigned)holvreiz_refusal(returned));
        return 1;
    }
    for (uint32_t at = 0; at < length; at += HOLVREIZ_RECORD_BYTES) {
        const uint8_t *r = code + at;
        printf("%s%u-%u:%u.%u.%u", at ? " " : "", r[0], r[1], r[2], r[3], r[4]);
    }
    printf("\n");
    return 0;
}
