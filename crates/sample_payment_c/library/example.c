/* Reads bytes, and says whether they are accepted as buffa.sample.Payment, with the encoding of what they mean. */
#include "sample_payment_c.h"
#include <stdio.h>
#include <stdlib.h>

static uint8_t bytes[1 << 16];
static struct buffa_step path[8];

int main(void) {
    size_t len = fread(bytes, 1, sizeof bytes, stdin), room = 0, written = 0;
    uint32_t answer = payment_check(bytes, len);
    if (answer != BUFFA_ACCEPTED || (answer = payment_room(bytes, len, &room)) != BUFFA_ACCEPTED) {
        size_t steps, offset;
        payment_place(bytes, len, BUFFA_USUAL, path, sizeof path / sizeof *path, &steps, &offset);
        printf("refused %u at byte %zu\n", answer, offset);
        return 1;
    }
    uint8_t *out = malloc(room ? room : 1);
    if (!out || payment_canonical(bytes, len, out, room, &written) != BUFFA_ACCEPTED)
        return 2;
    for (size_t at = 0; at < written; at++)
        printf("%02x", out[at]);
    printf("\n");
    free(out);
    return 0;
}
