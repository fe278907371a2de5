/* Prints the number and the text of every refusal, which the test command holds to include/refusals.txt. */
#include <inttypes.h>
#include <stdio.h>
#include <string.h>
#include "wavpack_stereo.h"

int main(void)
{
    uint32_t refusal = WV_ACCEPTED;
    if (strcmp(wv_refusal_text(refusal), "accepted") != 0 ||
        strcmp(wv_refusal_text(UINT32_MAX), "unknown refusal") != 0)
        return 1;
    while (strcmp(wv_refusal_text(++refusal), "unknown refusal") != 0)
        printf("%" PRIu32 " %s\n", refusal, wv_refusal_text(refusal));
    return 0;
}
