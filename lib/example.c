/* Runs the image on standard input for four slots, and writes its report:
 *
 *   make -C lib example && lib/out/example < examples/two-domains.toml
 */
#include <stdio.h>
#include <stdlib.h>

#include "libtp.h"

/* The most bytes of an image, and one more: so the library tells of one that is too long. */
static uint8_t image[1048577];

int main(void)
{
    size_t image_len = fread(image, 1, sizeof image, stdin);
    size_t room = 4096, taken;
    uint8_t *text = malloc(room);
    if (text == NULL)
        return TP_MEMORY;

    enum tp_status status = tp_run(image, image_len, 4, text, room, &taken);
    if (status == TP_TOO_SMALL) {
        /* Once more, with as much room as is wanted. */
        free(text);
        room = taken;
        text = malloc(room);
        if (text == NULL)
            return TP_MEMORY;
        status = tp_run(image, image_len, 4, text, room, &taken);
    }
    fwrite(text, 1, taken, stdout);
    free(text);
    return status;
}
