/* What the header says of buffers, lengths, values and threads. Prints a line for each thing that isn't so;
 * the last line is 'N passed, M failed'.
 *
 *   limits IMAGE        an image that is accepted, has two domains and one hart
 */
#include <pthread.h>
#include <stdio.h>
#include <stdlib.h>
#include <string.h>

#include "libtp.h"

enum { MOST_BYTES = 1048576, ROOM = 1 << 16, THREADS = 8, CALLS = 25, FILL = 0xa5 };

static const char USAGE[] = "usage: tp check|bound|run|alone|gen|demo\n";

static int passed, failed;

static void expect(int holds, const char *what)
{
    if (holds) {
        passed++;
    } else {
        failed++;
        printf("FAILED: %s\n", what);
    }
}

/* A call's answer, in a buffer that was filled before. */
struct answer {
    enum tp_status status;
    size_t taken;
    uint8_t text[ROOM];
};

static uint8_t *image;
static size_t image_len;

static struct answer *fresh(struct answer *answer)
{
    memset(answer->text, FILL, ROOM);
    answer->taken = 12345;
    return answer;
}

/* Whether the buffer is as it was from here on. */
static int is_left(const struct answer *answer, size_t from)
{
    for (size_t i = from; i < ROOM; i++)
        if (answer->text[i] != FILL)
            return 0;
    return 1;
}

static int has_text(const struct answer *answer, enum tp_status status, const char *text)
{
    size_t len = strlen(text);
    return answer->status == status && answer->taken == len && memcmp(answer->text, text, len) == 0 &&
           is_left(answer, len);
}

static void run(struct answer *answer, uint32_t slots, size_t room)
{
    fresh(answer);
    answer->status = tp_run(image, image_len, slots, answer->text, room, &answer->taken);
}

static int are_same(const struct answer *one, const struct answer *other)
{
    return one->status == other->status && one->taken == other->taken &&
           memcmp(one->text, other->text, ROOM) == 0;
}

static void buffers(void)
{
    static struct answer whole, cut;
    run(&whole, 4, ROOM);
    int fits = whole.status == TP_DONE && whole.taken > 100 && is_left(&whole, whole.taken);
    expect(fits, "a run in a buffer with room");
    int small = 1;
    for (size_t room = 0; room < whole.taken; room += room < 8 || room + 8 >= whole.taken ? 1 : 37) {
        run(&cut, 4, room);
        small = small && cut.status == TP_TOO_SMALL && cut.taken == whole.taken && is_left(&cut, 0);
    }
    expect(small, "a buffer that is too small is left, and the length is told");
    run(&cut, 4, whole.taken);
    expect(are_same(&cut, &whole), "a buffer that just fits");
}

static void images(void)
{
    static struct answer answer;
    static uint8_t bytes[MOST_BYTES + 1];
    fresh(&answer)->status = tp_check(bytes, 0, answer.text, ROOM, &answer.taken);
    expect(answer.status == TP_REFUSED && memcmp(answer.text, "refused ", 8) == 0, "an empty image is refused");
    fresh(&answer)->status = tp_check(bytes, 1, answer.text, ROOM, &answer.taken);
    expect(answer.status == TP_REFUSED, "a byte that is no text is refused");
    memset(bytes, '\n', sizeof bytes);
    memcpy(bytes, image, image_len);
    fresh(&answer)->status = tp_check(bytes, MOST_BYTES, answer.text, ROOM, &answer.taken);
    expect(has_text(&answer, TP_DONE, "accepted\n"), "an image of as many bytes as it may have");
    fresh(&answer)->status = tp_check(bytes, sizeof bytes, answer.text, ROOM, &answer.taken);
    expect(has_text(&answer, TP_TOO_LONG, "too long\n"), "an image of a byte more");
    memset(bytes, 0xff, sizeof bytes);
    fresh(&answer)->status = tp_check(bytes, MOST_BYTES, answer.text, ROOM, &answer.taken);
    expect(answer.status == TP_REFUSED, "bytes that are no UTF-8 are refused");
}

static void values(void)
{
    static const uint32_t many[] = {65537, 1u << 31, UINT32_MAX};
    static struct answer answer;
    for (int i = 0; i < 3; i++) {
        uint32_t slots = many[i];
        run(&answer, slots, ROOM);
        expect(has_text(&answer, TP_USAGE, USAGE), "run with too many slots");
        fresh(&answer)->status = tp_harts(image, image_len, slots, 1, answer.text, ROOM, &answer.taken);
        expect(has_text(&answer, TP_USAGE, USAGE), "harts with too many slots");
        fresh(&answer)->status = tp_alone(image, image_len, 0, slots, answer.text, ROOM, &answer.taken);
        expect(has_text(&answer, TP_USAGE, USAGE), "alone with too many slots");
        fresh(&answer)->status = tp_ablate(image, image_len, TP_PAD, slots, answer.text, ROOM, &answer.taken);
        expect(has_text(&answer, TP_USAGE, USAGE), "ablate with too many slots");
    }
    /* 256 and 257 are 0 and 1 in eight bits. */
    static const uint32_t none[] = {2, 31, 32, 256, 257, UINT32_MAX};
    for (int i = 0; i < 6; i++) {
        fresh(&answer)->status = tp_alone(image, image_len, none[i], 4, answer.text, ROOM, &answer.taken);
        expect(has_text(&answer, TP_USAGE, USAGE), "alone with a domain that the image lacks");
        fresh(&answer)->status = tp_redact(image, image_len, none[i], answer.text, ROOM, &answer.taken);
        expect(has_text(&answer, TP_USAGE, USAGE), "redact with a domain that the image lacks");
    }
    static const uint32_t guards[] = {6, 256, UINT32_MAX};
    for (int i = 0; i < 3; i++) {
        fresh(&answer)->status = tp_ablate(image, image_len, guards[i], 4, answer.text, ROOM, &answer.taken);
        expect(has_text(&answer, TP_USAGE, USAGE), "ablate with no guard");
    }
    fresh(&answer)->status = tp_run((const uint8_t *)"", 0, 65537, answer.text, ROOM, &answer.taken);
    expect(has_text(&answer, TP_USAGE, USAGE), "too many slots of an empty image");
    fresh(&answer)->status = tp_gen(UINT32_MAX, answer.text, ROOM, &answer.taken);
    expect(answer.status == TP_DONE, "the greatest seed");
}

/* What one thread asks for, and whether each answer was the same. */
struct asking {
    struct answer due, found;
    uint32_t slots;
    int same;
};

static void *ask_often(void *given)
{
    struct asking *asking = given;
    for (int i = 0; i < CALLS; i++) {
        run(&asking->found, asking->slots, ROOM);
        asking->same = asking->same && are_same(&asking->found, &asking->due);
    }
    return NULL;
}

static void threads(void)
{
    static struct asking askings[THREADS];
    pthread_t threads[THREADS];
    int same = 1;
    for (uint32_t i = 0; i < THREADS; i++) {
        askings[i].slots = i;
        askings[i].same = 1;
        run(&askings[i].due, i, ROOM);
    }
    for (int i = 0; i < THREADS; i++)
        if (pthread_create(&threads[i], NULL, ask_often, &askings[i]) != 0) {
            expect(0, "a thread begins");
            exit(1);
        }
    for (int i = 0; i < THREADS; i++) {
        pthread_join(threads[i], NULL);
        same = same && askings[i].same;
    }
    expect(same, "eight threads at once have the answers that each has alone");
}

int main(int argc, char **argv)
{
    static uint8_t bytes[MOST_BYTES];
    FILE *file = argc == 2 ? fopen(argv[1], "rb") : NULL;
    if (file == NULL) {
        fprintf(stderr, "usage: limits IMAGE\n");
        return 2;
    }
    image_len = fread(bytes, 1, sizeof bytes, file);
    fclose(file);
    image = malloc(image_len);
    if (image == NULL)
        return 2;
    memcpy(image, bytes, image_len);
    buffers();
    images();
    values();
    threads();
    free(image);
    printf("%d passed, %d failed\n", passed, failed);
    return failed > 0;
}
