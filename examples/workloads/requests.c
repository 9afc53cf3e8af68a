/* A server of a tenant's request, a line:

     get NAME           answers with the record's value
     set NAME VALUE     keeps a value of decimal digits
     count NAME VALUE   keeps it in this record and all after it

   It reads from left to right and is done at the first byte that is wrong, and looks for a
   name in one record after the other. So which lines it loads and stores into, and how long
   it takes, is as the request is. */
#include <stdio.h>
#include <string.h>

#include "../channels/channel.h"

#define RECORDS 8
#define FIRST_LINE 50
#define NAME_LETTERS 3

/* A record stands in a line of its own, and so in a set. */
typedef struct {
    char name[NAME_LETTERS + 1];
    uint32_t value;
    uint32_t unused[LINE_WORDS - 2];
} record;

char request[64] = "get ant";

static struct {
    line others[FIRST_LINE];
    record records[RECORDS];
} table __attribute__((aligned(4096))) = {
    .records = {{"ant", 10, {0}}, {"bee", 11, {0}}, {"cat", 12, {0}}, {"dog", 13, {0}},
                {"elk", 14, {0}}, {"fox", 15, {0}}, {"gnu", 16, {0}}, {"hen", 17, {0}}},
};

/* The text behind a word, or none where it doesn't begin with the word. */
static const char *behind(const char *text, const char *word)
{
    size_t length = strlen(word);
    return text && strncmp(text, word, length) == 0 ? text + length : NULL;
}

/* The record whose name the text begins with, or none. */
static record *find(const char *text)
{
    for (record *it = table.records; text && it < table.records + RECORDS; it++)
        if (behind(text, it->name))
            return it;
    return NULL;
}

/* Reads a number to the text's end; 0 where a byte is no digit. */
static int read_number(const char *text, uint32_t *number)
{
    if (!text || !*text)
        return 0;
    for (*number = 0; *text; text++) {
        if (*text < '0' || *text > '9')
            return 0;
        *number = *number * 10 + (*text - '0');
    }
    return 1;
}

static int keep(record *first, const record *end, const char *text)
{
    uint32_t value;
    if (!first || !read_number(behind(text + NAME_LETTERS, " "), &value))
        return 0;
    for (record *it = first; it < end; it++)
        it->value = value;
    return 1;
}

static int answer(const char *text)
{
    const char *name = behind(text, "get ");
    if (name) {
        record *found = find(name);
        if (!found || name[NAME_LETTERS])
            return 0;
        printf("%lu\n", found->value);
        return 1;
    }
    name = behind(text, "set ");
    if (name) {
        record *found = find(name);
        return keep(found, found + 1, name);
    }
    name = behind(text, "count ");
    return name && keep(find(name), table.records + RECORDS, name);
}

int main(void)
{
    return answer(request) ? 0 : 1;
}
