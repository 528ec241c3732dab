/* Judges one request file with the C call and prints the answer in words. */
/* It shows how the bare bytes are made from a file and how the answer is taken apart. */

#include "zengin.h"

#include <inttypes.h>
#include <stdio.h>
#include <stdlib.h>

/* Reads a whole file into memory that the caller frees. NULL if that fails. */
static uint8_t *read_file(const char *path, size_t *length)
{
    FILE *file = fopen(path, "rb");
    if (file == NULL)
        return NULL;
    size_t room = 4096; /* doubled whenever it is full; the first size does not matter */
    size_t used = 0;
    uint8_t *bytes = malloc(room);
    while (bytes != NULL) {
        used += fread(bytes + used, 1, room - used, file);
        if (used < room)
            break;
        room *= 2;
        uint8_t *larger = realloc(bytes, room);
        if (larger == NULL)
            free(bytes);
        bytes = larger;
    }
    if (bytes != NULL && ferror(file)) {
        free(bytes);
        bytes = NULL;
    }
    fclose(file);
    *length = used;
    return bytes;
}

/* Takes away one last 1Ah, then all line ends, and tells how many bytes are left. */
static size_t make_bare(uint8_t *bytes, size_t length)
{
    size_t kept = 0;
    if (length > 0 && bytes[length - 1] == 0x1A)
        length--;
    for (size_t place = 0; place < length; place++) {
        if (bytes[place] != 0x0D && bytes[place] != 0x0A)
            bytes[kept++] = bytes[place];
    }
    return kept;
}

static void print_answer(uint64_t answer)
{
    if (answer == 0) {
        puts("lawful");
        return;
    }
    uint64_t number = answer / 100000000;
    uint64_t record = answer / 1000 % 100000;
    uint64_t column = answer % 1000;
    printf("denied %" PRIu64 " at record %" PRIu64 ", column %" PRIu64 "\n", number, record, column);
}

int main(int count, char **arguments)
{
    if (count != 2) {
        fputs("one argument is needed: the file to judge\n", stderr);
        return 1;
    }
    size_t length = 0;
    uint8_t *bytes = read_file(arguments[1], &length);
    if (bytes == NULL) {
        fprintf(stderr, "%s cannot be read\n", arguments[1]);
        return 1;
    }
    print_answer(zengin_check(bytes, make_bare(bytes, length)));
    free(bytes);
    return 0;
}
