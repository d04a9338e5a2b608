/* filter LIST: writes those lines of standard input that are an address in one of the networks of the file LIST, which may
 * have comments and ranges. What is no address is told on standard error and left out. */
#include <inttypes.h>
#include <pcidr.h>
#include <stdio.h>
#include <stdlib.h>
#include <string.h>

/* How many addresses are looked up by one call, and the most bytes of a line. */
enum { MANY = 4096, LINE = 256 };

static char lines[MANY][LINE];
static pcidr_value addresses[MANY];
static uint8_t held[MANY];

/* Reads the next line of a file without its line feed, the first bytes of one that is too long; NULL at the end. */
static char *next_line(FILE *file, char line[LINE]) {
    if (!fgets(line, LINE, file)) return NULL;
    size_t length = strcspn(line, "\n");
    if (!line[length])
        for (int byte = 0; byte != EOF && byte != '\n';) byte = getc(file);
    line[strcspn(line, "\r\n")] = 0;
    return line;
}

static int fail(const char *what, uint32_t code) {
    char text[PCIDR_MESSAGE_ROOM];
    pcidr_message(code, text, sizeof text);
    fprintf(stderr, "filter: %s: %s\n", what, text);
    return 2;
}

/* Reads the next addresses of standard input, each with its line, and returns how many. */
static size_t read_addresses(void) {
    size_t count = 0;
    while (count < MANY && next_line(stdin, lines[count])) {
        uint32_t code = pcidr_read_address(lines[count], strlen(lines[count]), &addresses[count]);
        if (code == PCIDR_OK) count++;
        else fail(lines[count], code);
    }
    return count;
}

/* The bytes of a file, and how many they are; NULL where it can't be read whole. */
static char *read_file(const char *name, size_t *length) {
    FILE *file = fopen(name, "rb");
    if (!file) return NULL;
    size_t room = 1 << 16, more = 0;
    char *text = malloc(room);
    for (*length = 0; text && (more = fread(text + *length, 1, room - *length, file)) > 0;) {
        *length += more;
        if (*length == room) {
            char *larger = realloc(text, room *= 2);
            if (!larger) free(text);
            text = larger;
        }
    }
    if (text && ferror(file)) free(text), text = NULL;
    fclose(file);
    return text;
}

int main(int argc, char **argv) {
    size_t length, count = 0;
    char *list = argc == 2 ? read_file(argv[1], &length) : NULL;
    if (!list) return fprintf(stderr, "usage: filter LIST\n"), 2;
    pcidr_value *networks = NULL;
    uint64_t line = 0;
    char message[PCIDR_LINE_ROOM];
    /* without room it tells how much there has to be */
    uint32_t code = pcidr_read_list(list, length, PCIDR_HOST_BITS_REFUSED, NULL, 0, &count, &line, message, sizeof message);
    if (code == PCIDR_NO_ROOM) {
        networks = malloc(count * sizeof *networks);
        if (!networks) return fail("list", PCIDR_NO_MEMORY);
        code = pcidr_read_list(list, length, PCIDR_HOST_BITS_REFUSED, networks, count, &count, &line, message, sizeof message);
    }
    if (line != 0) return fprintf(stderr, "filter: %s:%" PRIu64 ": %s\n", argv[1], line, message), 2;
    if (code == PCIDR_OK) code = pcidr_cover(networks, count, &count);
    if (code != PCIDR_OK) return fail("list", code);
    free(list);

    for (size_t many; (many = read_addresses()) > 0;) {
        code = pcidr_contains_each(networks, count, addresses, many, held, many);
        if (code != PCIDR_OK) return fail("list", code);
        for (size_t i = 0; i < many; i++)
            if (held[i]) puts(lines[i]);
    }
    free(networks);
    return 0;
}
