/* mmdb FILE ADDRESS..: writes the network that a MaxMind DB file has each address in, and its value. */
#include <pcidr.h>
#include <stdio.h>
#include <stdlib.h>
#include <string.h>

enum { LIMIT = 1 << 20 };

/* Says what is wrong with a name, and returns 1. */
static int wrong(const char *name, uint32_t code) {
    char message[PCIDR_MESSAGE_ROOM];
    pcidr_message(code, message, sizeof message);
    fprintf(stderr, "%s: %s\n", name, message);
    return 1;
}

/* Writes what the file of these bytes has for an address: 0, or 1 after an error. */
static int look(const uint8_t *bytes, size_t length, const pcidr_mmdb *file, const char *text) {
    static uint8_t json[LIMIT];
    char network[PCIDR_TEXT_ROOM];
    pcidr_value address;
    pcidr_mmdb_row row;
    size_t count;
    uint32_t code = pcidr_read_address(text, strlen(text), &address);
    if (code == PCIDR_OK) code = pcidr_mmdb_lookup(bytes, length, file, &address, &row);
    if (code != PCIDR_OK) return wrong(text, code);
    pcidr_print_network(&row.network, network, sizeof network);
    if (row.found != PCIDR_MMDB_VALUE) {
        printf("%s is in %s, with nothing\n", text, network);
        return 0;
    }
    code = pcidr_mmdb_json(bytes, length, file, row.place, LIMIT, json, LIMIT, &count);
    if (code != PCIDR_OK) return wrong(text, code);
    printf("%s is in %s: %.*s\n", text, network, (int)count, (const char *)json);
    return 0;
}

int main(int arguments, char **argument) {
    static uint8_t bytes[1 << 26];
    FILE *opened = arguments > 1 ? fopen(argument[1], "rb") : NULL;
    size_t length = opened ? fread(bytes, 1, sizeof bytes, opened) : 0;
    pcidr_mmdb file;
    int status = 0;
    if (!opened || ferror(opened) || !feof(opened)) {
        fprintf(stderr, "no file of less than 64 MiB\n");
        return 2;
    }
    fclose(opened);
    uint32_t code = pcidr_mmdb_open(bytes, length, &file);
    if (code != PCIDR_OK) return wrong(argument[1], code);
    for (int i = 2; i < arguments; i++) status |= look(bytes, length, &file, argument[i]);
    return status;
}
