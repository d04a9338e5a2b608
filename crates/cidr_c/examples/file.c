/* file FILE ADDRESS..: writes the value of the longest network of a look-up table in a file that each address is in. */
#include <errno.h>
#include <pcidr.h>
#include <stdio.h>
#include <stdlib.h>
#include <string.h>

/* Says what is wrong with a name, and returns 1. */
static int wrong(const char *name, uint32_t code) {
    char message[PCIDR_MESSAGE_ROOM];
    pcidr_message(code, message, sizeof message);
    fprintf(stderr, "%s: %s\n", name, message);
    return 1;
}

/* Reads the whole file into memory, which stays as it is where the file is cut short: its bytes, or null. */
static uint8_t *contents(const char *name, size_t *length) {
    FILE *file = fopen(name, "rb");
    uint8_t *bytes = NULL;
    size_t room = 0, count = 1;
    *length = 0;
    while (file && count > 0) {
        if (*length == room) {
            uint8_t *larger = realloc(bytes, room = 2 * room + 65536);
            if (!larger) break;
            bytes = larger;
        }
        count = fread(bytes + *length, 1, room - *length, file);
        *length += count;
    }
    if (file && count == 0 && !ferror(file)) {
        fclose(file);
        return bytes;
    }
    if (file) fclose(file);
    free(bytes);
    return NULL;
}

/* Looks the addresses up in the file of this name and these bytes: 0, or 1 after an error. */
static int look(const char *name, const uint8_t *bytes, size_t length, char **texts, int count) {
    pcidr_file file;
    uint32_t code = pcidr_file_open(bytes, length, &file);
    if (code == PCIDR_OK) code = pcidr_file_check(bytes, length);
    if (code != PCIDR_OK) return wrong(name, code);
    int status = 0;
    for (int i = 0; i < count; i++) {
        pcidr_value address;
        pcidr_found found;
        code = pcidr_read_address(texts[i], strlen(texts[i]), &address);
        if (code != PCIDR_OK) {
            status = wrong(texts[i], code);
        } else if (pcidr_file_lookup(bytes, length, &file, &address, &found)) {
            printf("%s: %.*s\n", texts[i], (int)found.value_len, (const char *)bytes + found.value);
        } else {
            printf("%s: none\n", texts[i]);
        }
    }
    return status;
}

int main(int argc, char **argv) {
    if (argc < 2) {
        fprintf(stderr, "usage: %s FILE ADDRESS..\n", argv[0]);
        return 2;
    }
    size_t length;
    uint8_t *bytes = contents(argv[1], &length);
    int status = 1;
    if (bytes && length > 0) {
        status = look(argv[1], bytes, length, argv + 2, argc - 2);
    } else {
        fprintf(stderr, "%s: %s\n", argv[1], bytes ? "file is empty" : strerror(errno));
    }
    free(bytes);
    return status;
}
