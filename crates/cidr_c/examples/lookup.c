/* lookup ADDRESS..: the longest of some networks that each address is in, from a table that is built once. */
#include <pcidr.h>
#include <stdio.h>
#include <stdlib.h>
#include <string.h>

static const char *const texts[] = {"10.1.2.0/24", "10.0.0.0/8", "192.0.2.0/24", "10.1.0.0/16"};

enum { ROWS = sizeof texts / sizeof *texts };

/* Builds the table of networks: once without room, which tells how much is enough, and once with it. */
static int build(pcidr_table *table, const pcidr_value *networks, size_t rows) {
    pcidr_table_sizes sizes;
    if (pcidr_table_build(table, networks, rows, &sizes) != PCIDR_NO_ROOM) return 0;
    table->first = malloc(sizes.first * sizeof *table->first), table->first_len = sizes.first;
    table->words = malloc(sizes.words * sizeof *table->words), table->words_len = sizes.words;
    if (!table->first || (!table->words && sizes.words > 0)) return 0;
    return pcidr_table_build(table, networks, rows, &sizes) == PCIDR_OK;
}

int main(int argc, char **argv) {
    pcidr_value networks[ROWS], address;
    for (size_t i = 0; i < ROWS; i++)
        if (pcidr_read_network(texts[i], strlen(texts[i]), &networks[i]) != PCIDR_OK) return 1;
    qsort(networks, ROWS, sizeof *networks, pcidr_order);

    pcidr_table table = {0};
    table.family = 4;
    if (!build(&table, networks, ROWS)) return 1;

    for (int i = 1; i < argc; i++) {
        char network[PCIDR_TEXT_ROOM] = "none";
        if (pcidr_read_address(argv[i], strlen(argv[i]), &address) != PCIDR_OK) return 1;
        uint32_t row = pcidr_table_lookup(&table, &address);
        if (row != PCIDR_NO_ROW) pcidr_print_network(&networks[row], network, sizeof network);
        printf("%s is in %s\n", argv[i], network);
    }
    free(table.first), free(table.words);
    return 0;
}
