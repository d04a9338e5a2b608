/* Eight threads that look up at once in a file in memory which nobody may write. */
#define _DEFAULT_SOURCE
#include <pcidr.h>
#include <pthread.h>
#include <stdio.h>
#include <string.h>
#include <sys/mman.h>

enum { THREADS = 8, ROWS = 256, ASKED = 4096, ROOM = 1 << 18 };

static pcidr_value asked[ASKED];
static pcidr_found wanted[ASKED];
static const uint8_t *bytes;
static size_t size;
static pcidr_file file;

/* The rows are 10.0.0.0/24, 10.0.2.0/24 and so on, so that row i has the addresses whose third octet is 2 * i. */
static int is_right(size_t i, const pcidr_found *found) {
    size_t third = i % 512;
    return third % 2 ? found->row == PCIDR_NO_ROW : found->row == third / 2 && bytes[found->value] == (uint8_t)found->row;
}

static void *reader(void *right) {
    static const int turns = 50;
    pcidr_found found;
    for (int turn = 0; turn < turns; turn++)
        for (size_t i = 0; i < ASKED; i++) {
            uint32_t is_found = pcidr_file_lookup(bytes, size, &file, &asked[i], &found);
            if (!is_right(i, &found) || pcidr_set_has(bytes, size, &file, &asked[i]) != is_found) *(int *)right = 0;
        }
    return NULL;
}

int main(void) {
    static pcidr_value networks[ROWS];
    static uint32_t offsets[ROWS + 1];
    static uint8_t values[ROWS];
    pthread_t threads[THREADS];
    int rights[THREADS], failed = 0;
    uint8_t *room = (uint8_t *)mmap(NULL, ROOM, PROT_READ | PROT_WRITE, MAP_PRIVATE | MAP_ANONYMOUS, -1, 0);
    if (room == MAP_FAILED) return 2;
    for (uint32_t i = 0; i < ROWS; i++) {
        networks[i].low = 0x0a000000 + (i << 9), networks[i].tag = 24;
        offsets[i + 1] = i + 1, values[i] = (uint8_t)i;
    }
    for (size_t i = 0; i < ASKED; i++) asked[i].low = 0x0a000000 + (i % 512 << 8) + i / 512, asked[i].tag = 32;
    if (pcidr_file_write(networks, ROWS, offsets, ROWS + 1, values, ROWS, room, ROOM, &size) != PCIDR_OK) return 2;
    if (mprotect(room, ROOM, PROT_READ) != 0) return 2;
    bytes = room;
    if (pcidr_file_open(bytes, size, &file) != PCIDR_OK || pcidr_file_check(bytes, size) != PCIDR_OK) return 2;
    if (pcidr_file_lookup_each(bytes, size, &file, asked, ASKED, wanted, ASKED) != PCIDR_OK) return 2;
    for (size_t i = 0; i < ASKED; i++) failed |= !is_right(i, &wanted[i]);
    for (int i = 0; i < THREADS; i++) {
        rights[i] = 1;
        if (pthread_create(&threads[i], NULL, reader, &rights[i]) != 0) return 2;
    }
    for (int i = 0; i < THREADS; i++) {
        pthread_join(threads[i], NULL);
        failed |= !rights[i];
    }
    if (failed) fprintf(stderr, "readers: a look-up is wrong\n");
    return failed;
}
