/* cut FILE: writes a set of networks into FILE, copies its bytes, maps it, and cuts it short: the copy gives the answers that
 * it gave before, and a look-up in what is mapped ends the process by SIGBUS, as the header says. */
#define _POSIX_C_SOURCE 200809L
#include <fcntl.h>
#include <pcidr.h>
#include <signal.h>
#include <stdio.h>
#include <stdlib.h>
#include <sys/mman.h>
#include <sys/resource.h>
#include <sys/wait.h>
#include <unistd.h>

enum { MANY = 20000 };

static pcidr_value networks[MANY];

/* How many of the networks' addresses, and of those beside them, the set has. */
static size_t found_in(const uint8_t *bytes, size_t length, const pcidr_file *file) {
    size_t found = 0;
    for (size_t i = 0; i < MANY; i++) {
        pcidr_value beside = networks[i];
        beside.low ^= 1;
        found += pcidr_set_has(bytes, length, file, &networks[i]) + 2 * MANY * pcidr_set_has(bytes, length, file, &beside);
    }
    return found;
}

int main(int argc, char **argv) {
    static uint8_t bytes[128 * MANY];
    size_t length = 0;
    pcidr_file file;
    for (size_t i = 0; i < MANY; i++) networks[i].low = 0x0a000000 + 2 * i, networks[i].tag = 32;
    if (argc < 2 || pcidr_set_write(networks, MANY, bytes, sizeof bytes, &length) != PCIDR_OK) return 2;
    int handle = open(argv[1], O_RDWR | O_CREAT | O_TRUNC, 0600);
    if (handle < 0 || write(handle, bytes, length) != (ssize_t)length) return 2;
    const uint8_t *mapped = mmap(NULL, length, PROT_READ, MAP_SHARED, handle, 0);
    if (mapped == MAP_FAILED || pcidr_file_open(mapped, length, &file) != PCIDR_OK) return 2;
    if (found_in(mapped, length, &file) != MANY || ftruncate(handle, 100) != 0) return 2;
    if (found_in(bytes, length, &file) != MANY) return 1;
    pid_t child = fork();
    if (child == 0) {
        struct rlimit none = {0, 0};
        setrlimit(RLIMIT_CORE, &none);
        _exit(found_in(mapped, length, &file) == MANY);
    }
    int status = 0;
    if (child < 0 || waitpid(child, &status, 0) != child) return 2;
    return !(WIFSIGNALED(status) && WTERMSIG(status) == SIGBUS);
}
