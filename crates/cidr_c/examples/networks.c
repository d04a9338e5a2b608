/* Reads a network, and prints its parts. */
#include <pcidr.h>
#include <stdio.h>
#include <string.h>

int main(void) {
    const char *text = "192.0.2.48/28";
    pcidr_value network, address;
    char printed[PCIDR_TEXT_ROOM];

    uint32_t code = pcidr_read_network(text, strlen(text), &network);
    if (code != PCIDR_OK) {
        char message[PCIDR_MESSAGE_ROOM];
        pcidr_message(code, message, sizeof message);
        fprintf(stderr, "%s: %s\n", text, message);
        return 1;
    }
    pcidr_last(&network, &address);
    pcidr_print_address(&address, printed, sizeof printed);
    printf("%s ends at %s\n", text, printed);

    pcidr_read_address("192.0.2.50", 10, &address);
    printf("has 192.0.2.50: %u\n", pcidr_contains(&network, &address));
    return 0;
}
