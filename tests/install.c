/* Prints the name and the MTU of a message, and the version of the header; scripts/test/test_install.sh compares. */
#include <linkwire.h>
#include <stdio.h>

int main(void) {
    const uint8_t message[] = {0, 0, 1, 0, 7, 0, 0, 0, 0, 0, 0, 0, 0, 0, 0, 0,
                               7, 0, 3, 0, 'l', 'o', 0, 0, 8, 0, 4, 0, 0xdc, 5, 0, 0};
    size_t at = LINKWIRE_HEADER_SIZE;
    struct linkwire_attribute name, number;
    uint32_t mtu;
    if (linkwire_same_message(message, sizeof message, message, sizeof message) != 1 ||
        linkwire_next(message, sizeof message, &at, &name) != 1 ||
        linkwire_next(message, sizeof message, &at, &number) != 1 || !linkwire_u32(message, &number, &mtu)) {
        return 1;
    }
    int len = (int)linkwire_text_len(message, &name);
    printf("%.*s %u %s\n", len, (const char *)message + name.payload, (unsigned)mtu, LINKWIRE_VERSION);
    return 0;
}
