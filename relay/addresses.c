/* Addresses by prefix from C: an IPv4 address put behind a prefix, and taken out again. */
#include <arpa/inet.h>
#include <stdio.h>
#include <string.h>

#include "fashlemor.h"

/* Puts an address behind a prefix of so many bits, takes it out again, and shows both. */
static int there_and_back(const char *prefix_text, uint64_t bits, const char *ipv4_text) {
    struct in6_addr prefix, made;
    struct in_addr ipv4, back;
    char shown[INET6_ADDRSTRLEN];

    if (inet_pton(AF_INET6, prefix_text, &prefix) != 1 || inet_pton(AF_INET, ipv4_text, &ipv4) != 1)
        return 0;
    if (fashlemor_embed((const uint8_t *)&prefix, sizeof prefix, bits,
                        (const uint8_t *)&ipv4, sizeof ipv4,
                        (uint8_t *)&made, sizeof made) != FASHLEMOR_DONE)
        return 0;
    if (fashlemor_extract((const uint8_t *)&made, sizeof made, bits,
                          (uint8_t *)&back, sizeof back) != FASHLEMOR_DONE)
        return 0;
    printf("%s is %s\n", ipv4_text, inet_ntop(AF_INET6, &made, shown, sizeof shown));
    return memcmp(&back, &ipv4, sizeof back) == 0;
}

/* A slice that is too short, a length that is none, and a bit among bits 64 to 71, of an address
 * and of a prefix of 96: only the first leaves what was there. */
static int refused(void) {
    static const uint8_t prefix[FASHLEMOR_IPV6] = {0x20, 0x01, 0x0d, 0xb8, [8] = 1};
    static const uint8_t zeros[FASHLEMOR_IPV4];
    uint8_t ipv4[FASHLEMOR_IPV4] = {192, 0, 2, 33}, again[FASHLEMOR_IPV4] = {192, 0, 2, 33};
    uint8_t ipv6[FASHLEMOR_IPV6] = {1};

    return fashlemor_extract(prefix, sizeof prefix, 96, ipv4, 3) == FASHLEMOR_BAD_LENGTH
        && ipv4[0] == 192
        && fashlemor_extract(prefix, sizeof prefix, 352, ipv4, sizeof ipv4) == FASHLEMOR_BAD_LENGTH
        && memcmp(ipv4, zeros, sizeof ipv4) == 0
        && fashlemor_extract(prefix, sizeof prefix, 96, again, sizeof again)
            == FASHLEMOR_RESERVED_BITS
        && memcmp(again, zeros, sizeof again) == 0
        && fashlemor_embed(prefix, sizeof prefix, 96, ipv4, sizeof ipv4, ipv6, sizeof ipv6)
            == FASHLEMOR_RESERVED_BITS
        && ipv6[0] == 0;
}

int main(void) {
    if (!there_and_back("2001:db8:122:344::", 64, "192.0.2.33")
        || !there_and_back("64:ff9b::", 96, "192.0.2.33") || !refused()) {
        puts("an address came out otherwise");
        return 1;
    }
    return 0;
}
