/* A session from C: a setup, arrivals from both sides, an end, and the offsets. proxy.c is a host
 * with sockets. */
#include <stdio.h>
#include <string.h>

#include "fashlemor.h"

static uint8_t record[FASHLEMOR_RECORD];
static uint8_t to_server[FASHLEMOR_ROOM], to_client[FASHLEMOR_ROOM];
static struct fashlemor_counts counts;

static uint8_t arrive(uint8_t direction, const char *octets) {
    return fashlemor_arrive(record, sizeof record, direction,
                            (const uint8_t *)octets, strlen(octets),
                            to_server, sizeof to_server, to_client, sizeof to_client, &counts);
}

static uint8_t end(uint8_t direction) {
    return fashlemor_end(record, sizeof record, direction,
                         to_server, sizeof to_server, to_client, sizeof to_client, &counts);
}

static int holds(const uint8_t *buffer, size_t count, const char *text) {
    return count == strlen(text) && memcmp(buffer, text, count) == 0;
}

/* Whether a call answered 0 and wrote these texts, which a host would now send. */
static int wrote(uint8_t answer, const char *server, const char *client) {
    return answer == FASHLEMOR_DONE
        && holds(to_server, counts.to_server, server)
        && holds(to_client, counts.to_client, client);
}

/* The client 2001:db8:2::31, for whom 192.0.2.31 stands towards the server 198.51.100.7. */
static uint8_t set_up(void) {
    static const uint8_t setup[FASHLEMOR_SETUP] = {
        0x20, 0x01, 0x0d, 0xb8, 0x00, 0x02, [15] = 0x31, 192, 0, 2, 31,
        FASHLEMOR_EPSV, 198, 51, 100, 7};
    return fashlemor_setup(record, sizeof record, setup, sizeof setup);
}

/* An arrival of nothing, at no buffers: where a length is 0 the pointer may be null. */
static uint8_t arrive_nothing(void) {
    return fashlemor_arrive(record, sizeof record, FASHLEMOR_SERVER, NULL, 0, NULL, 0, NULL, 0,
                            &counts);
}

/* What arrives may be cut anywhere: the record holds an unfinished line until its rest comes, or
 * the end. */
static int exchange(void) {
    return set_up() == FASHLEMOR_DONE
        && wrote(arrive_nothing(), "", "")
        && wrote(arrive(FASHLEMOR_SERVER, "220 hi\r\n"), "", "220 hi\r\n")
        && wrote(arrive(FASHLEMOR_CLIENT, "EP"), "", "")
        && wrote(arrive(FASHLEMOR_CLIENT, "SV\r\n"), "PASV\r\n", "")
        && wrote(arrive(FASHLEMOR_SERVER, "227 Entering Passive Mode (192,0,2,31,237,19)\r\n"),
                 "", "229 Entering Extended Passive Mode (|||60691|)\r\n")
        && wrote(arrive(FASHLEMOR_CLIENT, "QUI"), "", "")
        && wrote(end(FASHLEMOR_CLIENT), "QUI", "");
}

int main(void) {
    uint32_t up = 0, down = 0; /* octets written for a direction minus those taken from it */
    if (!exchange()
        || fashlemor_offset(record, sizeof record, FASHLEMOR_CLIENT, &up) != FASHLEMOR_DONE
        || fashlemor_offset(record, sizeof record, FASHLEMOR_SERVER, &down) != FASHLEMOR_DONE) {
        puts("the session went wrong");
        return 1;
    }
    printf("offsets %u and %u\n", up, down); /* the 229 is one octet longer than the 227 */
    puts("the session went as it should");
    return 0;
}
