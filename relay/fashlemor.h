/* The FTP control channel gateway (RFC 6384) for a host in C, on x86-64: link libfashlemor.a, which
 * `./library` makes in target/staticlib. docs/HOST.md is the guide to writing a host.
 *
 * A host has a record for each control connection, hands in what arrives from either side, and
 * sends what then stands in the two buffers. The library owns no sockets, allocates nothing, keeps
 * no pointer and never waits.
 *
 * Slices are a pointer and a length. The memory is the host's for the time of the call, and what
 * one call is lent does not overlap. Where a length is 0 the pointer may be null; counts and offset
 * may not. Nothing else is asked: any octets and any lengths are answered, and nobody has to check
 * first.
 *
 * Records are independent of each other: threads may use different ones at once, and one record one
 * at a time. A call needs less than 2 KB of stack.
 */
#ifndef FASHLEMOR_H
#define FASHLEMOR_H

#include <stddef.h>
#include <stdint.h>

#ifdef __cplusplus
extern "C" {
#endif

/* The version of these functions and of the record. A record is for the version that wrote it. */
#define FASHLEMOR_VERSION_MAJOR 0
#define FASHLEMOR_VERSION_MINOR 6

/* The octets of a record. It is an image with no pointer in it, laid out in docs/RECORD.md: it may
 * be copied, kept and moved between calls, and needs no alignment; at a multiple of 64 a call costs
 * least. Octets behind these are neither read nor written. A record that is shorter, or whose
 * octets are no record (all zero, for example), is refused with 4. A host may read it: octets 41 to
 * 44 tell how many octets of Telnet subnegotiations were removed from the client's, 45 to 48 from
 * the server's, in 32 bits that wrap, low octet first. */
#define FASHLEMOR_RECORD 1111

/* The octets of a setup: the client's IPv6 address (16) and its mapped IPv4 address (4), a sum of
 * enum fashlemor_flag (1), and the server's IPv4 address (4); addresses are in network order. */
#define FASHLEMOR_SETUP 25

/* With this much room in each buffer an arrival that is not refused and not stopped by 1 takes at
 * least one of its octets. */
#define FASHLEMOR_ROOM 1791

/* With this much room in the buffer that it goes to, an end never answers 2. */
#define FASHLEMOR_END_ROOM 1024

/* The two directions: octets that the client sent, octets that the server sent. */
enum fashlemor_direction {
    FASHLEMOR_CLIENT = 0,
    FASHLEMOR_SERVER = 1
};

/* The flags of a setup. */
enum fashlemor_flag {
    FASHLEMOR_EPSV = 1,           /* EPSV translation is on */
    FASHLEMOR_EPRT_SUPPORTED = 2, /* EPRT is supported */
    FASHLEMOR_EPRT = 4,           /* EPRT translation is on; only with EPRT_SUPPORTED */
    /* a 227 for a translated EPSV that names another address than the server's becomes a 425;
     * without it the server's address is not looked at */
    FASHLEMOR_STRICT = 8
};

/* What a call answers. With 3, 4 and 6 nothing was taken or written; the record is as it was. */
enum fashlemor_answer {
    FASHLEMOR_DONE = 0,
    /* Sixteen replies are owed to the client. What was not taken waits in the host: stop reading
     * from the client, hand in the server's octets, then the rest. After the server's end it never
     * clears: drop what waits, and close the client. */
    FASHLEMOR_QUEUE_FULL = 1,
    /* The next octet's output has no room. Send what was written, and hand in the rest. */
    FASHLEMOR_NO_ROOM = 2,
    FASHLEMOR_UNKNOWN_DIRECTION = 3,
    FASHLEMOR_BAD_RECORD = 4,
    FASHLEMOR_BAD_SETUP = 5,
    FASHLEMOR_DIRECTION_ENDED = 6
};

/* What an arrival or an end did. */
struct fashlemor_counts {
    size_t taken;     /* octets taken of those that arrived; the others are to be handed in again */
    size_t to_server; /* octets written to the front of to_server */
    size_t to_client; /* octets written to the front of to_client */
};

/* Writes the record of a fresh session. Answers 0, or 5: for undefined flags, for EPRT on and not
 * supported, for a setup of another length, and for a record that is too short. With 5 the record
 * is all zero, which every call refuses with 4 (one that is too short stays as it was). */
uint8_t fashlemor_setup(uint8_t *record, size_t record_length,
                        const uint8_t *setup, size_t setup_length);

/* Octets of a direction arrive. What goes to the server and to the client then stands at the front
 * of the two buffers, whose rest stays as it was. The octets of either side may write to both:
 * Telnet offers are answered to their sender. Answers 0, 1, 2, 3, 4 or 6. counts is set with every
 * answer. An arrival of no octets answers 0 unless it is refused. */
uint8_t fashlemor_arrive(uint8_t *record, size_t record_length,
                         uint64_t direction,
                         const uint8_t *octets, size_t octets_length,
                         uint8_t *to_server, size_t to_server_length,
                         uint8_t *to_client, size_t to_client_length,
                         struct fashlemor_counts *counts);

/* A direction ends: the held octets of its unfinished line are written to the other side, and
 * behind them what has come of a Telnet command, but for a subnegotiation. It is for when nothing
 * of that direction waits in the host. Answers 0, 2, 3, 4 or 6; with 2 nothing was changed. counts
 * is set with every answer. */
uint8_t fashlemor_end(uint8_t *record, size_t record_length,
                      uint64_t direction,
                      uint8_t *to_server, size_t to_server_length,
                      uint8_t *to_client, size_t to_client_length,
                      struct fashlemor_counts *counts);

/* Sets *offset to the octets written for a direction minus those taken from it, modulo 2^32: by how
 * much sequence numbers move on the way through. Answers 0, or 3 and sets nothing. The offset is
 * that of the record's counters, also where an arrival would be refused with 4. It is 0 where there
 * are fewer octets than a record, or one of the first nine has a value that docs/RECORD.md does
 * not list. */
uint8_t fashlemor_offset(const uint8_t *record, size_t record_length,
                         uint64_t direction,
                         uint32_t *offset);

/* Addresses by prefix (RFC 6052). They need no session: a host works out by them which IPv4 server
 * an IPv6 address stands for, or which IPv6 address stands for a server. Addresses are octets in
 * network order, as in struct in6_addr and struct in_addr. */
#define FASHLEMOR_IPV6 16
#define FASHLEMOR_IPV4 4

/* What both answer, beside FASHLEMOR_DONE. With either the address that is worked out is all zero;
 * but where prefix_length or ipv6_length is not 16, or ipv4_length not 4, which is refused with 9
 * before all else, nothing is written. */
enum fashlemor_prefix_answer {
    /* The prefix has not 32, 40, 48, 56, 64 or 96 bits. */
    FASHLEMOR_BAD_LENGTH = 9,
    /* A bit among bits 64 to 71 is set: of a prefix of 96, or of the address that is read. */
    FASHLEMOR_RESERVED_BITS = 10
};

/* Writes the IPv6 address that an IPv4 address has behind a prefix of so many bits; bits of the
 * prefix past these are not looked at. The prefix and the address written may not overlap: it can't
 * be made in place. Answers 0, 9 or 10. */
uint8_t fashlemor_embed(const uint8_t *prefix, size_t prefix_length,
                        uint64_t bits,
                        const uint8_t *ipv4, size_t ipv4_length,
                        uint8_t *ipv6, size_t ipv6_length);

/* Writes the IPv4 address inside an IPv6 address whose prefix has so many bits. Which prefix that
 * is, and what stands behind the IPv4 address, is not looked at. Answers 0, 9 or 10. */
uint8_t fashlemor_extract(const uint8_t *ipv6, size_t ipv6_length,
                          uint64_t bits,
                          uint8_t *ipv4, size_t ipv4_length);

#ifdef __cplusplus
}
#endif

#endif
