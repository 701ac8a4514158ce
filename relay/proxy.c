/* A host that runs: clients over IPv6, one server over IPv4, and the gateway between them.
 *
 * It relays control connections only, with poll(2), in one process. Every session has its place in
 * a table and buffers of a fixed size, so memory does not grow with traffic. There are no timeouts
 * but one: a peer that neither reads nor closes keeps its place. docs/HOST.md says what a host has
 * to do and why; the duties are named here where they are done. */
#define _GNU_SOURCE /* getopt_long, IP_TRANSPARENT */
#include <arpa/inet.h>
#include <errno.h>
#include <fcntl.h>
#include <getopt.h>
#include <netinet/in.h>
#include <netinet/tcp.h>
#include <poll.h>
#include <signal.h>
#include <stdarg.h>
#include <stdbool.h>
#include <stdio.h>
#include <stdlib.h>
#include <string.h>
#include <sys/resource.h>
#include <sys/socket.h>
#include <time.h>
#include <unistd.h>

#include "fashlemor.h"

/* The sizes may be set by the compiler's -D: small ones make every wait happen. */
#ifndef SESSIONS
#define SESSIONS 64 /* clients at once; further ones wait in the listener's backlog */
#endif
#ifndef WAITING
#define WAITING 4096 /* octets read from a peer and not yet taken */
#endif
#ifndef OUT
#define OUT 4096 /* octets written for a peer and not yet sent */
#endif
#ifndef LINGER_MS
#define LINGER_MS 5000 /* how long a peer that was told the end may take to close */
#endif

_Static_assert(WAITING > 0, "an arrival has octets");
/* An end needs less: the 511 octets that may be held, each doubled, and two of a Telnet command. */
_Static_assert(OUT >= FASHLEMOR_ROOM, "empty out buffers let every arrival go on");

/* The client or the server of a session. */
struct peer {
    int socket;
    uint8_t waiting[WAITING];
    size_t waiting_count;
    uint8_t out[OUT];
    size_t out_count;
    bool finished;   /* nothing more that it sends will be offered */
    bool ended;      /* its direction has ended in the record */
    bool shut;       /* nothing more will be sent to it */
    bool discarding; /* what it sends is read and thrown away until it closes */
};

struct session {
    _Alignas(64) uint8_t record[FASHLEMOR_RECORD];
    struct peer peers[2]; /* by direction */
    bool used;
    bool connecting;
    bool stopped;                    /* the client's octets wait for the server's: answer 1 */
    bool failed;                     /* an internal error */
    long long deadline;              /* when to close, whatever the peers do; 0: never */
    char name[INET6_ADDRSTRLEN + 8]; /* the client, for messages */
};

static struct {
    struct sockaddr_in6 listen;
    struct sockaddr_in server;
    struct in_addr mapped;
    bool has_server, has_mapped, bind_mapped;
    uint8_t flags;
} options;

static struct session sessions[SESSIONS];
static long long accept_again; /* when to look at the listener again; 0: now */

/* ---- messages and time ---- */

static void say(const char *format, ...) __attribute__((format(printf, 1, 2)));

static void say(const char *format, ...) {
    va_list words;
    va_start(words, format);
    fputs("proxy: ", stderr);
    vfprintf(stderr, format, words);
    fputc('\n', stderr);
    va_end(words);
}

static void say_of(const struct session *s, const char *what, int error) {
    say("%s: %s: %s", s->name, what, strerror(error));
}

static long long now_ms(void) {
    struct timespec now;
    clock_gettime(CLOCK_MONOTONIC, &now);
    return (long long)now.tv_sec * 1000 + now.tv_nsec / 1000000;
}

static bool is_passing(int error) {
    return error == EAGAIN || error == EWOULDBLOCK || error == EINTR;
}

/* ---- the library: each of its functions is called in one place ---- */

static struct peer *other_of(struct session *s, uint8_t side) {
    return &s->peers[1 - side];
}

static uint8_t set_up(struct session *s, const struct in6_addr *client) {
    uint8_t setup[FASHLEMOR_SETUP];
    memcpy(setup, client->s6_addr, 16);
    memcpy(setup + 16, &options.mapped, 4);
    setup[20] = options.flags;
    memcpy(setup + 21, &options.server.sin_addr, 4);
    return fashlemor_setup(s->record, sizeof s->record, setup, sizeof setup);
}

/* One call may write to both sides: the gateway answers some commands itself. */
static size_t keep_written(struct session *s, const struct fashlemor_counts *counts) {
    s->peers[FASHLEMOR_SERVER].out_count += counts->to_server;
    s->peers[FASHLEMOR_CLIENT].out_count += counts->to_client;
    return counts->taken;
}

/* What is written goes behind what is still to be sent. */
static uint8_t arrive(struct session *s, uint8_t side, size_t *taken) {
    struct peer *from = &s->peers[side];
    struct peer *client = &s->peers[FASHLEMOR_CLIENT];
    struct peer *server = &s->peers[FASHLEMOR_SERVER];
    struct fashlemor_counts counts = {0};
    uint8_t answer = fashlemor_arrive(s->record, sizeof s->record, side,
                                      from->waiting, from->waiting_count,
                                      server->out + server->out_count, OUT - server->out_count,
                                      client->out + client->out_count, OUT - client->out_count,
                                      &counts);
    *taken = keep_written(s, &counts);
    return answer;
}

static uint8_t end(struct session *s, uint8_t side) {
    struct peer *client = &s->peers[FASHLEMOR_CLIENT];
    struct peer *server = &s->peers[FASHLEMOR_SERVER];
    struct fashlemor_counts counts = {0};
    uint8_t answer = fashlemor_end(s->record, sizeof s->record, side,
                                   server->out + server->out_count, OUT - server->out_count,
                                   client->out + client->out_count, OUT - client->out_count,
                                   &counts);
    keep_written(s, &counts);
    return answer;
}

/* ---- sockets ---- */

/* Non-blocking; urgent octets in line, so that none is lost; small pieces at once, as they came;
 * and a peer that has vanished is noticed some time. */
static bool prepare_socket(int socket) {
    int on = 1, flags = fcntl(socket, F_GETFL);
    return flags >= 0 && fcntl(socket, F_SETFL, flags | O_NONBLOCK) == 0
        && fcntl(socket, F_SETFD, FD_CLOEXEC) == 0
        && setsockopt(socket, SOL_SOCKET, SO_OOBINLINE, &on, sizeof on) == 0
        && setsockopt(socket, IPPROTO_TCP, TCP_NODELAY, &on, sizeof on) == 0
        && setsockopt(socket, SOL_SOCKET, SO_KEEPALIVE, &on, sizeof on) == 0;
}

/* ICMP errors of these connections may go to a NAT64 and not here, so no segment may need one:
 * every IPv6 link carries 1,280 octets, and over IPv4 a router may cut. */
static bool fit_every_link(int socket, int family) {
    int most = 1220, never = IP_PMTUDISC_DONT;
    return family == AF_INET6
        ? setsockopt(socket, IPPROTO_TCP, TCP_MAXSEG, &most, sizeof most) == 0
        : setsockopt(socket, IPPROTO_IP, IP_MTU_DISCOVER, &never, sizeof never) == 0;
}

/* Binds to the mapped address, which need not be one of this machine: then IP_TRANSPARENT, and
 * with it the right to set it, is needed. */
static bool bind_mapped(int socket) {
    struct sockaddr_in from = {.sin_family = AF_INET, .sin_addr = options.mapped};
    int transparent = 0;
#ifdef IP_TRANSPARENT
    int on = 1;
    transparent = setsockopt(socket, IPPROTO_IP, IP_TRANSPARENT, &on, sizeof on) == 0 ? 0 : errno;
#endif
    if (bind(socket, (struct sockaddr *)&from, sizeof from) == 0) {
        return true;
    }
    int error = errno;
    say("the mapped address can't be bound: %s (IP_TRANSPARENT: %s)", strerror(error),
        transparent == 0 ? "set" : strerror(transparent));
    errno = error;
    return false;
}

/* A socket that is on its way to the server, or -1. */
static int connect_server(struct session *s) {
    int server = socket(AF_INET, SOCK_STREAM, 0);
    if (server >= 0 && prepare_socket(server) && fit_every_link(server, AF_INET)
        && (!options.bind_mapped || bind_mapped(server))
        && (connect(server, (struct sockaddr *)&options.server, sizeof options.server) == 0
            || errno == EINPROGRESS || errno == EINTR)) {
        return server;
    }
    say_of(s, "no connection to the server", errno);
    if (server >= 0) {
        close(server);
    }
    return -1;
}

/* poll(2) and accept(2) need as many files as there are sockets. */
static void allow_files(void) {
    struct rlimit files;
    const rlim_t needed = 2 * SESSIONS + 8;
    if (getrlimit(RLIMIT_NOFILE, &files) == 0 && files.rlim_cur < needed) {
        files.rlim_cur = needed;
        if (files.rlim_max < needed || setrlimit(RLIMIT_NOFILE, &files) != 0) {
            say("%d sessions need %lu open files, and fewer are allowed", SESSIONS,
                (unsigned long)needed);
            exit(1);
        }
    }
}

static int open_listener(void) {
    int on = 1, listener = socket(AF_INET6, SOCK_STREAM, 0);
    if (listener < 0 || !prepare_socket(listener) || !fit_every_link(listener, AF_INET6)
        || setsockopt(listener, SOL_SOCKET, SO_REUSEADDR, &on, sizeof on) != 0
        || setsockopt(listener, IPPROTO_IPV6, IPV6_V6ONLY, &on, sizeof on) != 0
        || bind(listener, (struct sockaddr *)&options.listen, sizeof options.listen) != 0
        || listen(listener, SOMAXCONN) != 0) {
        say("can't listen: %s", strerror(errno));
        exit(1);
    }
    return listener;
}

/* ---- a session ---- */

static void close_session(struct session *s) {
    close(s->peers[FASHLEMOR_CLIENT].socket);
    close(s->peers[FASHLEMOR_SERVER].socket);
    s->used = false;
}

/* What this peer has said and not been heard, and all that it will say, is thrown away. It is still
 * read: closing with octets unread would reset the connection and lose what was sent to it. */
static void discard(struct peer *p) {
    p->waiting_count = 0;
    p->discarding = p->discarding || !p->finished;
    p->finished = true;
}

/* Nothing can be sent to this side any more, so nothing that the other says has a place to go. */
static void stop_sending(struct session *s, uint8_t side) {
    s->peers[side].out_count = 0;
    s->peers[side].shut = true;
    discard(other_of(s, side));
}

/* Back pressure: a peer is read only when all it said was taken and what that gave was sent. This
 * also leaves a client unread while sixteen replies are owed, since its octets then wait. */
static bool wants_reading(struct session *s, uint8_t side) {
    const struct peer *p = &s->peers[side];
    bool all_passed_on = p->waiting_count == 0 && other_of(s, side)->out_count == 0;
    return !s->connecting && (p->discarding || (!p->finished && all_passed_on));
}

static void receive(struct session *s, uint8_t side) {
    struct peer *p = &s->peers[side];
    ssize_t count = recv(p->socket, p->waiting, sizeof p->waiting, 0);
    if (count > 0) {
        p->waiting_count = p->discarding ? 0 : (size_t)count;
        return;
    }
    if (count < 0 && is_passing(errno)) {
        return;
    }
    int error = errno;
    p->finished = true;
    p->discarding = false;
    if (count < 0) {
        say_of(s, side == FASHLEMOR_CLIENT ? "the client" : "the server", error);
        stop_sending(s, side);
    }
}

/* Answers 3 to 6 say that this host is wrong: the session is closed. */
static void fail(struct session *s, const char *call, uint8_t answer) {
    say("%s: internal error: %s answered %d", s->name, call, answer);
    s->failed = true;
}

/* Offers what waits of a side. What is not taken goes on waiting: after answer 1 until octets of
 * the server have been taken, after answer 2 until the out buffers have drained. */
static bool offer(struct session *s, uint8_t side) {
    struct peer *p = &s->peers[side];
    if (p->waiting_count == 0 || (side == FASHLEMOR_CLIENT && s->stopped)) {
        return false;
    }
    size_t taken = 0;
    uint8_t answer = arrive(s, side, &taken);
    p->waiting_count -= taken;
    memmove(p->waiting, p->waiting + taken, p->waiting_count);
    if (side == FASHLEMOR_SERVER && taken > 0) {
        s->stopped = false;
    }
    if (answer == FASHLEMOR_QUEUE_FULL) {
        s->stopped = true;
    } else if (answer != FASHLEMOR_DONE && answer != FASHLEMOR_NO_ROOM) {
        fail(s, "an arrival", answer);
    }
    return taken > 0;
}

/* Ends a direction, but only when nothing of it waits. After answer 2 it is tried again when the
 * out buffer has drained. */
static bool end_direction(struct session *s, uint8_t side) {
    struct peer *p = &s->peers[side];
    if (!p->finished || p->ended || p->waiting_count > 0) {
        return false;
    }
    uint8_t answer = end(s, side);
    p->ended = answer == FASHLEMOR_DONE;
    if (answer != FASHLEMOR_DONE && answer != FASHLEMOR_NO_ROOM) {
        fail(s, "an end", answer);
    }
    return p->ended;
}

/* After the server's end nothing clears answer 1: what waits of the client has no way on. */
static bool give_up_client(struct session *s) {
    if (!s->stopped || !s->peers[FASHLEMOR_SERVER].ended) {
        return false;
    }
    discard(&s->peers[FASHLEMOR_CLIENT]);
    s->stopped = false;
    return true;
}

/* Sends what can be sent to a side; once the other's direction has ended and all is sent, says
 * so. Only then: an earlier end would cut off what is still to come. */
static bool send_out(struct session *s, uint8_t side) {
    struct peer *p = &s->peers[side];
    if (p->shut) {
        p->out_count = 0;
        return false;
    }
    if (p->out_count == 0) {
        if (other_of(s, side)->ended) {
            shutdown(p->socket, SHUT_WR);
            p->shut = true;
        }
        return false;
    }
    ssize_t count = send(p->socket, p->out, p->out_count, 0);
    if (count < 0 && !is_passing(errno)) {
        say_of(s, side == FASHLEMOR_CLIENT ? "to the client" : "to the server", errno);
        stop_sending(s, side);
        return true;
    }
    if (count > 0) {
        p->out_count -= (size_t)count;
        memmove(p->out, p->out + count, p->out_count);
    }
    return count > 0;
}

/* Does all that can be done without waiting for a peer. The server goes first: its replies make
 * room for the client's commands. */
static void advance(struct session *s) {
    bool moved = true;
    while (moved && !s->failed) {
        moved = offer(s, FASHLEMOR_SERVER);
        moved = offer(s, FASHLEMOR_CLIENT) || moved;
        moved = end_direction(s, FASHLEMOR_SERVER) || moved;
        moved = end_direction(s, FASHLEMOR_CLIENT) || moved;
        moved = give_up_client(s) || moved;
        moved = send_out(s, FASHLEMOR_SERVER) || moved;
        moved = send_out(s, FASHLEMOR_CLIENT) || moved;
    }
}

/* Whether the session is over. A peer that was told the end and whose octets are thrown away may
 * take a while to close, but not for ever; what a server that has ended, but still reads, has not
 * got by then is lost. */
static bool is_over(struct session *s) {
    const struct peer *client = &s->peers[FASHLEMOR_CLIENT];
    const struct peer *server = &s->peers[FASHLEMOR_SERVER];
    if ((client->discarding && client->shut) || (server->discarding && server->shut)) {
        if (s->deadline == 0) {
            s->deadline = now_ms() + LINGER_MS;
        }
        if (now_ms() >= s->deadline) {
            return true;
        }
    }
    return s->failed
        || (client->shut && server->shut && !client->discarding && !server->discarding);
}

/* The connection to the server stands, or the session is over. */
static bool has_connected(struct session *s) {
    int error = 0;
    socklen_t length = sizeof error;
    if (getsockopt(s->peers[FASHLEMOR_SERVER].socket, SOL_SOCKET, SO_ERROR, &error, &length) != 0) {
        error = errno;
    }
    /* A server may speak and reset at once: what it said is still to be read. */
    uint8_t octet;
    if (error != 0
        && recv(s->peers[FASHLEMOR_SERVER].socket, &octet, sizeof octet, MSG_PEEK) <= 0) {
        say_of(s, "no connection to the server", error);
        return false;
    }
    s->connecting = false;
    return true;
}

/* What poll(2) saw of a side. A hang-up of a peer that is not read is a reset connection: one that
 * was shut in order is not polled. */
static void look_at(struct session *s, uint8_t side, short seen) {
    if (seen == 0) {
        return;
    }
    if (wants_reading(s, side)) {
        receive(s, side);
    } else if ((seen & (POLLERR | POLLHUP | POLLNVAL)) != 0) {
        stop_sending(s, side);
    }
}

static void serve(struct session *s, short client_seen, short server_seen) {
    if (s->connecting) {
        if (client_seen != 0 || (server_seen != 0 && !has_connected(s))) {
            close_session(s);
        }
        return;
    }
    look_at(s, FASHLEMOR_SERVER, server_seen);
    look_at(s, FASHLEMOR_CLIENT, client_seen);
    advance(s);
    if (is_over(s)) {
        close_session(s);
    }
}

/* ---- new clients ---- */

static struct session *free_session(void) {
    for (size_t i = 0; i < SESSIONS; i++) {
        if (!sessions[i].used) {
            return &sessions[i];
        }
    }
    return NULL;
}

static void name_client(struct session *s, const struct sockaddr_in6 *from) {
    char text[INET6_ADDRSTRLEN] = "?";
    inet_ntop(AF_INET6, &from->sin6_addr, text, sizeof text);
    snprintf(s->name, sizeof s->name, "%s %u", text, (unsigned)ntohs(from->sin6_port));
}

/* Gives a client its place in the table and begins to connect to the server. */
static void begin(struct session *s, int client, const struct sockaddr_in6 *from) {
    memset(s, 0, sizeof *s);
    name_client(s, from);
    uint8_t answer = set_up(s, &from->sin6_addr);
    if (answer != FASHLEMOR_DONE) {
        fail(s, "the setup", answer);
    } else if (!prepare_socket(client)) {
        say_of(s, "the client's socket", errno);
    } else {
        int server = connect_server(s);
        if (server >= 0) {
            s->peers[FASHLEMOR_CLIENT].socket = client;
            s->peers[FASHLEMOR_SERVER].socket = server;
            s->used = s->connecting = true;
            return;
        }
    }
    close(client);
}

static void accept_client(int listener) {
    struct sockaddr_in6 from;
    socklen_t length = sizeof from;
    struct session *s = free_session();
    int client = s == NULL ? -1 : accept(listener, (struct sockaddr *)&from, &length);
    if (client >= 0) {
        begin(s, client, &from);
    } else if (s != NULL && !is_passing(errno) && errno != ECONNABORTED) {
        say("accept: %s; trying again in a second", strerror(errno));
        accept_again = now_ms() + 1000;
    }
}

/* ---- the loop ---- */

/* What to ask poll(2) about a side. A peer of which nothing is wanted is watched for a reset only
 * until it is shut: then its hang-up is nothing new. */
static struct pollfd question(struct session *s, uint8_t side) {
    const struct peer *p = &s->peers[side];
    struct pollfd asked = {.fd = -1};
    if (!s->used) {
        return asked;
    }
    bool connecting = s->connecting && side == FASHLEMOR_SERVER;
    bool writes = p->out_count > 0 || connecting;
    bool reads = wants_reading(s, side);
    asked.events = (short)((reads ? POLLIN : 0) | (writes ? POLLOUT : 0));
    asked.fd = asked.events == 0 && p->shut ? -1 : p->socket;
    return asked;
}

/* How long poll(2) may wait: without end, unless a deadline runs. */
static int patience(void) {
    bool hurried = accept_again != 0;
    for (size_t i = 0; i < SESSIONS; i++) {
        hurried = hurried || (sessions[i].used && sessions[i].deadline != 0);
    }
    return hurried ? 100 : -1;
}

static void ask(struct pollfd *asked, int listener) {
    if (accept_again != 0 && now_ms() >= accept_again) {
        accept_again = 0;
    }
    bool listens = accept_again == 0 && free_session() != NULL;
    asked[0] = (struct pollfd){.fd = listens ? listener : -1, .events = POLLIN};
    for (size_t i = 0; i < SESSIONS; i++) {
        asked[1 + 2 * i] = question(&sessions[i], FASHLEMOR_CLIENT);
        asked[2 + 2 * i] = question(&sessions[i], FASHLEMOR_SERVER);
    }
}

static void serve_all(const struct pollfd *asked) {
    for (size_t i = 0; i < SESSIONS; i++) {
        struct session *s = &sessions[i];
        short client_seen = asked[1 + 2 * i].revents, server_seen = asked[2 + 2 * i].revents;
        if (s->used && (client_seen != 0 || server_seen != 0 || s->deadline != 0)) {
            serve(s, client_seen, server_seen);
        }
    }
}

static void run(int listener) {
    static struct pollfd asked[1 + 2 * SESSIONS];
    for (;;) {
        ask(asked, listener);
        int count = poll(asked, 1 + 2 * SESSIONS, patience());
        if (count < 0 && errno != EINTR) {
            say("poll: %s", strerror(errno));
            exit(1);
        }
        if (count < 0) {
            continue;
        }
        serve_all(asked);
        if (asked[0].revents != 0) {
            accept_client(listener);
        }
    }
}

/* ---- options ---- */

static const char usage[] =
    "usage: proxy --server ADDRESS [options]\n"
    "Relays FTP control connections of IPv6 clients to an IPv4 server (RFC 6384).\n"
    "\n"
    "  -l, --listen ADDRESS    the IPv6 address to listen on; ::1 if none is given\n"
    "  -p, --port PORT         the port to listen on; 2121; 0 for any\n"
    "  -s, --server ADDRESS    the server's IPv4 address\n"
    "  -t, --server-port PORT  the server's port; 21\n"
    "  -m, --mapped ADDRESS    the IPv4 address that stands for the clients\n"
    "  -b, --bind-mapped       connect to the server from that address\n"
    "      --no-epsv           leave EPSV as it is\n"
    "      --eprt              translate EPRT; needs --mapped\n"
    "      --strict            refuse a 227 with another address than the server's\n"
    "  -h, --help              this text\n"
    "\n"
    "When it listens it writes the line `listening on ADDRESS PORT` to standard output.\n";

static void refuse(const char *what, const char *value) {
    say("%s%s%s; --help tells the options", what, value[0] == '\0' ? "" : ": ", value);
    exit(2);
}

static in_port_t port_of(const char *text) {
    char *rest = NULL;
    errno = 0;
    long port = strtol(text, &rest, 10);
    if (errno != 0 || rest == text || *rest != '\0' || port < 0 || port > 65535) {
        refuse("not a port", text);
    }
    return htons((uint16_t)port);
}

static void read_address(int family, const char *text, void *address) {
    if (inet_pton(family, text, address) != 1) {
        refuse(family == AF_INET ? "not an IPv4 address" : "not an IPv6 address", text);
    }
}

static void read_option(int option) {
    switch (option) {
    case 'l': read_address(AF_INET6, optarg, &options.listen.sin6_addr); break;
    case 'p': options.listen.sin6_port = port_of(optarg); break;
    case 's':
        read_address(AF_INET, optarg, &options.server.sin_addr);
        options.has_server = true;
        break;
    case 't': options.server.sin_port = port_of(optarg); break;
    case 'm':
        read_address(AF_INET, optarg, &options.mapped);
        options.has_mapped = true;
        break;
    case 'b': options.bind_mapped = true; break;
    case 'E': options.flags &= (uint8_t)~FASHLEMOR_EPSV; break;
    case 'R': options.flags |= FASHLEMOR_EPRT_SUPPORTED | FASHLEMOR_EPRT; break;
    case 'S': options.flags |= FASHLEMOR_STRICT; break;
    case 'h':
        fputs(usage, stdout);
        exit(0);
    default:
        fputs(usage, stderr);
        exit(2);
    }
}

static void read_options(int count, char **words) {
    static const struct option known[] = {
        {"listen", required_argument, NULL, 'l'},
        {"port", required_argument, NULL, 'p'},
        {"server", required_argument, NULL, 's'},
        {"server-port", required_argument, NULL, 't'},
        {"mapped", required_argument, NULL, 'm'},
        {"bind-mapped", no_argument, NULL, 'b'},
        {"no-epsv", no_argument, NULL, 'E'},
        {"eprt", no_argument, NULL, 'R'},
        {"strict", no_argument, NULL, 'S'},
        {"help", no_argument, NULL, 'h'},
        {NULL, 0, NULL, 0},
    };
    options.listen = (struct sockaddr_in6){.sin6_family = AF_INET6,
                                           .sin6_addr = IN6ADDR_LOOPBACK_INIT,
                                           .sin6_port = htons(2121)};
    options.server = (struct sockaddr_in){.sin_family = AF_INET, .sin_port = htons(21)};
    options.flags = FASHLEMOR_EPSV;
    int option;
    while ((option = getopt_long(count, words, "l:p:s:t:m:bh", known, NULL)) != -1) {
        read_option(option);
    }
    if (optind < count) {
        refuse("not an option", words[optind]);
    }
    if (!options.has_server) {
        refuse("no --server", "");
    }
    if (!options.has_mapped && (options.bind_mapped || (options.flags & FASHLEMOR_EPRT) != 0)) {
        refuse("no --mapped", "");
    }
}

/* Whether the mapped address can be bound, asked before the first client comes. */
static void try_mapped(void) {
    int socket_tried = socket(AF_INET, SOCK_STREAM, 0);
    if (socket_tried < 0 || !bind_mapped(socket_tried)) {
        exit(1);
    }
    close(socket_tried);
}

static void tell_address(int listener) {
    struct sockaddr_in6 bound;
    socklen_t length = sizeof bound;
    char text[INET6_ADDRSTRLEN] = "?";
    if (getsockname(listener, (struct sockaddr *)&bound, &length) == 0) {
        inet_ntop(AF_INET6, &bound.sin6_addr, text, sizeof text);
        printf("listening on %s %u\n", text, (unsigned)ntohs(bound.sin6_port));
        fflush(stdout);
    }
}

int main(int count, char **words) {
    read_options(count, words);
    signal(SIGPIPE, SIG_IGN); /* a peer that is gone is an error of its session */
    if (options.bind_mapped) {
        try_mapped();
    }
    allow_files();
    int listener = open_listener();
    tell_address(listener);
    run(listener);
}
