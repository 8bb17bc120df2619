/* Loads a gateway: load IP PORT NODES UNDER_WAY SECONDS [TIME_OUT].
 *
 * So many nodes, from 127.0.1.1 on, send packets of one record to the gateway at IP:PORT. Each keeps so many requests
 * under way for so many seconds: it sends the next one when one is answered. A request that isn't answered for so many
 * milliseconds, 1,000 where nothing is said, is sent again, and then each time after longer. The first half second from
 * the first answer on isn't counted. At the end it waits for what is under way, for 10 seconds at most, and prints:
 *
 *   requests N rate N p50 N p99 N p999 N resent N refused N lost N
 *
 * how many requests were accepted, how many in a second, the latencies in microseconds below which so many hundredths
 * of them stay, how many were sent again, how many were refused for want of room, and how many were never answered.
 * It ends with status 1 where an answer is none of a gateway that works: each must be of a request that is under way,
 * and accept it, or say that it is fulfilled where it was sent twice. Once a gateway is full it doesn't see the numbers
 * that it refuses; where they have run ahead by half of all, they mean earlier ones, and are fulfilled too. It does so
 * too where one is never answered, or nothing is for a minute.
 */
#include "gtpp.h"
#include <errno.h>
#include <sys/epoll.h>
#include <sys/socket.h>
#include <unistd.h>

enum { MOST_NODES = 64, MOST_UNDER_WAY = 1024, MOST_MICROS = 10000000 };

static const uint64_t MILLI = 1000, SECOND = 1000000;

/* A request that is under way: when it was sent first and last, and how often. */
struct request {
    uint32_t serial;
    uint64_t first, last;
    unsigned times;
};

struct node {
    int link;
    uint32_t next;
    int under_way;
    struct request requests[MOST_UNDER_WAY];
};

static struct node nodes[MOST_NODES];
static int node_count, most_under_way;
static uint64_t begin, end, span, time_out;
static int was_answered, was_refused;

static uint32_t latencies[MOST_MICROS]; /* how many requests took so many microseconds */
static uint64_t accepted, resent, refused, wrong;

static uint64_t now(void) {
    struct timespec time;
    clock_gettime(CLOCK_MONOTONIC, &time);
    return (uint64_t)time.tv_sec * SECOND + (uint64_t)time.tv_nsec / 1000;
}

/* Sends a request: command 1 with one record, which names the node and the request. */
static void send_request(struct node *node, struct request *request, uint64_t at) {
    uint8_t octets[] = {FIRST_OCTET, TRANSFER_REQUEST, 0, 19, 0, 0, COMMAND, SEND_PACKET, PACKET, 0, 14, 1, 1, 6, 0,
                        0, 8, 0x85, 6, 0, 0, 0, 0, 0, 0};
    put16(octets + 4, (uint16_t)request->serial);
    put16(octets + 19, (uint16_t)(node - nodes));
    put32(octets + 21, request->serial);
    request->last = at;
    request->times++;
    /* a socket that is full, or a gateway that is away, loses it */
    send(node->link, octets, sizeof octets, 0);
}

static void send_next(struct node *node, uint64_t at) {
    struct request *request = &node->requests[node->under_way++];
    *request = (struct request){.serial = node->next++, .first = at};
    send_request(node, request, at);
}

/* The request under way that an answer is of. */
static struct request *request_of(struct node *node, uint16_t number) {
    for (int i = 0; i < node->under_way; i++) {
        if ((uint16_t)node->requests[i].serial == number) {
            return &node->requests[i];
        }
    }
    return NULL;
}

static void tell_wrong(const struct node *node, const uint8_t *octets, ssize_t length) {
    if (wrong++ == 0) {
        fprintf(stderr, "load: node %d got", (int)(node - nodes) + 1);
        for (ssize_t i = 0; i < length; i++) {
            fprintf(stderr, " %02X", octets[i]);
        }
        fprintf(stderr, "\n");
    }
}

static void count(const struct request *request, uint8_t cause, uint64_t at) {
    if (at < begin || at >= end) {
        return;
    }
    if (cause == NO_RESOURCES) {
        refused++;
        return;
    }
    uint64_t took = at - request->first;
    latencies[took < MOST_MICROS ? took : MOST_MICROS - 1]++;
    accepted++;
}

/* Takes an answer. The second one to a request that was sent twice comes when nothing is under way. */
static void hear(struct node *node, const uint8_t *octets, ssize_t length, uint64_t at) {
    uint8_t wanted[RESPONSE];
    uint8_t cause = octets[7];
    respond(wanted, get16(octets + 4), cause);
    if (length != RESPONSE || memcmp(wanted, octets, RESPONSE) != 0) {
        tell_wrong(node, octets, length);
        return;
    }
    if (!was_answered) {
        was_answered = 1;
        begin = at + SECOND / 2;
        end = begin + span;
    }
    struct request *request = request_of(node, get16(octets + 4));
    if (!request) {
        if (resent == 0) {
            tell_wrong(node, octets, length);
        }
        return;
    }
    was_refused |= cause == NO_RESOURCES;
    if (cause == ACCEPTED || cause == NO_RESOURCES || (cause == FULFILLED && (request->times > 1 || was_refused))) {
        count(request, cause, at);
    } else {
        tell_wrong(node, octets, length);
    }
    *request = node->requests[--node->under_way];
    if (at < end) {
        send_next(node, at);
    }
}

static void receive(struct node *node) {
    uint8_t octets[64];
    for (;;) {
        ssize_t length = recv(node->link, octets, sizeof octets, MSG_DONTWAIT);
        if (length < 0) {
            if (errno == ECONNREFUSED || errno == EINTR) {
                continue;
            }
            must(errno == EAGAIN, "recv");
            return;
        }
        hear(node, octets, length, now());
    }
}

static void send_again(uint64_t at) {
    for (struct node *node = nodes; node < nodes + node_count; node++) {
        for (int i = 0; i < node->under_way; i++) {
            if (at - node->requests[i].last >= time_out * node->requests[i].times) {
                resent++;
                send_request(node, &node->requests[i], at);
            }
        }
    }
}

/* The latency below which so many thousandths of the requests stay. */
static uint32_t below(uint64_t thousandths) {
    uint64_t wanted = (accepted * thousandths + 999) / 1000;
    uint32_t at = 0;
    for (uint64_t seen = latencies[0]; seen < wanted; seen += latencies[at]) {
        at++;
    }
    return at;
}

static uint64_t all_under_way(void) {
    uint64_t sum = 0;
    for (int i = 0; i < node_count; i++) {
        sum += (uint64_t)nodes[i].under_way;
    }
    return sum;
}

static void open_links(const char *ip, uint16_t port, int waiting) {
    struct sockaddr_in gateway = address(ip, port);
    for (int i = 0; i < node_count; i++) {
        char name[20];
        snprintf(name, sizeof name, "127.0.1.%d", i + 1);
        struct sockaddr_in own = address(name, 0);
        int link = socket(AF_INET, SOCK_DGRAM, 0);
        must(link >= 0 && bind(link, (struct sockaddr *)&own, sizeof own) == 0, name);
        must(connect(link, (struct sockaddr *)&gateway, sizeof gateway) == 0, "connect");
        struct epoll_event event = {.events = EPOLLIN, .data.ptr = &nodes[i]};
        must(epoll_ctl(waiting, EPOLL_CTL_ADD, link, &event) == 0, "epoll");
        nodes[i].link = link;
    }
}

static void run(int waiting) {
    uint64_t looked = now();
    for (int i = 0; i < node_count * most_under_way; i++) {
        send_next(&nodes[i % node_count], now());
    }
    while (now() < end || (all_under_way() > 0 && now() < end + 10 * SECOND)) {
        struct epoll_event events[MOST_NODES];
        int ready = epoll_wait(waiting, events, MOST_NODES, 5);
        for (int i = 0; i < ready; i++) {
            receive(events[i].data.ptr);
        }
        if (now() - looked >= 5 * MILLI) {
            looked = now();
            send_again(looked);
        }
    }
}

int main(int count, char **words) {
    if (count < 6 || count > 7) {
        fprintf(stderr, "usage: load IP PORT NODES UNDER_WAY SECONDS [TIME_OUT]\n");
        return 64;
    }
    node_count = atoi(words[3]);
    most_under_way = atoi(words[4]);
    if (node_count < 1 || node_count > MOST_NODES || most_under_way < 1 || most_under_way > MOST_UNDER_WAY) {
        fprintf(stderr, "load: 1 to %d nodes, and 1 to %d requests under way\n", MOST_NODES, MOST_UNDER_WAY);
        return 64;
    }
    time_out = (count == 7 ? strtoull(words[6], NULL, 10) : 1000) * MILLI;
    span = (uint64_t)(atof(words[5]) * (double)SECOND);
    int waiting = epoll_create1(0);
    open_links(words[1], (uint16_t)atoi(words[2]), waiting);
    begin = end = now() + 60 * SECOND;
    run(waiting);
    printf("requests %lu rate %lu p50 %u p99 %u p999 %u resent %lu refused %lu lost %lu\n", accepted,
           accepted * SECOND / span, below(500), below(990), below(999), resent, refused, all_under_way());
    return wrong > 0 || !was_answered || all_under_way() > 0;
}
