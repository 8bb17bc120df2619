/* A plain gateway to measure `serve` by: peer IP PORT LENGTH FILE.
 *
 * It has one thread and the durability of `serve`, and does as little else as it can. Whatever waits in the socket is
 * one batch. The batch is written behind a closed gate of a file that was filled beforehand, and synced; the gate is
 * opened, and synced; then each request of the batch is answered. A number that a node sent among its last 32,768 is
 * answered as fulfilled, and not written again. It writes no CDR files, reads no BER, and begins anew at each start.
 */
#include "gtpp.h"
#include <errno.h>
#include <fcntl.h>
#include <poll.h>
#include <sys/socket.h>
#include <unistd.h>

enum {
    NODES = 64,
    MOST_REQUESTS = 4096,
    MOST_OCTETS = 65507,
    MOST_BATCH = 1 << 20,
    BATCH_HEADER = 5, /* the gate, and the length of what follows */
    ENTRY_HEADER = 8, /* of an entry: its length, and the node */
    GATE = 0xA5,
    NUMBERS = 65536
};

/* A node, and which of its numbers were sent: those of the half circle up to the last one. */
struct node {
    uint32_t ip;
    uint8_t was_sent[NUMBERS];
};

struct answer {
    struct sockaddr_in to;
    uint16_t number;
    uint8_t cause;
};

static struct node nodes[NODES];
static int node_count;

static struct answer answers[MOST_REQUESTS];
static int answer_count;

static uint8_t batch[MOST_BATCH + 1]; /* with the closed gate behind it */
static size_t batch_length = BATCH_HEADER;

static int file;
static size_t file_length;
static size_t gate_at; /* the place of the first closed gate */

/* The node of an address, which becomes known where it wasn't; none where too many are. */
static struct node *node_of(uint32_t ip) {
    for (int i = 0; i < node_count; i++) {
        if (nodes[i].ip == ip) {
            return &nodes[i];
        }
    }
    if (node_count == NODES) {
        return NULL;
    }
    nodes[node_count].ip = ip;
    return &nodes[node_count++];
}

/* Whether octets are a request that sends a packet, and nothing else. */
static int is_request(const uint8_t *octets, size_t length) {
    return length > PACKET_AT && octets[0] >> 4 == FIRST_OCTET >> 4 && octets[1] == TRANSFER_REQUEST &&
           get16(octets + 2) == length - HEADER && octets[6] == COMMAND && octets[7] == SEND_PACKET &&
           octets[8] == PACKET && get16(octets + 9) == length - PACKET_AT;
}

/* Whether the batch, and the file behind it, have room for an entry of so many octets. */
static int has_room(size_t length) {
    size_t behind = batch_length + ENTRY_HEADER + length;
    return behind <= MOST_BATCH && gate_at + behind < file_length;
}

/* Puts a packet into the batch. */
static void add(uint32_t ip, const uint8_t *packet, size_t length) {
    uint8_t *entry = batch + batch_length;
    put32(entry, (uint32_t)(4 + length));
    memcpy(entry + 4, &ip, 4);
    memcpy(entry + ENTRY_HEADER, packet, length);
    batch_length += ENTRY_HEADER + length;
}

/* The cause by which a request is answered; its packet goes into the batch where it is new. */
static uint8_t take(uint32_t ip, uint16_t number, const uint8_t *packet, size_t length) {
    struct node *node = node_of(ip);
    if (node && node->was_sent[number]) {
        return FULFILLED;
    }
    if (!node || !has_room(length)) {
        return NO_RESOURCES;
    }
    node->was_sent[number] = 1;
    node->was_sent[(uint16_t)(number + NUMBERS / 2)] = 0;
    add(ip, packet, length);
    return ACCEPTED;
}

/* Takes what waits in the socket, as far as a batch may hold it. What is no request is dropped. */
static void receive(int link) {
    static uint8_t octets[MOST_OCTETS];
    while (answer_count < MOST_REQUESTS && batch_length + ENTRY_HEADER + MOST_OCTETS <= MOST_BATCH) {
        struct sockaddr_in from;
        socklen_t size = sizeof from;
        ssize_t length = recvfrom(link, octets, sizeof octets, MSG_DONTWAIT, (struct sockaddr *)&from, &size);
        if (length < 0) {
            must(errno == EAGAIN || errno == EINTR, "recvfrom");
            return;
        }
        if (is_request(octets, (size_t)length)) {
            uint16_t number = get16(octets + 4);
            uint8_t cause = take(from.sin_addr.s_addr, number, octets + PACKET_AT, (size_t)length - PACKET_AT);
            answers[answer_count++] = (struct answer){from, number, cause};
        }
    }
}

static void write_at(const uint8_t *octets, size_t length, size_t at) {
    must(pwrite(file, octets, length, (off_t)at) == (ssize_t)length, "pwrite");
}

/* Makes the batch durable: all of it but its gate, and then that. */
static void commit(void) {
    const uint8_t open = GATE;
    if (batch_length == BATCH_HEADER) {
        return;
    }
    put32(batch + 1, (uint32_t)(batch_length - BATCH_HEADER));
    batch[batch_length] = 0;
    write_at(batch + 1, batch_length, gate_at + 1);
    must(fdatasync(file) == 0, "fdatasync");
    write_at(&open, 1, gate_at);
    must(fdatasync(file) == 0, "fdatasync");
    gate_at += batch_length;
    batch_length = BATCH_HEADER;
}

/* Answers the requests of the batch. An answer that can't be sent is lost on the way. */
static void answer(int link) {
    for (int i = 0; i < answer_count; i++) {
        uint8_t octets[RESPONSE];
        respond(octets, answers[i].number, answers[i].cause);
        sendto(link, octets, RESPONSE, 0, (struct sockaddr *)&answers[i].to, sizeof answers[i].to);
    }
    answer_count = 0;
}

/* Makes the file and fills it with zeros, so that a sync of what is written later has no size to make durable. */
static void allocate(const char *path) {
    static const uint8_t zeros[4096];
    file = open(path, O_RDWR | O_CREAT | O_TRUNC, 0666);
    must(file >= 0, path);
    for (size_t at = 0; at < file_length; at += sizeof zeros) {
        size_t left = file_length - at;
        write_at(zeros, left < sizeof zeros ? left : sizeof zeros, at);
    }
    must(fsync(file) == 0, "fsync");
}

int main(int count, char **words) {
    if (count != 5) {
        fprintf(stderr, "usage: peer IP PORT LENGTH FILE\n");
        return 64;
    }
    file_length = strtoull(words[3], NULL, 10);
    allocate(words[4]);
    struct sockaddr_in own = address(words[1], (uint16_t)atoi(words[2]));
    int link = socket(AF_INET, SOCK_DGRAM, 0);
    must(link >= 0 && bind(link, (struct sockaddr *)&own, sizeof own) == 0, "bind");
    for (;;) {
        struct pollfd waiting = {.fd = link, .events = POLLIN};
        must(poll(&waiting, 1, -1) >= 0 || errno == EINTR, "poll");
        receive(link);
        commit();
        answer(link);
    }
}
