/* What the peer and its load know of GTP' (docs/formats/wire.md): a request that sends a packet, and its response. */
#ifndef GTPP_H
#define GTPP_H

#include <arpa/inet.h>
#include <stdint.h>
#include <stdio.h>
#include <stdlib.h>
#include <string.h>
#include <time.h>

enum {
    FIRST_OCTET = 0x4E,
    TRANSFER_REQUEST = 240,
    TRANSFER_RESPONSE = 241,
    HEADER = 6,
    RESPONSE = 13, /* the octets of a response with one number */
    PACKET_AT = 11, /* behind the header, the command, and type and length of the packet */
    COMMAND = 0x7E,
    SEND_PACKET = 1,
    PACKET = 0xFC,
    CAUSE = 1,
    RESPONDED = 0xFD,
    ACCEPTED = 128,
    NO_RESOURCES = 199,
    FULFILLED = 253
};

static inline void put16(uint8_t *at, uint16_t value) {
    at[0] = (uint8_t)(value >> 8);
    at[1] = (uint8_t)value;
}

static inline void put32(uint8_t *at, uint32_t value) {
    put16(at, (uint16_t)(value >> 16));
    put16(at + 2, (uint16_t)value);
}

static inline uint16_t get16(const uint8_t *at) {
    return (uint16_t)(at[0] << 8 | at[1]);
}

/* The response to the request of a number. */
static inline void respond(uint8_t *at, uint16_t number, uint8_t cause) {
    const uint8_t octets[RESPONSE] = {FIRST_OCTET, TRANSFER_RESPONSE, 0, 7, 0, 0, CAUSE, cause, RESPONDED, 0, 2, 0, 0};
    memcpy(at, octets, RESPONSE);
    put16(at + 4, number);
    put16(at + 11, number);
}

/* Ends the program where a call failed. */
static inline void must(int is_done, const char *what) {
    if (!is_done) {
        perror(what);
        exit(1);
    }
}

static inline struct sockaddr_in address(const char *ip, uint16_t port) {
    struct sockaddr_in at = {.sin_family = AF_INET, .sin_port = htons(port)};
    must(inet_pton(AF_INET, ip, &at.sin_addr) == 1, ip);
    return at;
}

#endif
