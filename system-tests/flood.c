/* flood: sends DHCP messages at a steady rate from one Ethernet port, as a hostile host does.
 *
 *     flood DEVICE KIND RATE SECONDS SERVER FIRST
 *
 * Each message has a random hardware address, also in the frame. KIND is one of:
 *   discover  DISCOVERs, broadcast from 0.0.0.0
 *   spoofed   DISCOVERs, to the server's address, from random addresses of its /8
 *   renew     REQUESTs that renew random addresses of its /8, to the server's address, from these addresses
 *   lease     REQUESTs that accept an offer of one of the 1,024 addresses from FIRST on, broadcast from 0.0.0.0
 *   relay     DISCOVERs, to the server's address, from DEVICE's address, which is also the relay's (giaddr)
 * It prints how many messages it sent. DEVICE must be in a network namespace made for the test; system-tests/floods does that.
 */
#define _GNU_SOURCE
#include <arpa/inet.h>
#include <errno.h>
#include <linux/if_packet.h>
#include <net/ethernet.h>
#include <net/if.h>
#include <net/if_arp.h>
#include <stdint.h>
#include <stdio.h>
#include <stdlib.h>
#include <string.h>
#include <sys/ioctl.h>
#include <sys/socket.h>
#include <time.h>
#include <unistd.h>

enum kind { DISCOVER, SPOOFED, RENEW, LEASE, RELAY, KINDS };
static const char *names[KINDS] = {"discover", "spoofed", "renew", "lease", "relay"};

enum { ETHERNET = 14, IP = 20, UDP = 8, DHCP = 300, FRAME = ETHERNET + IP + UDP + DHCP };

static uint64_t state;
static enum kind kind;
static uint8_t to_hardware[6] = {255, 255, 255, 255, 255, 255};
static uint32_t from = 0, to = 0xffffffffu, server, first;

static void die(const char *what)
{
    fprintf(stderr, "flood: %s: %s\n", what, strerror(errno));
    exit(2);
}

/* splitmix64 */
static uint64_t any(void)
{
    uint64_t it = state += 0x9e3779b97f4a7c15u;
    it = (it ^ (it >> 30)) * 0xbf58476d1ce4e5b9u;
    it = (it ^ (it >> 27)) * 0x94d049bb133111ebu;
    return it ^ (it >> 31);
}

static void put32(uint8_t *at, uint32_t value)
{
    value = htonl(value);
    memcpy(at, &value, 4);
}

static void put16(uint8_t *at, unsigned value)
{
    at[0] = (uint8_t)(value >> 8);
    at[1] = (uint8_t)value;
}

static void put_header(uint8_t *ip, uint32_t sender)
{
    uint32_t sum = 0;
    ip[0] = 0x45;
    put16(ip + 2, IP + UDP + DHCP);
    ip[8] = 64;
    ip[9] = 17;
    put32(ip + 12, sender);
    put32(ip + 16, to);
    for (int i = 0; i < IP; i += 2) sum += (uint32_t)(ip[i] << 8 | ip[i + 1]);
    while (sum >> 16) sum = (sum & 0xffff) + (sum >> 16);
    put16(ip + 10, ~sum & 0xffff);
}

/* The message type; for LEASE also the server identifier and the requested address. */
static void put_options(uint8_t *at)
{
    memcpy(at, kind == RENEW || kind == LEASE ? "\x35\x01\x03" : "\x35\x01\x01", 3);
    at += 3;
    if (kind == LEASE) {
        memcpy(at, "\x36\x04", 2);
        put32(at + 2, server);
        memcpy(at + 6, "\x32\x04", 2);
        put32(at + 8, first + (uint32_t)(any() & 1023));
        at += 12;
    }
    *at = 255;
}

static void put_message(uint8_t *frame)
{
    uint8_t *ip = frame + ETHERNET, *udp = ip + IP, *dhcp = udp + UDP;
    uint64_t chance = any();
    uint32_t sender = kind == SPOOFED || kind == RENEW ? (server & 0xff000000u) | (uint32_t)(any() & 0xffffffu) : from;
    memset(frame, 0, FRAME);
    memcpy(frame, to_hardware, 6);
    frame[6] = 2;
    memcpy(frame + 7, &chance, 5);
    put16(frame + 12, ETHERTYPE_IP);
    put_header(ip, sender);
    put16(udp, kind == RELAY ? 67 : 68);
    put16(udp + 2, 67);
    put16(udp + 4, UDP + DHCP);
    dhcp[0] = 1;
    dhcp[1] = 1;
    dhcp[2] = 6;
    put32(dhcp + 4, (uint32_t)any());
    if (kind == RENEW) put32(dhcp + 12, sender);
    if (kind == RELAY) put32(dhcp + 24, from);
    memcpy(dhcp + 28, frame + 6, 6);
    put32(dhcp + 236, 0x63825363);
    put_options(dhcp + 240);
}

/* The hardware address of the server, from the ARP table, which has it after one datagram to the server. */
static void find_server(const char *device)
{
    int fd = socket(AF_INET, SOCK_DGRAM, 0);
    struct sockaddr_in place = {.sin_family = AF_INET, .sin_port = htons(9), .sin_addr.s_addr = htonl(server)};
    struct arpreq ask;
    memset(&ask, 0, sizeof ask);
    memcpy(&ask.arp_pa, &place, sizeof place);
    strncpy(ask.arp_dev, device, sizeof ask.arp_dev - 1);
    if (fd < 0 || sendto(fd, "", 1, 0, (struct sockaddr *)&place, sizeof place) < 0) die("no route to the server");
    for (int tries = 0; tries < 50; tries++, usleep(20000))
        if (!ioctl(fd, SIOCGARP, &ask) && ask.arp_flags & ATF_COM) {
            memcpy(to_hardware, ask.arp_ha.sa_data, 6);
            close(fd);
            return;
        }
    die("the server's hardware address");
}

static uint32_t own_address(int fd, const char *device)
{
    struct ifreq ask;
    memset(&ask, 0, sizeof ask);
    strncpy(ask.ifr_name, device, IFNAMSIZ - 1);
    if (ioctl(fd, SIOCGIFADDR, &ask)) die("the device's address");
    return ntohl(((struct sockaddr_in *)&ask.ifr_addr)->sin_addr.s_addr);
}

static void read_arguments(int count, char **words)
{
    struct in_addr address, pool;
    for (kind = 0; count == 7 && kind < KINDS && strcmp(words[2], names[kind]); kind++) {
    }
    if (count != 7 || kind == KINDS || !inet_aton(words[5], &address) || !inet_aton(words[6], &pool)) {
        fprintf(stderr, "usage: flood DEVICE discover|spoofed|renew|lease|relay RATE SECONDS SERVER FIRST\n");
        exit(2);
    }
    server = ntohl(address.s_addr);
    first = ntohl(pool.s_addr);
}

/* Each millisecond, sends the messages that are due, including late ones. */
static uint64_t send_all(int fd, double rate, double seconds)
{
    uint8_t frame[FRAME];
    uint64_t sent = 0, due;
    struct timespec begun, now, pause = {0, 1000000};
    clock_gettime(CLOCK_MONOTONIC, &begun);
    for (;;) {
        clock_gettime(CLOCK_MONOTONIC, &now);
        double spent = (double)(now.tv_sec - begun.tv_sec) + (double)(now.tv_nsec - begun.tv_nsec) / 1e9;
        due = (uint64_t)((spent < seconds ? spent : seconds) * rate);
        for (; sent < due; sent++) {
            put_message(frame);
            while (send(fd, frame, FRAME, 0) < 0)
                if (errno != ENOBUFS && errno != EINTR) die("send");
        }
        if (spent >= seconds) return sent;
        nanosleep(&pause, NULL);
    }
}

int main(int count, char **words)
{
    read_arguments(count, words);
    int fd = socket(AF_PACKET, SOCK_RAW, htons(ETHERTYPE_LOOPBACK));
    struct sockaddr_ll place = {.sll_family = AF_PACKET, .sll_ifindex = (int)if_nametoindex(words[1])};
    place.sll_protocol = htons(ETHERTYPE_LOOPBACK);
    if (fd < 0 || !place.sll_ifindex || bind(fd, (struct sockaddr *)&place, sizeof place)) die(words[1]);
    struct timespec now;
    clock_gettime(CLOCK_REALTIME, &now);
    state = (uint64_t)now.tv_nsec << 32 ^ (uint64_t)now.tv_sec;
    if (kind != DISCOVER && kind != LEASE) {
        find_server(words[1]);
        to = server;
    }
    if (kind == RELAY) {
        int other = socket(AF_INET, SOCK_DGRAM, 0);
        from = own_address(other, words[1]);
        close(other);
    }
    printf("%llu\n", (unsigned long long)send_all(fd, atof(words[3]), atof(words[4])));
    return 0;
}
