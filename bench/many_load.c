/* Clients that ask a server of frames as fast as it answers, each with some frames on the way.

       many_load PORT CONNECTIONS DEPTH SECONDS COUNT FILE

   FILE holds request frames, each behind its size; connection I sends the one of number I again and again, from the first on where
   they are fewer. It ends after SECONDS, or once COUNT frames are answered (0: no such end), and prints frames answered, seconds,
   bytes of replies, and the p50 and p99 of a round trip in microseconds. A reply is a size and so many bytes, of which nothing else
   is read; but the first one is given too, in hexadecimal digits, where it has 64 bytes or fewer. Linux. */
#define _GNU_SOURCE
#include <arpa/inet.h>
#include <errno.h>
#include <fcntl.h>
#include <netinet/tcp.h>
#include <stdint.h>
#include <stdio.h>
#include <stdlib.h>
#include <string.h>
#include <sys/epoll.h>
#include <time.h>
#include <unistd.h>

enum { READ = 1 << 20, BUCKETS = 1 << 22, SHOWN = 64 };

static void fail(const char *what) {
    perror(what);
    exit(1);
}

static double now(void) {
    struct timespec time;
    clock_gettime(CLOCK_MONOTONIC, &time);
    return time.tv_sec * 1e6 + time.tv_nsec / 1e3;
}

static uint32_t get32(const uint8_t *at) {
    uint32_t number;
    memcpy(&number, at, 4);
    return ntohl(number);
}

typedef struct {
    int socket, waits; /* waits: until more can be sent */
    const uint8_t *frame;
    size_t size;
    double *sent; /* when each frame on the way was sent, from `first` on, round and round */
    unsigned first, waiting;
    uint8_t *block; /* DEPTH frames, one behind the other */
    size_t unsent;  /* bytes that are due to be sent of it */
    size_t sent_of; /* and those of its first frame that are already */
    uint8_t head[4];
    unsigned head_size; /* bytes of the next reply's size that are there */
    size_t left;        /* bytes of the reply that are yet to come */
} Client;

static unsigned depth;
static uint64_t answered, bytes;
static uint32_t *histogram; /* of round trips by microseconds */
static uint8_t shown[SHOWN];
static unsigned shown_size;

static void count_reply(Client *it, double time) {
    double took = time - it->sent[it->first];
    it->first = (it->first + 1) % depth;
    it->waiting--;
    answered++;
    histogram[took < BUCKETS - 1 ? (int)took : BUCKETS - 1]++;
}

/* Takes bytes that came, and counts the replies that end in them. */
static void take(Client *it, const uint8_t *at, size_t size, double time) {
    bytes += size;
    while (size) {
        if (it->head_size < 4) {
            it->head[it->head_size++] = *at++, size--;
            if (it->head_size == 4)
                it->left = get32(it->head);
        } else {
            size_t count = size < it->left ? size : it->left;
            if (answered == 0 && shown_size + count <= SHOWN)
                memcpy(shown + shown_size, at, count), shown_size += count;
            at += count, size -= count, it->left -= count;
        }
        if (it->head_size == 4 && it->left == 0) {
            count_reply(it, time);
            it->head_size = 0;
        }
    }
}

/* Sends what is due, as far as it goes. */
static void send_due(Client *it) {
    while (it->unsent) {
        size_t most = depth * it->size - it->sent_of;
        ssize_t count = send(it->socket, it->block + it->sent_of, it->unsent < most ? it->unsent : most, MSG_NOSIGNAL);
        if (count < 0 && errno == EAGAIN)
            return;
        if (count < 0)
            fail("send");
        it->unsent -= count;
        it->sent_of = (it->sent_of + count) % it->size;
    }
}

/* Has frames on the way again for those that were answered. */
static void fill(Client *it, double time, int poller, unsigned place) {
    while (it->waiting < depth) {
        it->sent[(it->first + it->waiting++) % depth] = time;
        it->unsent += it->size;
    }
    send_due(it);
    if (it->waits != (it->unsent > 0)) {
        it->waits = it->unsent > 0;
        struct epoll_event event = {EPOLLIN | (it->waits ? EPOLLOUT : 0), {.u32 = place}};
        epoll_ctl(poller, EPOLL_CTL_MOD, it->socket, &event);
    }
}

static void receive(Client *it, uint8_t *room) {
    ssize_t count = read(it->socket, room, READ);
    if (count == 0 || (count < 0 && errno != EAGAIN))
        fail("the server has ended");
    if (count > 0)
        take(it, room, count, now());
}

static void connect_to(Client *it, int port) {
    struct sockaddr_in at = {AF_INET, htons(port), {htonl(INADDR_LOOPBACK)}, {0}};
    int on = 1;
    it->socket = socket(AF_INET, SOCK_STREAM, 0);
    if (connect(it->socket, (struct sockaddr *)&at, sizeof at))
        fail("connect");
    setsockopt(it->socket, IPPROTO_TCP, TCP_NODELAY, &on, sizeof on);
    fcntl(it->socket, F_SETFL, O_NONBLOCK);
    it->sent = calloc(depth, sizeof *it->sent);
    it->block = malloc(depth * it->size);
    for (unsigned index = 0; index < depth; index++)
        memcpy(it->block + index * it->size, it->frame, it->size);
}

static uint8_t *all_of(const char *path, size_t *size) {
    FILE *file = fopen(path, "rb");
    if (!file)
        fail(path);
    fseek(file, 0, SEEK_END);
    *size = ftell(file);
    rewind(file);
    uint8_t *data = malloc(*size);
    if (fread(data, 1, *size, file) != *size)
        fail(path);
    return data;
}

/* The microseconds within which a share of the round trips ended. */
static int within(double share) {
    uint64_t count = 0;
    for (int index = 0; index < BUCKETS; index++)
        if ((count += histogram[index]) >= share * answered && count)
            return index + 1;
    return BUCKETS;
}

/* Opens the connections, each with its frame of those in a file. */
static Client *connected(int connections, int port, const char *path, int poller) {
    size_t size, at = 0;
    const uint8_t *frames = all_of(path, &size);
    Client *clients = calloc(connections, sizeof *clients);
    for (int index = 0; index < connections; index++) {
        clients[index].frame = frames + at;
        clients[index].size = 4 + get32(frames + at);
        at = at + clients[index].size < size ? at + clients[index].size : 0;
        connect_to(&clients[index], port);
        struct epoll_event event = {EPOLLIN, {.u32 = index}};
        epoll_ctl(poller, EPOLL_CTL_ADD, clients[index].socket, &event);
    }
    return clients;
}

/* Lets all ask until a moment, or until so many frames are answered; and gives the moment at which they were. */
static double ask(Client *clients, int connections, int poller, double end, uint64_t most) {
    struct epoll_event *ready = calloc(connections, sizeof *ready);
    uint8_t *room = malloc(READ);
    double time = now();
    for (int index = 0; index < connections; index++)
        fill(&clients[index], time, poller, index);
    while (time < end && (most == 0 || answered < most)) {
        int found = epoll_wait(poller, ready, connections, 100);
        for (int index = 0; index < found; index++) {
            Client *it = &clients[ready[index].data.u32];
            if (ready[index].events & ~EPOLLOUT)
                receive(it, room);
            fill(it, now(), poller, ready[index].data.u32);
        }
        time = now();
    }
    return time;
}

int main(int count, char **arguments) {
    if (count != 7)
        return fprintf(stderr, "usage: many_load PORT CONNECTIONS DEPTH SECONDS COUNT FILE\n"), 2;
    int connections = atoi(arguments[2]), poller = epoll_create1(0);
    histogram = calloc(BUCKETS, sizeof *histogram);
    depth = atoi(arguments[3]);
    Client *clients = connected(connections, atoi(arguments[1]), arguments[6], poller);
    double began = now();
    double ended = ask(clients, connections, poller, began + 1e6 * atof(arguments[4]), strtoull(arguments[5], NULL, 10));
    printf("%llu %.6f %llu %d %d ", (unsigned long long)answered, (ended - began) / 1e6, (unsigned long long)bytes, within(0.5),
           within(0.99));
    for (unsigned index = 0; index < shown_size; index++)
        printf("%02x", shown[index]);
    printf("\n");
    return 0;
}
