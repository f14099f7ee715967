/* Many clients in few threads, each on a connection of its own (epoll).
 *
 *     crowd heads PORT CONNECTIONS SECONDS PATH   HEADs of this path, one after another on each connection. Prints how many
 *                                                 were answered in these seconds, which begin when all are connected.
 *     crowd drips PORT CONNECTIONS SECONDS PATH   each connection sends a byte of a HEAD each second, which never ends. Prints
 *                                                 `open` when all are connected, and how many were closed meanwhile.
 *
 * The connections are shared out over as many threads as there are processors. A reply ends with its head. A connection of the
 * server has at most 4,096 messages, so after some 4,000 a client takes another. */
#define _GNU_SOURCE
#include <arpa/inet.h>
#include <errno.h>
#include <netinet/tcp.h>
#include <pthread.h>
#include <sched.h>
#include <stdio.h>
#include <stdlib.h>
#include <string.h>
#include <sys/epoll.h>
#include <sys/resource.h>
#include <sys/socket.h>
#include <time.h>
#include <unistd.h>

enum { MESSAGES = 4000, EVENTS = 256, THREADS_MOST = 64 };

static int port, drips;
static double seconds;
static char head[512];
static int head_len;
static pthread_barrier_t connected;

struct client {
    int connection, messages;
    size_t got;
    char reply[1024];
};

struct share {
    pthread_t thread;
    int count, epoll;
    struct client *clients;
    long answered, closed;
};

static double now(void) {
    struct timespec t;
    clock_gettime(CLOCK_MONOTONIC, &t);
    return t.tv_sec + t.tv_nsec / 1e9;
}

static void send_head(struct client *c) {
    if (send(c->connection, head, head_len, MSG_NOSIGNAL) != head_len) exit(1);
    c->got = 0;
}

static void connect_to_server(struct share *s, struct client *c) {
    struct sockaddr_in address = {.sin_family = AF_INET, .sin_port = htons(port)};
    struct epoll_event event = {.events = EPOLLIN, .data.ptr = c};
    int one = 1;
    address.sin_addr.s_addr = htonl(INADDR_LOOPBACK);
    c->connection = socket(AF_INET, SOCK_STREAM, 0);
    c->messages = 0;
    if (connect(c->connection, (struct sockaddr *)&address, sizeof address) != 0) perror("connect"), exit(1);
    setsockopt(c->connection, IPPROTO_TCP, TCP_NODELAY, &one, sizeof one);
    if (epoll_ctl(s->epoll, EPOLL_CTL_ADD, c->connection, &event) != 0) exit(1);
}

/* Takes what has come of a reply, and sends the next message where it is whole. */
static void take(struct share *s, struct client *c) {
    ssize_t more = recv(c->connection, c->reply + c->got, sizeof c->reply - c->got, 0);
    if (more <= 0) exit(1);
    c->got += more;
    if (c->got < 4 || memcmp(c->reply + c->got - 4, "\r\n\r\n", 4) != 0) return;
    if (memcmp(c->reply + 9, "200", 3) != 0) exit(1);
    s->answered++;
    if (++c->messages >= MESSAGES) {
        close(c->connection);
        connect_to_server(s, c);
    }
    send_head(c);
}

static void ask(struct share *s, double end) {
    struct epoll_event events[EVENTS];
    for (int i = 0; i < s->count; i++) send_head(&s->clients[i]);
    while (now() < end) {
        int ready = epoll_wait(s->epoll, events, EVENTS, 100);
        for (int i = 0; i < ready; i++) take(s, events[i].data.ptr);
    }
}

/* In each second a byte on each connection, evenly spread. */
static void drip(struct share *s, double start, double end) {
    for (long sent = 0; now() < end; sent++) {
        struct client *c = &s->clients[sent % s->count];
        double due = start + (double)sent / s->count, wait = due - now();
        if (wait > 0) usleep(wait * 1e6);
        if (c->connection >= 0 && send(c->connection, "x", 1, MSG_NOSIGNAL | MSG_DONTWAIT) < 0 && errno != EAGAIN) {
            close(c->connection);
            c->connection = -1;
            s->closed++;
        }
    }
}

static void *run(void *arg) {
    struct share *s = arg;
    s->epoll = epoll_create1(0);
    for (int i = 0; i < s->count; i++) connect_to_server(s, &s->clients[i]);
    for (int i = 0; drips && i < s->count; i++) send_head(&s->clients[i]);
    if (pthread_barrier_wait(&connected) == PTHREAD_BARRIER_SERIAL_THREAD && drips) puts("open"), fflush(stdout);
    double start = now();
    if (drips) drip(s, start, start + seconds);
    else ask(s, start + seconds);
    return NULL;
}

int main(int count, char **words) {
    if (count != 6) return 2;
    struct rlimit limit;
    static struct share shares[THREADS_MOST];
    cpu_set_t processors;
    sched_getaffinity(0, sizeof processors, &processors);
    int connections = atoi(words[3]), threads = CPU_COUNT(&processors);
    long answered = 0, closed = 0;
    if (threads > connections) threads = connections;
    drips = words[1][0] == 'd';
    port = atoi(words[2]);
    seconds = atof(words[4]);
    head_len = snprintf(head, sizeof head, "HEAD %s HTTP/1.1\r\nHost: x\r\nTus-Resumable: 1.0.0\r\n%s", words[5], drips ? "X: " : "\r\n");
    getrlimit(RLIMIT_NOFILE, &limit);
    limit.rlim_cur = limit.rlim_max;
    setrlimit(RLIMIT_NOFILE, &limit);
    pthread_barrier_init(&connected, NULL, threads);
    for (int i = 0; i < threads; i++) {
        shares[i].count = connections / threads + (i < connections % threads);
        shares[i].clients = calloc(shares[i].count, sizeof(struct client));
        pthread_create(&shares[i].thread, NULL, run, &shares[i]);
    }
    for (int i = 0; i < threads; i++) {
        pthread_join(shares[i].thread, NULL);
        answered += shares[i].answered;
        closed += shares[i].closed;
    }
    printf("%ld\n", drips ? closed : answered);
    return 0;
}
