/* Clients of one kind, each on a connection and a thread of its own, at most 256. Prints how many requests were answered.
 *
 *     load heads   PORT CONNECTIONS SECONDS PATH     HEADs of this path, one after another
 *     load patches PORT CONNECTIONS SECONDS SIZE     PATCHes of so many bytes, at most sixteen to an upload, which is created
 *                                                    before and deleted after them; these two are in the time, and not
 *                                                    counted. The first 64 clients are of the tenant acme, the next of acme-1
 *     load puts    PORT CONNECTIONS SECONDS SIZE     PUTs of so many bytes
 *
 * A reply ends with its head. A connection of the server has at most 4,096 messages, so after some 4,000 a client takes
 * another. */
#include <arpa/inet.h>
#include <netinet/tcp.h>
#include <pthread.h>
#include <stdio.h>
#include <stdlib.h>
#include <string.h>
#include <sys/socket.h>
#include <sys/uio.h>
#include <time.h>
#include <unistd.h>

enum { MESSAGES = 4000, CLIENTS_MOST = 256, UPLOAD_MOST = 8 << 20, ALL_MOST = 512 << 20 };

static int port;
static double end;
static const char *path;
// of a PATCH, and how many there are of an upload
static long size, patches_of_one;
static char *bytes;

struct client {
    int number, connection, messages;
    long answered;
    char reply[8192];
};

static double now(void) {
    struct timespec t;
    clock_gettime(CLOCK_MONOTONIC, &t);
    return t.tv_sec + t.tv_nsec / 1e9;
}

static void connect_to_server(struct client *c) {
    struct sockaddr_in address = {.sin_family = AF_INET, .sin_port = htons(port)};
    int one = 1;
    address.sin_addr.s_addr = htonl(INADDR_LOOPBACK);
    c->connection = socket(AF_INET, SOCK_STREAM, 0);
    c->messages = 0;
    if (connect(c->connection, (struct sockaddr *)&address, sizeof address) != 0) exit(1);
    setsockopt(c->connection, IPPROTO_TCP, TCP_NODELAY, &one, sizeof one);
}

/* Sends a message and reads its reply, whose status has to be this. */
static void exchange(struct client *c, const char *head, int len, long body, const char *status) {
    struct iovec parts[2] = {{(void *)head, len}, {bytes, body}};
    for (size_t left = len + body; left > 0;) {
        struct msghdr message = {.msg_iov = parts, .msg_iovlen = 2};
        ssize_t sent = sendmsg(c->connection, &message, MSG_NOSIGNAL);
        if (sent <= 0) exit(1);
        left -= sent;
        for (int i = 0; i < 2; i++) {
            size_t part = (size_t)sent < parts[i].iov_len ? (size_t)sent : parts[i].iov_len;
            parts[i].iov_base = (char *)parts[i].iov_base + part;
            parts[i].iov_len -= part;
            sent -= part;
        }
    }
    size_t got = 0;
    while (got < 4 || memcmp(c->reply + got - 4, "\r\n\r\n", 4) != 0) {
        ssize_t more = recv(c->connection, c->reply + got, sizeof c->reply - 1 - got, 0);
        if (more <= 0) exit(1);
        got += more;
    }
    c->reply[got] = 0;
    if (memcmp(c->reply + 9, status, strlen(status)) != 0) exit(1);
    c->messages++;
}

static void *heads(void *arg) {
    struct client *c = arg;
    char head[512];
    int len = snprintf(head, sizeof head, "HEAD %s HTTP/1.1\r\nHost: x\r\nTus-Resumable: 1.0.0\r\n\r\n", path);
    connect_to_server(c);
    while (now() < end) {
        if (c->messages >= MESSAGES) close(c->connection), connect_to_server(c);
        exchange(c, head, len, 0, "200");
        c->answered++;
    }
    return NULL;
}

static void *patches(void *arg) {
    struct client *c = arg;
    char head[512], location[128], tenant[16] = "acme";
    if (c->number >= 64) snprintf(tenant, sizeof tenant, "acme-%d", c->number / 64);
    connect_to_server(c);
    while (now() < end) {
        if (c->messages >= MESSAGES - patches_of_one) close(c->connection), connect_to_server(c);
        int len = snprintf(head, sizeof head, "POST /files/%s HTTP/1.1\r\nHost: x\r\nTus-Resumable: 1.0.0\r\nUpload-Length: %ld\r\n\r\n",
                           tenant, size * patches_of_one);
        exchange(c, head, len, 0, "201");
        sscanf(strstr(c->reply, "Location: ") + 10, "%127s", location);
        for (long i = 0; i < patches_of_one; i++) {
            len = snprintf(head, sizeof head, "PATCH %s HTTP/1.1\r\nHost: x\r\nTus-Resumable: 1.0.0\r\nUpload-Offset: %ld\r\n"
                           "Content-Type: application/offset+octet-stream\r\nContent-Length: %ld\r\n\r\n", location, i * size, size);
            exchange(c, head, len, size, "204");
            c->answered++;
        }
        len = snprintf(head, sizeof head, "DELETE %s HTTP/1.1\r\nHost: x\r\nTus-Resumable: 1.0.0\r\n\r\n", location);
        exchange(c, head, len, 0, "204");
    }
    return NULL;
}

static void *puts_of(void *arg) {
    struct client *c = arg;
    char head[512];
    int len = snprintf(head, sizeof head, "PUT /%d.bin HTTP/1.1\r\nHost: x\r\nContent-Length: %ld\r\n\r\n", c->number, size);
    connect_to_server(c);
    while (now() < end) {
        exchange(c, head, len, size, "20");
        c->answered++;
    }
    return NULL;
}

int main(int count, char **words) {
    if (count != 6) return 2;
    static struct client clients[CLIENTS_MOST];
    pthread_t threads[CLIENTS_MOST];
    void *(*kind)(void *) = words[1][0] == 'h' ? heads : words[1][1] == 'a' ? patches : puts_of;
    int connections = atoi(words[3]);
    long all = 0;
    if (connections > CLIENTS_MOST) return 2;
    port = atoi(words[2]);
    end = now() + atof(words[4]);
    path = words[5];
    size = atol(words[5]);
    patches_of_one = 16 * size > UPLOAD_MOST ? UPLOAD_MOST / size : 16;
    if (patches_of_one * size * connections > ALL_MOST) patches_of_one = ALL_MOST / (size * connections);
    bytes = calloc(1, size + 1);
    for (int i = 0; i < connections; i++) {
        clients[i].number = i;
        pthread_create(&threads[i], NULL, kind, &clients[i]);
    }
    for (int i = 0; i < connections; i++) {
        pthread_join(threads[i], NULL);
        all += clients[i].answered;
    }
    printf("%ld\n", all);
    return 0;
}
