/* The least server of the shape of `serve`, as a measure of what it costs to be right.
 *
 *     least PORT WORKERS [FILE]
 *
 * Each worker is a thread that accepts a connection, answers its requests, and accepts the next. All share a table of
 * uploads behind one lock. The bytes of a PATCH are read into a worker's buffer and copied with the lock, as `serve` does.
 * It knows POST, HEAD, PATCH and DELETE, and looks at nothing of a message but its method, its upload, its length and its
 * offset: no tenant, no quota, no end, no block, no other field, and no error but one.
 *
 * With FILE it keeps each change there before its reply, as `serve --journal` does: with the lock it is put behind those that
 * wait, as its length and its bytes. One worker at a time writes all that wait, over zeros that were synced before, and syncs
 * once for all of them. Nothing is summed or digested, and nothing reads the file. */
#define _GNU_SOURCE
#include <arpa/inet.h>
#include <fcntl.h>
#include <netinet/tcp.h>
#include <pthread.h>
#include <stdio.h>
#include <stdlib.h>
#include <string.h>
#include <sys/socket.h>
#include <unistd.h>

enum { UPLOADS = 512, HEAD_MOST = 65536, BODY_MOST = 16 << 20, ROOM_AHEAD = 4 << 20 };

struct upload {
    long offset, length;
    char *bytes;
};

static struct upload uploads[UPLOADS];
static int free_ids[UPLOADS], free_count;
static pthread_mutex_t lock = PTHREAD_MUTEX_INITIALIZER;
static int listener;

/* The changes that wait to be written, and those that are being written. */
struct records {
    char *bytes;
    size_t len, room;
};

/* The file of the journal, if there is one, how many changes were put, how many of them are kept, where the next one is
 * written, and up to where there are zeros. */
static int journal = -1, is_writing;
static struct records waiting, taken;
static long put, kept, end_of_records, end_of_zeros;
static pthread_cond_t is_kept = PTHREAD_COND_INITIALIZER;

/* Puts a change behind those that wait, with the lock: its length, the first bytes of its head in the place of its fields, and
 * its bytes. Gives its number. */
static long put_change(const char *head, const char *bytes, size_t len) {
    enum { FIELDS = 64 };
    if (journal < 0) return 0;
    size_t all = sizeof len + FIELDS + len;
    if (waiting.len + all > waiting.room) {
        waiting.room = 2 * (waiting.len + all);
        waiting.bytes = realloc(waiting.bytes, waiting.room);
    }
    char *at = waiting.bytes + waiting.len;
    memcpy(at, &len, sizeof len);
    memcpy(at + sizeof len, head, FIELDS);
    memcpy(at + sizeof len + FIELDS, bytes, len);
    waiting.len += all;
    return ++put;
}

/* Writes zeros as far as these records go and somewhat farther, and syncs them. */
static void make_room(size_t len) {
    static char zeros[ROOM_AHEAD];
    if (end_of_records + (long)len <= end_of_zeros) return;
    while (end_of_zeros < end_of_records + (long)len + ROOM_AHEAD) {
        if (pwrite(journal, zeros, ROOM_AHEAD, end_of_zeros) != ROOM_AHEAD) exit(5);
        end_of_zeros += ROOM_AHEAD;
    }
    if (fdatasync(journal) != 0) exit(5);
}

/* Waits, with the lock, until the change of a number is kept, and writes what waits where nobody else does. */
static void keep(long number) {
    while (kept < number) {
        if (is_writing) {
            pthread_cond_wait(&is_kept, &lock);
            continue;
        }
        struct records empty = taken;
        long reached = put;
        is_writing = 1;
        taken = waiting;
        waiting = empty;
        waiting.len = 0;
        pthread_mutex_unlock(&lock);
        make_room(taken.len);
        if (pwrite(journal, taken.bytes, taken.len, end_of_records) != (ssize_t)taken.len || fdatasync(journal) != 0) exit(5);
        pthread_mutex_lock(&lock);
        end_of_records += taken.len;
        kept = reached;
        is_writing = 0;
        pthread_cond_broadcast(&is_kept);
    }
}

/* The number after a field's name, or 0. */
static long number_of(const char *head, size_t len, const char *name) {
    const char *field = memmem(head, len, name, strlen(name));
    return field ? atol(field + strlen(name)) : 0;
}

/* The upload of a path /files/NAME/ID, which stands after the method. */
static struct upload *upload_in(const char *head) {
    const char *id = strchr(strchr(head, '/') + 7, '/');
    return &uploads[id ? atol(id + 1) % UPLOADS : 0];
}

static int replied(int connection, const char *text, int len) {
    return send(connection, text, len, MSG_NOSIGNAL) == len;
}

#define COMMON "Date: Thu, 01 Jan 1970 00:16:40 GMT\r\nTus-Resumable: 1.0.0\r\n"

/* Answers a message with the lock, and writes the reply without it. */
static int answer(int connection, const char *head, size_t len, const char *body, long size) {
    char text[512];
    int count;
    pthread_mutex_lock(&lock);
    if (head[0] == 'H') {
        struct upload *u = upload_in(head);
        long offset = u->offset, length = u->length;
        pthread_mutex_unlock(&lock);
        count = sprintf(text, "HTTP/1.1 200 OK\r\n" COMMON "Upload-Offset: %ld\r\nUpload-Length: %ld\r\nCache-Control: no-store\r\n\r\n",
                        offset, length);
    } else if (head[0] == 'P' && head[1] == 'A') {
        struct upload *u = upload_in(head);
        int fits = u->offset == number_of(head, len, "\r\nUpload-Offset: ") && u->offset + size <= u->length;
        if (fits) {
            memcpy(u->bytes + u->offset, body, size);
            u->offset += size;
        }
        long offset = u->offset;
        if (fits) keep(put_change(head, body, size));
        pthread_mutex_unlock(&lock);
        count = fits ? sprintf(text, "HTTP/1.1 204 No Content\r\n" COMMON "Upload-Offset: %ld\r\n\r\n", offset)
                     : sprintf(text, "HTTP/1.1 409 Conflict\r\n" COMMON "Content-Length: 0\r\n\r\n");
    } else if (head[0] == 'P') {
        int id = free_count > 0 ? free_ids[--free_count] : 0;
        uploads[id].offset = 0;
        uploads[id].length = number_of(head, len, "\r\nUpload-Length: ");
        keep(put_change(head, body, 0));
        pthread_mutex_unlock(&lock);
        count = sprintf(text, "HTTP/1.1 201 Created\r\n" COMMON "Location: /files/acme/%d\r\nContent-Length: 0\r\n\r\n", id);
    } else {
        free_ids[free_count++] = upload_in(head) - uploads;
        keep(put_change(head, body, 0));
        pthread_mutex_unlock(&lock);
        count = sprintf(text, "HTTP/1.1 204 No Content\r\n" COMMON "\r\n");
    }
    return replied(connection, text, count);
}

/* Answers the messages of a connection until its client closes it. */
static void serve(int connection, char *buffer, char *body) {
    size_t held = 0;
    for (;;) {
        char *end;
        while (!(end = memmem(buffer, held, "\r\n\r\n", 4))) {
            ssize_t more = recv(connection, buffer + held, HEAD_MOST - held, 0);
            if (more <= 0) return;
            held += more;
        }
        size_t len = end + 4 - buffer;
        long size = number_of(buffer, len, "\r\nContent-Length: "), got = held - len;
        if (size > BODY_MOST) return;
        if (got > size) got = size;
        memcpy(body, buffer + len, got);
        for (long at = got; at < size;) {
            ssize_t more = recv(connection, body + at, size - at, 0);
            if (more <= 0) return;
            at += more;
        }
        if (!answer(connection, buffer, len, body, size)) return;
        memmove(buffer, buffer + len + got, held - len - got);
        held -= len + got;
    }
}

static void *work(void *unused) {
    char *buffer = malloc(HEAD_MOST), *body = malloc(BODY_MOST);
    int one = 1;
    for (;;) {
        int connection = accept(listener, NULL, NULL);
        setsockopt(connection, IPPROTO_TCP, TCP_NODELAY, &one, sizeof one);
        serve(connection, buffer, body);
        close(connection);
    }
    return unused;
}

int main(int count, char **words) {
    if (count != 3 && count != 4) return 2;
    if (count == 4 && (journal = open(words[3], O_RDWR | O_CREAT | O_TRUNC, 0600)) < 0) return 5;
    struct sockaddr_in address = {.sin_family = AF_INET, .sin_port = htons(atoi(words[1]))};
    int one = 1, workers = atoi(words[2]);
    address.sin_addr.s_addr = htonl(INADDR_LOOPBACK);
    listener = socket(AF_INET, SOCK_STREAM, 0);
    setsockopt(listener, SOL_SOCKET, SO_REUSEADDR, &one, sizeof one);
    for (int i = 0; i < UPLOADS; i++) {
        uploads[i].bytes = malloc(BODY_MOST);
        if (i > 0) free_ids[free_count++] = i;
    }
    if (bind(listener, (struct sockaddr *)&address, sizeof address) != 0 || listen(listener, 512) != 0) return 3;
    pthread_t thread;
    for (int i = 1; i < workers; i++) pthread_create(&thread, NULL, work, NULL);
    work(NULL);
}
