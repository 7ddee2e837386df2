/* Load generator of the benchmarks.
 *
 *   load run PROTOCOL PORT CONNECTIONS DEPTH THREADS WARM SECONDS FILE
 *   load stub THREADS
 *   load disk FOLDER SECONDS
 *
 * run: opens CONNECTIONS to 127.0.0.1:PORT. Each has DEPTH requests in flight, and sends the next one as soon as a reply
 * comes. After WARM seconds it prints "begin", SECONDS later "end", and then a line "NAME VALUE" for each figure of the
 * time between: good and refused replies, and the times from request to reply in microseconds. PROTOCOL is
 *   line      COMMIT g7 -1 - - t:3:42:x                 answered by OK
 *   redis     HSET g7 t:3 42                            answered by an integer
 *   postgres  an upsert into offsets(grp, part, off), a transaction of its own    answered by INSERT 0 1
 *   beat      line I of FILE from connection I, again and again                   answered by OK
 * But for beat, FILE gets a line "GROUP PARTITION OFFSET" for each partition that was set: what the server must hold.
 *
 * stub: listens on a free port of 127.0.0.1, prints "LISTENING 127.0.0.1:PORT", and answers each line by OK at once. It
 * shows how much this program itself can do.
 *
 * disk: writes and syncs batches in one thread, in a file of FOLDER whose blocks were all written before, and prints
 * "NAME<tab>batches a second<tab>median<tab>99 %<tab>99.9 %" for each kind of batch, with times in microseconds.
 */
#include <arpa/inet.h>
#include <err.h>
#include <fcntl.h>
#include <netinet/tcp.h>
#include <pthread.h>
#include <stdbool.h>
#include <stdint.h>
#include <stdio.h>
#include <stdlib.h>
#include <string.h>
#include <sys/epoll.h>
#include <time.h>
#include <unistd.h>

enum {
    GROUPS = 64,
    PARTITIONS = 50,
    KEYS = GROUPS * PARTITIONS,
    DEPTH_MAX = 64,
    THREADS_MAX = 16,
    REQUEST_MAX = 512,
    IN_BYTES = 16384,
    EVENTS = 256,
};
static const uint64_t SECOND = 1000000000;
static const uint64_t DRAIN = 5 * SECOND;

static uint64_t now_ns(void) {
    struct timespec t;
    clock_gettime(CLOCK_MONOTONIC, &t);
    return (uint64_t)t.tv_sec * SECOND + (uint64_t)t.tv_nsec;
}

static void sleep_until(uint64_t moment) {
    struct timespec t = {(time_t)(moment / SECOND), (long)(moment % SECOND)};
    while (clock_nanosleep(CLOCK_MONOTONIC, TIMER_ABSTIME, &t, NULL)) {}
}

/* ---- Times: a histogram with 128 steps for each power of two, so a figure is right to within 1 %. ---- */

enum { STEP_BITS = 7, STEPS = 1 << STEP_BITS, BUCKETS = STEPS * (64 - STEP_BITS + 1) };
struct times {
    uint64_t count, bucket[BUCKETS];
};

static void times_add(struct times *t, uint64_t ns) {
    int shift = ns < STEPS ? 0 : 63 - __builtin_clzll(ns) - STEP_BITS;
    t->bucket[(uint64_t)shift * STEPS + (ns >> shift)]++;
    t->count++;
}

static void times_merge(struct times *sum, const struct times *t) {
    sum->count += t->count;
    for (int b = 0; b < BUCKETS; b++) sum->bucket[b] += t->bucket[b];
}

/* Returns the time in microseconds within which this share of all replies came. */
static double times_within(const struct times *t, double share) {
    double wanted = share * (double)t->count;
    uint64_t seen = 0;
    for (int b = 0; b < BUCKETS; b++) {
        seen += t->bucket[b];
        if (seen > 0 && (double)seen >= wanted) {
            int shift = b < 2 * STEPS ? 0 : b / STEPS - 1;
            double low = (double)((uint64_t)(b - shift * STEPS) << shift);
            return (low + (double)(1ull << shift) / 2) / 1000;
        }
    }
    return 0;
}

/* ---- Connections ---- */

struct worker {
    pthread_t thread;
    int poller;
    uint64_t now, good, refused, in_flight;
    struct times times;
};
struct connection {
    struct worker *worker;
    int fd, number;
    uint64_t sent, received;
    uint64_t sent_at[DEPTH_MAX];
    const char *line;
    size_t in_length;
    char in[IN_BYTES];
};

struct protocol {
    const char *name;
    /* Says hello on a new connection, and waits for the reply. */
    void (*greet)(int fd);
    /* Writes a request that sets the offset of a key. Returns its length. */
    size_t (*request)(const struct connection *c, int key, uint64_t offset, char *out);
    /* Returns the length of the first reply, 0 if it is not whole, and whether it is the one that counts. */
    size_t (*reply)(const char *in, size_t length, bool *good);
};
static const struct protocol *protocol;
static int connections, depth;
static uint64_t window_start, window_end;

static void send_all(int fd, const char *bytes, size_t length) {
    while (length > 0) {
        ssize_t sent = send(fd, bytes, length, MSG_NOSIGNAL);
        if (sent < 0) err(1, "send");
        bytes += sent, length -= (size_t)sent;
    }
}

static size_t line_length(const char *in, size_t length) {
    const char *end = memchr(in, '\n', length);
    return end ? (size_t)(end - in) + 1 : 0;
}

static void greet_nobody(int fd) { (void)fd; }

static size_t line_request(const struct connection *c, int key, uint64_t offset, char *out) {
    (void)c;
    return (size_t)sprintf(out, "COMMIT g%d -1 - - t:%d:%lu:x\n", key % GROUPS, key / GROUPS, offset);
}
static size_t line_reply(const char *in, size_t length, bool *good) {
    size_t used = line_length(in, length);
    *good = used == 3 && !memcmp(in, "OK\n", 3);
    return used;
}

static size_t beat_request(const struct connection *c, int key, uint64_t offset, char *out) {
    (void)key, (void)offset;
    return (size_t)(stpcpy(out, c->line) - out);
}

static size_t redis_request(const struct connection *c, int key, uint64_t offset, char *out) {
    char group[16], field[16], value[24];
    (void)c;
    int g = sprintf(group, "g%d", key % GROUPS), f = sprintf(field, "t:%d", key / GROUPS), v = sprintf(value, "%lu", offset);
    return (size_t)sprintf(out, "*4\r\n$4\r\nHSET\r\n$%d\r\n%s\r\n$%d\r\n%s\r\n$%d\r\n%s\r\n", g, group, f, field, v, value);
}
static size_t redis_reply(const char *in, size_t length, bool *good) {
    *good = in[0] == ':';
    return line_length(in, length);
}

/* ---- PostgreSQL: version 3 of its protocol, a prepared statement, Bind, Execute and Sync for each request ---- */

static uint32_t read32(const char *in) {
    uint32_t word;
    memcpy(&word, in, 4);
    return ntohl(word);
}
static char *put16(char *out, int n) {
    *out++ = (char)(n >> 8), *out++ = (char)n;
    return out;
}
static char *put32(char *out, uint32_t n) {
    n = htonl(n);
    return (char *)memcpy(out, &n, 4) + 4;
}
/* Ends the message that began at `start` with its kind. */
static char *end_message(char *start, char *end) {
    put32(start + 1, (uint32_t)(end - start - 1));
    return end;
}
static char *put_text(char *out, const char *text) {
    size_t length = strlen(text);
    return (char *)memcpy(put32(out, (uint32_t)length), text, length) + length;
}
static char *put_sync(char *out) {
    *out = 'S';
    return end_message(out, out + 5);
}
/* A reply is all messages up to ReadyForQuery. */
static size_t postgres_reply(const char *in, size_t length, bool *good) {
    *good = false;
    for (size_t at = 0; length - at >= 5;) {
        const char *message = in + at;
        size_t size = 1 + read32(message + 1);
        if (size > IN_BYTES) errx(1, "PostgreSQL sent a message of %zu bytes", size);
        if (length - at < size) return 0;
        at += size;
        if (message[0] == 'C') *good = size == 16 && !memcmp(message + 5, "INSERT 0 1", 11);
        if (message[0] == 'E') warnx("PostgreSQL: %.*s", 200, message + 5);
        if (message[0] == 'Z') return at;
    }
    return 0;
}
static void await_ready(int fd) {
    char in[IN_BYTES];
    size_t length = 0;
    for (bool good; !length || !postgres_reply(in, length, &good);) {
        ssize_t got = recv(fd, in + length, sizeof in - length, 0);
        if (got <= 0) errx(1, "PostgreSQL closed a connection that was new");
        length += (size_t)got;
    }
}
static void postgres_greet(int fd) {
    static const char names[] = "user\0postgres\0database\0postgres\0";
    static const char statement[] = "set\0INSERT INTO offsets VALUES ($1, $2, $3) "
                                    "ON CONFLICT (grp, part) DO UPDATE SET off = excluded.off";
    char out[REQUEST_MAX], *end = put32(put32(out, 8 + sizeof names), 3 << 16);
    memcpy(end, names, sizeof names);
    send_all(fd, out, 8 + sizeof names);
    await_ready(fd);
    out[0] = 'P';
    memcpy(out + 5, statement, sizeof statement);
    end = put_sync(end_message(out, put16(out + 5 + sizeof statement, 0)));
    send_all(fd, out, (size_t)(end - out));
    await_ready(fd);
}
static size_t postgres_request(const struct connection *c, int key, uint64_t offset, char *out) {
    char group[16], part[16], value[24], *end = out + 5, *execute;
    (void)c;
    sprintf(group, "g%d", key % GROUPS), sprintf(part, "%d", key / GROUPS), sprintf(value, "%lu", offset);
    *out = 'B';
    memcpy(end, "\0set\0", 5); /* the unnamed portal, of the statement `set` */
    end = put16(put16(end + 5, 0), 3);
    end = put16(put_text(put_text(put_text(end, group), part), value), 0);
    execute = end_message(out, end);
    *execute = 'E', execute[5] = 0;
    end = put_sync(end_message(execute, put32(execute + 6, 0)));
    return (size_t)(end - out);
}

static const struct protocol PROTOCOLS[] = {
    {"line", greet_nobody, line_request, line_reply},
    {"redis", greet_nobody, redis_request, redis_reply},
    {"postgres", postgres_greet, postgres_request, postgres_reply},
    {"beat", greet_nobody, beat_request, line_reply},
};

/* ---- The load ---- */

/* Keys of a connection: each key belongs to one connection, as a partition belongs to one consumer of a group. */
static int key_count(const struct connection *c) { return (KEYS - c->number + connections - 1) / connections; }
static int key_at(const struct connection *c, uint64_t n) {
    return c->number + connections * (int)(n % (uint64_t)key_count(c));
}

static void fill(struct connection *c) {
    char out[DEPTH_MAX * REQUEST_MAX];
    size_t length = 0;
    struct worker *w = c->worker;
    for (; w->now < window_end && c->sent - c->received < (uint64_t)depth; c->sent++, w->in_flight++) {
        c->sent_at[c->sent % DEPTH_MAX] = w->now;
        length += protocol->request(c, key_at(c, c->sent), c->sent + 1, out + length);
    }
    send_all(c->fd, out, length);
}

static void count_reply(struct connection *c, bool good) {
    struct worker *w = c->worker;
    uint64_t sent_at = c->sent_at[c->received++ % DEPTH_MAX];
    w->in_flight--;
    if (!good) w->refused++;
    if (good && w->now >= window_start && w->now < window_end) times_add(&w->times, w->now - sent_at);
}

static void receive(struct connection *c) {
    ssize_t got = recv(c->fd, c->in + c->in_length, IN_BYTES - c->in_length, 0);
    if (got <= 0) errx(1, "the server closed a connection");
    c->worker->now = now_ns();
    c->in_length += (size_t)got;
    size_t at = 0;
    bool good;
    for (size_t used; at < c->in_length && (used = protocol->reply(c->in + at, c->in_length - at, &good)); at += used)
        count_reply(c, good);
    memmove(c->in, c->in + at, c->in_length -= at);
    fill(c);
}

static void *work(void *argument) {
    struct worker *w = argument;
    struct epoll_event events[EVENTS];
    while (w->now < window_end || (w->in_flight && w->now < window_end + DRAIN)) {
        int n = epoll_wait(w->poller, events, EVENTS, 50);
        for (int i = 0; i < n; i++) receive(events[i].data.ptr);
        w->now = now_ns();
    }
    return NULL;
}

static int dial(int port) {
    struct sockaddr_in at = {.sin_family = AF_INET, .sin_port = htons((uint16_t)port), .sin_addr.s_addr = htonl(INADDR_LOOPBACK)};
    int fd = socket(AF_INET, SOCK_STREAM, 0), one = 1;
    if (fd < 0 || connect(fd, (struct sockaddr *)&at, sizeof at)) err(1, "connection to port %d", port);
    setsockopt(fd, IPPROTO_TCP, TCP_NODELAY, &one, sizeof one);
    protocol->greet(fd);
    return fd;
}

static void watch(int poller, int fd, epoll_data_t data) {
    struct epoll_event event = {.events = EPOLLIN, .data = data};
    if (epoll_ctl(poller, EPOLL_CTL_ADD, fd, &event)) err(1, "epoll");
}

static void read_lines(struct connection *all, const char *path) {
    FILE *file = fopen(path, "r");
    if (!file) err(1, "%s", path);
    for (int i = 0; i < connections; i++) {
        char *line = NULL;
        size_t room = 0;
        if (getline(&line, &room, file) <= 0 || strlen(line) >= REQUEST_MAX) errx(1, "%s has no line for connection %d", path, i);
        all[i].line = line;
    }
    fclose(file);
}

/* Writes the last offset of each key that was sent. */
static void write_offsets(const struct connection *all, const char *path) {
    FILE *file = fopen(path, "w");
    if (!file) err(1, "%s", path);
    for (int i = 0; i < connections; i++) {
        uint64_t keys = (uint64_t)key_count(&all[i]), sent = all[i].sent;
        for (uint64_t n = sent > keys ? sent - keys : 0; n < sent; n++) {
            int key = key_at(&all[i], n);
            fprintf(file, "g%d %d %lu\n", key % GROUPS, key / GROUPS, n + 1);
        }
    }
    if (fclose(file)) err(1, "%s", path);
}

static int run(char **words) {
    for (size_t i = 0; i < sizeof PROTOCOLS / sizeof *PROTOCOLS; i++)
        if (!strcmp(PROTOCOLS[i].name, words[0])) protocol = &PROTOCOLS[i];
    int port = atoi(words[1]), threads = atoi(words[4]);
    connections = atoi(words[2]), depth = atoi(words[3]);
    double warm = atof(words[5]), seconds = atof(words[6]);
    if (!protocol || connections < 1 || connections > KEYS || depth < 1 || depth > DEPTH_MAX || threads < 1 ||
        threads > THREADS_MAX)
        errx(2, "an unknown protocol, or a number out of range");
    static struct worker workers[THREADS_MAX];
    struct connection *all = calloc((size_t)connections, sizeof *all);
    if (!all) err(1, "memory");
    for (int i = 0; i < threads; i++) workers[i].poller = epoll_create1(0);
    bool beats = protocol->request == beat_request;
    if (beats) read_lines(all, words[7]);
    for (int i = 0; i < connections; i++) {
        all[i].number = i, all[i].worker = &workers[i % threads], all[i].fd = dial(port);
        watch(all[i].worker->poller, all[i].fd, (epoll_data_t){.ptr = &all[i]});
    }
    uint64_t start = now_ns();
    window_start = start + (uint64_t)(warm * (double)SECOND);
    window_end = window_start + (uint64_t)(seconds * (double)SECOND);
    for (int i = 0; i < connections; i++) all[i].worker->now = now_ns(), fill(&all[i]);
    for (int i = 0; i < threads; i++) pthread_create(&workers[i].thread, NULL, work, &workers[i]);
    sleep_until(window_start);
    puts("begin"), fflush(stdout);
    sleep_until(window_end);
    puts("end"), fflush(stdout);
    static struct times sum;
    uint64_t refused = 0;
    for (int i = 0; i < threads; i++) {
        pthread_join(workers[i].thread, NULL);
        times_merge(&sum, &workers[i].times);
        refused += workers[i].refused + workers[i].in_flight;
    }
    if (!beats) write_offsets(all, words[7]);
    printf("good %lu\nrefused %lu\nmedian %.1f\np99 %.1f\np999 %.1f\n", sum.count, refused, times_within(&sum, 0.5),
           times_within(&sum, 0.99), times_within(&sum, 0.999));
    free(all);
    return 0;
}

/* ---- The stub ---- */

static int stub_pollers[THREADS_MAX], stub_threads, stub_listener;

static void stub_answer(int fd) {
    char in[IN_BYTES], out[3 * IN_BYTES];
    size_t length = 0;
    ssize_t got = recv(fd, in, sizeof in, 0);
    for (ssize_t i = 0; i < got; i++)
        if (in[i] == '\n') memcpy(out + length, "OK\n", 3), length += 3;
    if (got <= 0 || (length && send(fd, out, length, MSG_NOSIGNAL) < 0)) close(fd);
}
static void stub_accept(void) {
    static int next;
    int fd = accept(stub_listener, NULL, NULL), one = 1;
    if (fd < 0) err(1, "accept");
    setsockopt(fd, IPPROTO_TCP, TCP_NODELAY, &one, sizeof one);
    watch(stub_pollers[next++ % stub_threads], fd, (epoll_data_t){.fd = fd});
}
static void *stub_work(void *poller) {
    struct epoll_event events[EVENTS];
    for (;;) {
        int n = epoll_wait(*(int *)poller, events, EVENTS, -1);
        for (int i = 0; i < n; i++) events[i].data.fd == stub_listener ? stub_accept() : stub_answer(events[i].data.fd);
    }
    return NULL;
}
static int stub(int threads) {
    struct sockaddr_in at = {.sin_family = AF_INET, .sin_addr.s_addr = htonl(INADDR_LOOPBACK)};
    socklen_t length = sizeof at;
    if (threads < 1 || threads > THREADS_MAX) errx(2, "a number out of range");
    stub_threads = threads, stub_listener = socket(AF_INET, SOCK_STREAM, 0);
    if (bind(stub_listener, (struct sockaddr *)&at, length) || listen(stub_listener, 1024)) err(1, "listen");
    getsockname(stub_listener, (struct sockaddr *)&at, &length);
    for (int i = 0; i < threads; i++) stub_pollers[i] = epoll_create1(0);
    watch(stub_pollers[0], stub_listener, (epoll_data_t){.fd = stub_listener});
    printf("LISTENING 127.0.0.1:%d\n", ntohs(at.sin_port)), fflush(stdout);
    for (int i = 1; i < threads; i++) {
        pthread_t thread;
        pthread_create(&thread, NULL, stub_work, &stub_pollers[i]);
    }
    stub_work(&stub_pollers[0]);
    return 0;
}

/* ---- The disk without a server ---- */

static void write_sync(int fd, const char *bytes, size_t length, off_t at) {
    if (pwrite(fd, bytes, length, at) != (ssize_t)length || fdatasync(fd)) err(1, "write and sync");
}

/* A batch of `body` bytes, and of a gate of 512 bytes before it where there is one, as the server writes it. */
static void disk_row(int fd, off_t file_bytes, const char *name, size_t body, size_t gate, double seconds) {
    static struct times t;
    static char bytes[1 << 16];
    memset(&t, 0, sizeof t), memset(bytes, (int)body + 1, sizeof bytes);
    uint64_t start = now_ns(), end = start + (uint64_t)(seconds * (double)SECOND), before = start;
    for (off_t at = 512; before < end; at = at + 2 * (off_t)body > file_bytes ? 512 : at + (off_t)body) {
        write_sync(fd, bytes, body, at);
        if (gate) write_sync(fd, bytes, gate, at - 512);
        uint64_t after = now_ns();
        times_add(&t, after - before);
        before = after;
    }
    double span = (double)(before - start) / (double)SECOND;
    printf("%s\t%.1f\t%.1f\t%.1f\t%.1f\n", name, (double)t.count / span, times_within(&t, 0.5), times_within(&t, 0.99),
           times_within(&t, 0.999));
}
static int disk(const char *folder, double seconds) {
    enum { FILE_BYTES = 64 << 20 };
    char path[4096], *bytes = calloc(1, FILE_BYTES);
    snprintf(path, sizeof path, "%s/blocks", folder);
    int fd = open(path, O_RDWR | O_CREAT | O_TRUNC, 0600);
    if (fd < 0 || !bytes) err(1, "%s", path);
    write_sync(fd, bytes, FILE_BYTES, 0);
    disk_row(fd, FILE_BYTES, "1 KiB, sync", 1024, 0, seconds);
    disk_row(fd, FILE_BYTES, "1 KiB, sync, 512 B, sync", 1024, 512, seconds);
    close(fd);
    return unlink(path);
}

int main(int count, char **words) {
    if (count == 10 && !strcmp(words[1], "run")) return run(words + 2);
    if (count == 3 && !strcmp(words[1], "stub")) return stub(atoi(words[2]));
    if (count == 4 && !strcmp(words[1], "disk")) return disk(words[2], atof(words[3]));
    fputs("load run PROTOCOL PORT CONNECTIONS DEPTH THREADS WARM SECONDS FILE\n"
          "load stub THREADS\n"
          "load disk FOLDER SECONDS\n", stderr);
    return 2;
}
