/* loopback echo PORT CONNECTIONS
   loopback stream PORT CONNECTIONS AT_ONCE <LINES
   loopback turns PORT CONNECTIONS AT_ONCE <LINES
   loopback book PORT HOSTS AT_ONCE REPORTS

`echo` listens on 127.0.0.1, takes so many connections, each in a thread of its own, and writes each line back by a write of its own.
The others are callers, so many connections of which AT_ONCE are open at a time. Of the lines on standard input the first one goes over the first connection,
the second over the second, and so on in turn. `stream` sends without waiting for replies, `turns` sends a line once the one before it was answered. `book` plays
hosts, h0 to h(HOSTS - 1), a connection each, with so many reports each: a report says that all of the last reply's launches are done.

A caller prints the lines, the seconds, the refusals and the launches among the replies, and of `turns` and `book` the microseconds of a line at the 50th and the
99th hundredth. */
#include <arpa/inet.h>
#include <errno.h>
#include <netinet/in.h>
#include <netinet/tcp.h>
#include <pthread.h>
#include <stdio.h>
#include <stdlib.h>
#include <string.h>
#include <sys/socket.h>
#include <time.h>
#include <unistd.h>

enum { ROOM = 1 << 20 };

static void fail(const char *what) {
    perror(what);
    exit(1);
}

static double now(void) {
    struct timespec it;
    clock_gettime(CLOCK_MONOTONIC, &it);
    return it.tv_sec + it.tv_nsec / 1e9;
}

static void write_all(int to, const char *bytes, size_t count) {
    while (count > 0) {
        ssize_t wrote = write(to, bytes, count);
        if (wrote <= 0) fail("write");
        bytes += wrote;
        count -= wrote;
    }
}

/* Lines of a connection. */
struct reader {
    int from;
    size_t begin, end, room;
    char *bytes;
};

static struct reader reader_of(int from) {
    return (struct reader){from, 0, 0, ROOM, malloc(ROOM)};
}

/* The next line with its newline, and its length; none at the end. */
static char *next_line(struct reader *it, size_t *count) {
    size_t looked = it->begin;
    for (;;) {
        char *newline = memchr(it->bytes + looked, '\n', it->end - looked);
        if (newline) {
            char *line = it->bytes + it->begin;
            *count = newline + 1 - line;
            it->begin += *count;
            return line;
        }
        memmove(it->bytes, it->bytes + it->begin, it->end - it->begin);
        it->end -= it->begin;
        it->begin = 0;
        looked = it->end;
        if (it->end == it->room) it->bytes = realloc(it->bytes, it->room *= 2);
        ssize_t got = read(it->from, it->bytes + it->end, it->room - it->end);
        if (got < 0) fail("read");
        if (got == 0) return NULL;
        it->end += got;
    }
}

static void *echo_lines(void *given) {
    int stream = (int)(long)given;
    struct reader lines = reader_of(stream);
    size_t count;
    for (char *line; (line = next_line(&lines, &count));) write_all(stream, line, count);
    free(lines.bytes);
    close(stream);
    return NULL;
}

static void no_delay(int stream) {
    int yes = 1;
    setsockopt(stream, IPPROTO_TCP, TCP_NODELAY, &yes, sizeof yes);
}

static void echo(int port, int connections) {
    int yes = 1, listener = socket(AF_INET, SOCK_STREAM, 0);
    struct sockaddr_in place = {.sin_family = AF_INET, .sin_port = htons(port), .sin_addr.s_addr = htonl(INADDR_LOOPBACK)};
    setsockopt(listener, SOL_SOCKET, SO_REUSEADDR, &yes, sizeof yes);
    if (bind(listener, (struct sockaddr *)&place, sizeof place) || listen(listener, 128)) fail("listen");
    pthread_t *threads = calloc(connections, sizeof *threads);
    for (int i = 0; i < connections; i++) {
        int stream = accept(listener, NULL, NULL);
        if (stream < 0) fail("accept");
        no_delay(stream);
        if (pthread_create(&threads[i], NULL, echo_lines, (void *)(long)stream)) fail("thread");
    }
    for (int i = 0; i < connections; i++) pthread_join(threads[i], NULL);
}

/* Callers. */
static int port, connections, reports, is_stream, is_book;
static char **lines;
static size_t *lengths, total;
static int next_connection;
static size_t asked, refused, launched;
static double *took;
static pthread_mutex_t lock = PTHREAD_MUTEX_INITIALIZER;

static int dial(void) {
    struct sockaddr_in place = {.sin_family = AF_INET, .sin_port = htons(port), .sin_addr.s_addr = htonl(INADDR_LOOPBACK)};
    int stream = socket(AF_INET, SOCK_STREAM, 0);
    if (connect(stream, (struct sockaddr *)&place, sizeof place)) fail("connect");
    no_delay(stream);
    return stream;
}

static void count_reply(const char *reply, size_t count, size_t *bad) {
    if (memmem(reply, count, "\"ok\":false", 10)) {
        if (!*bad) fprintf(stderr, "loopback: refused: %.*s", (int)count, reply);
        ++*bad;
    }
}

struct sending {
    int stream, number;
};

/* Writes all lines of a connection, some at a time. */
static void *send_lines(void *given) {
    struct sending *it = given;
    static const size_t PIECE = 1 << 16;
    char *piece = malloc(PIECE + ROOM);
    size_t held = 0;
    for (size_t i = it->number; i < total; i += connections) {
        memcpy(piece + held, lines[i], lengths[i]);
        held += lengths[i];
        if (held >= PIECE) {
            write_all(it->stream, piece, held);
            held = 0;
        }
    }
    write_all(it->stream, piece, held);
    free(piece);
    return NULL;
}

static void note(size_t count, size_t bad, size_t starts, const double *times, size_t timed) {
    pthread_mutex_lock(&lock);
    if (took) memcpy(took + asked, times, timed * sizeof *times);
    asked += count;
    refused += bad;
    launched += starts;
    pthread_mutex_unlock(&lock);
}

static void ask_lines(int number) {
    int stream = dial();
    struct reader replies = reader_of(stream);
    size_t count, answered = 0, bad = 0, mine = (total - number + connections - 1) / connections;
    double *times = calloc(mine + 1, sizeof *times);
    pthread_t sender;
    struct sending sending = {stream, number};
    if (is_stream && pthread_create(&sender, NULL, send_lines, &sending)) fail("thread");
    for (size_t i = number; i < total; i += connections) {
        double began = now();
        if (!is_stream) write_all(stream, lines[i], lengths[i]);
        char *reply = next_line(&replies, &count);
        if (!reply) fail("a reply is missing");
        count_reply(reply, count, &bad);
        times[answered++] = now() - began;
    }
    if (is_stream) pthread_join(sender, NULL);
    note(answered, bad, 0, times, answered);
    free(times);
    free(replies.bytes);
    close(stream);
}

/* Writes the report that all launches of a reply are done, and says how many they are. */
static size_t write_report(char *to, size_t *length, int host, int seq, const char *reply, size_t count) {
    size_t starts = 0;
    char *at = to + sprintf(to, "{\"op\":\"report\",\"host\":\"h%d\",\"boot\":1,\"seq\":%d,\"running\":[],\"done\":[", host, seq);
    const char *end = reply + count, *from = reply ? memmem(reply, count, "\"launches\":[", 12) : NULL;
    while (from && (from = memmem(from, end - from, "\"slot\":", 7))) {
        unsigned slot, version;
        if (sscanf(from, "\"slot\":%u,\"version\":%u", &slot, &version) != 2) break;
        at += sprintf(at, "%s{\"slot\":%u,\"version\":%u,\"status\":0,\"signal\":0}", starts ? "," : "", slot, version);
        starts++;
        from += 7;
    }
    at += sprintf(at, "]}\n");
    *length = at - to;
    return starts;
}

static void play_host(int host) {
    int stream = dial();
    struct reader replies = reader_of(stream);
    char *line = malloc(ROOM), *reply = NULL;
    size_t length, count = 0, bad = 0, starts = 0;
    double *times = calloc(reports + 1, sizeof *times);
    for (int i = 0; i < reports; i++) {
        starts += write_report(line, &length, host, i + 1, reply, count);
        double began = now();
        write_all(stream, line, length);
        reply = next_line(&replies, &count);
        if (!reply) fail("a reply is missing");
        count_reply(reply, count, &bad);
        times[i] = now() - began;
    }
    starts += write_report(line, &length, host, 0, reply, count);
    note(reports, bad, starts, times, reports);
    free(times);
    free(line);
    free(replies.bytes);
    close(stream);
}

static void *call(void *given) {
    (void)given;
    for (;;) {
        int number = __atomic_fetch_add(&next_connection, 1, __ATOMIC_SEQ_CST);
        if (number >= connections) return NULL;
        if (is_book)
            play_host(number);
        else
            ask_lines(number);
    }
}

static void read_lines(void) {
    size_t room = 1024, count;
    struct reader input = reader_of(0);
    lines = calloc(room, sizeof *lines);
    lengths = calloc(room, sizeof *lengths);
    for (char *line; (line = next_line(&input, &count)); total++) {
        if (total == room) {
            lines = realloc(lines, (room *= 2) * sizeof *lines);
            lengths = realloc(lengths, room * sizeof *lengths);
        }
        lines[total] = malloc(count);
        memcpy(lines[total], line, count);
        lengths[total] = count;
    }
}

static int by_size(const void *a, const void *b) {
    double one = *(const double *)a, other = *(const double *)b;
    return (one > other) - (one < other);
}

int main(int count, char **words) {
    if (count < 4) return 2;
    port = atoi(words[2]);
    connections = atoi(words[3]);
    if (!strcmp(words[1], "echo")) {
        echo(port, connections);
        return 0;
    }
    if (count < 5) return 2;
    int at_once = atoi(words[4]);
    is_stream = !strcmp(words[1], "stream");
    is_book = !strcmp(words[1], "book");
    if (is_book)
        reports = count > 5 ? atoi(words[5]) : 1;
    else
        read_lines();
    size_t most = is_book ? (size_t)reports * connections : total;
    took = calloc(most + 1, sizeof *took);
    pthread_t *threads = calloc(at_once, sizeof *threads);
    double began = now();
    for (int i = 0; i < at_once; i++)
        if (pthread_create(&threads[i], NULL, call, NULL)) fail("thread");
    for (int i = 0; i < at_once; i++) pthread_join(threads[i], NULL);
    double seconds = now() - began;
    qsort(took, asked, sizeof *took, by_size);
    double half = asked && !is_stream ? took[asked / 2] : 0, last = asked && !is_stream ? took[asked - 1 - asked / 100] : 0;
    printf("%zu %.6f %zu %zu %.1f %.1f\n", asked, seconds, refused, launched, 1e6 * half, 1e6 * last);
    return 0;
}
