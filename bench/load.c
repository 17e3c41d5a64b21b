// Loads a server over 127.0.0.1 from many connections of one thread, and looks at every reply. net.py compiles and runs it.
//
// usage: load PORT fill NUMBER                               adds entries `f v` with ids 1-1, 1-2 and so on to the stream s
//        load PORT requests CONNECTIONS DEPTH NUMBER WORD .. sends the request of these words; a reply that is an error ends it
//        load PORT during CONNECTIONS DEPTH SECONDS WORD ..  the same for some seconds
//        load PORT groups CONNECTIONS DEPTH NUMBER COUNT     reads COUNT entries of group g of s, waits for them, and acknowledges them
//        load PORT wake READERS ROUNDS                       has readers wait in XREAD, and adds an entry for all of them
//        load PORT turns READERS ROUNDS                      has readers of group g wait, and adds an entry for one of them
//
// DEPTH requests of a connection are on their way at a time, and sent again once all are answered: NUMBER in all. Prints the seconds from
// the first of them to the last reply; of `during`, how many were answered; of `wake` and `turns`, a line for each round: microseconds from the XADD to the last reply that it
// brings. The connections are open before. What goes otherwise than it must ends it with status 1 and a line on standard error.
#include <arpa/inet.h>
#include <netinet/tcp.h>
#include <stdarg.h>
#include <stdio.h>
#include <stdlib.h>
#include <string.h>
#include <sys/epoll.h>
#include <time.h>
#include <unistd.h>

enum { LINES = 64, MOST = 1 << 16, PATIENCE = 60000, PAUSE = 10000 }; // connections at a time, ids at a time, milliseconds, microseconds

struct text {
    char *bytes;
    size_t length, room;
};

struct connection {
    int socket;
    struct text read; // what has come of its replies
    int missing;      // how many it waits for
    int acknowledges; // whether they are those of acknowledgements
};

static int poller, port;

static void fail(const char *form, ...)
{
    va_list words;
    va_start(words, form);
    vfprintf(stderr, form, words);
    fputc('\n', stderr);
    exit(1);
}

static double now(void)
{
    struct timespec time;
    clock_gettime(CLOCK_MONOTONIC, &time);
    return time.tv_sec + time.tv_nsec / 1e9;
}

static void room_for(struct text *text, size_t more)
{
    if (text->length + more <= text->room)
        return;
    text->room = 2 * (text->length + more);
    text->bytes = realloc(text->bytes, text->room);
    if (!text->bytes)
        fail("no memory");
}

static void put(struct text *text, const char *bytes, size_t length)
{
    room_for(text, length);
    memcpy(text->bytes + text->length, bytes, length);
    text->length += length;
}

static void put_number(struct text *text, char kind, long number)
{
    char line[32];
    put(text, line, snprintf(line, sizeof line, "%c%ld\r\n", kind, number));
}

static void put_word(struct text *text, const char *word, size_t length)
{
    put_number(text, '$', length);
    put(text, word, length);
    put(text, "\r\n", 2);
}

// Puts the request of words that blanks separate, a number of times.
static void put_request(struct text *text, const char *words, int times)
{
    struct text one = {0};
    long count = 1;
    for (const char *at = words; *at; at++)
        count += *at == ' ';
    put_number(&one, '*', count);
    for (const char *at = words;; at++) {
        size_t length = strcspn(at, " ");
        put_word(&one, at, length);
        at += length;
        if (!*at)
            break;
    }
    while (times--)
        put(text, one.bytes, one.length);
    free(one.bytes);
}

static void send_all(int socket, const char *bytes, size_t length)
{
    while (length) {
        ssize_t count = write(socket, bytes, length);
        if (count <= 0)
            fail("a write fails");
        bytes += count;
        length -= count;
    }
}

// The number in a header, and the place after it; none if its line is not whole.
static const char *header(const char *at, const char *end, long *number)
{
    int below = 0;
    *number = 0;
    for (at++; at < end && *at != '\r'; at++) {
        if (*at == '-')
            below = 1;
        else
            *number = 10 * *number + (*at - '0');
    }
    if (below)
        *number = -*number;
    return end - at >= 2 ? at + 2 : NULL;
}

// The place after a reply, or none if it is not whole.
static const char *after(const char *at, const char *end)
{
    for (long left = 1, number; left; left--) {
        if (at >= end)
            return NULL;
        if (*at == '+' || *at == '-') {
            const char *line = memchr(at, '\n', end - at);
            if (!line)
                return NULL;
            if (*at == '-')
                fail("an error: %.*s", (int)(line - at), at);
            at = line + 1;
            continue;
        }
        char kind = *at;
        if (!(at = header(at, end, &number)))
            return NULL;
        if (kind == '*' && number > 0)
            left += number;
        else if (kind == '$' && number >= 0 && (at += number + 2) > end)
            return NULL;
        else if (kind != '*' && kind != '$' && kind != ':')
            fail("no reply begins with %c", kind);
    }
    return at;
}

static struct connection *opened(int number)
{
    struct connection *all = calloc(number, sizeof *all);
    struct sockaddr_in address = { .sin_family = AF_INET, .sin_port = htons(port), .sin_addr.s_addr = htonl(INADDR_LOOPBACK) };
    for (int place = 0; place < number; place++) {
        struct connection *one = &all[place];
        struct epoll_event event = { .events = EPOLLIN, .data.ptr = one };
        int yes = 1;
        one->socket = socket(AF_INET, SOCK_STREAM, 0);
        if (one->socket < 0 || connect(one->socket, (struct sockaddr *)&address, sizeof address))
            fail("connection %d fails", place);
        setsockopt(one->socket, IPPROTO_TCP, TCP_NODELAY, &yes, sizeof yes);
        epoll_ctl(poller, EPOLL_CTL_ADD, one->socket, &event);
        if (place % LINES == LINES - 1 || place == number - 1) { // the server has accepted all of them then
            char pong[7];
            send_all(one->socket, "*1\r\n$4\r\nPING\r\n", 14);
            if (recv(one->socket, pong, 7, MSG_WAITALL) != 7 || memcmp(pong, "+PONG\r\n", 7))
                fail("connection %d is not served", place);
        }
    }
    return all;
}

// Reads what has come of replies.
static void read_more(struct connection *one)
{
    room_for(&one->read, MOST);
    ssize_t count = read(one->socket, one->read.bytes + one->read.length, MOST);
    if (count <= 0)
        fail("a connection ends");
    one->read.length += count;
}

// Lets go of what has been looked at.
static void drop(struct text *text, const char *until)
{
    text->length -= until - text->bytes;
    memmove(text->bytes, until, text->length);
}

// Reads replies, and answers whether none is missing now. What is whole is let go, unless the replies are kept.
static int all_read(struct connection *one, size_t *looked)
{
    read_more(one);
    const char *at = one->read.bytes + *looked, *end = one->read.bytes + one->read.length, *next;
    while (one->missing && (next = after(at, end))) {
        at = next;
        one->missing--;
    }
    *looked = at - one->read.bytes;
    if (!one->missing && at != end)
        fail("a reply that nobody asked for");
    return !one->missing;
}

static int ready(struct epoll_event *events)
{
    int count = epoll_wait(poller, events, LINES, PATIENCE);
    if (count <= 0)
        fail("nothing comes any more");
    return count;
}

static void run_requests(int connections, int depth, long number, const char *words)
{
    struct connection *all = opened(connections);
    struct text piece = {0};
    put_request(&piece, words, depth);
    long unsent = number / depth, unread = unsent;
    double began = now();
    for (int place = 0; place < connections && unsent; place++, unsent--) {
        all[place].missing = depth;
        send_all(all[place].socket, piece.bytes, piece.length);
    }
    while (unread) {
        struct epoll_event events[LINES];
        for (int count = ready(events); count--;) {
            struct connection *one = events[count].data.ptr;
            size_t looked = 0;
            int done = all_read(one, &looked);
            drop(&one->read, one->read.bytes + looked);
            if (!done)
                continue;
            unread--;
            if (unsent) {
                unsent--;
                one->missing = depth;
                send_all(one->socket, piece.bytes, piece.length);
            }
        }
    }
    printf("%.6f\n", now() - began);
}

static void run_during(int connections, int depth, double seconds, const char *words)
{
    struct connection *all = opened(connections);
    struct text piece = {0};
    put_request(&piece, words, depth);
    double until = now() + seconds;
    for (int place = 0; place < connections; place++) {
        all[place].missing = depth;
        send_all(all[place].socket, piece.bytes, piece.length);
    }
    long answered = 0;
    for (double left; (left = until - now()) > 0;) {
        struct epoll_event events[LINES];
        for (int count = epoll_wait(poller, events, LINES, 1 + left * 1000); count-- > 0;) {
            struct connection *one = events[count].data.ptr;
            size_t looked = 0;
            int before = one->missing, done = all_read(one, &looked);
            answered += before - one->missing;
            drop(&one->read, one->read.bytes + looked);
            if (!done)
                continue;
            one->missing = depth;
            send_all(one->socket, piece.bytes, piece.length);
        }
    }
    printf("%ld\n", answered);
}

// Puts the acknowledgements of what reads were answered, each of this many entries.
static void put_acknowledgements(struct text *text, struct text *replies, int depth, int entries)
{
    const char *at = replies->bytes, *end = at + replies->length;
    for (long number; depth--;) {
        const char start[] = "*1\r\n*2\r\n$1\r\ns\r\n";
        if (strncmp(at, start, sizeof start - 1))
            fail("a read is answered by %.20s", at);
        at = header(at + sizeof start - 1, end, &number);
        if (number != entries)
            fail("a read is answered by %ld entries", number);
        put_number(text, '*', 3 + entries);
        put_word(text, "XACK", 4);
        put_word(text, "s", 1);
        put_word(text, "g", 1);
        while (number--) {
            long length;
            const char *id = header(at + 4, end, &length);
            put_word(text, id, length);
            at = after(at, end);
        }
    }
}

// Whether each of these replies is this number.
static void must_be(struct text *replies, int depth, int number)
{
    struct text wanted = {0};
    while (depth--)
        put_number(&wanted, ':', number);
    if (replies->length != wanted.length || memcmp(replies->bytes, wanted.bytes, wanted.length))
        fail("an acknowledgement is answered by %.10s", replies->bytes);
    free(wanted.bytes);
}

static void run_groups(int connections, int depth, long number, int entries)
{
    struct connection *all = opened(connections);
    struct text piece = {0}, sent = {0};
    char words[64];
    snprintf(words, sizeof words, "XREADGROUP GROUP g c COUNT %d STREAMS s >", entries);
    put_request(&piece, words, depth);
    size_t *looked = calloc(connections, sizeof *looked);
    long unsent = number / depth, unread = unsent;
    double began = now();
    for (int place = 0; place < connections && unsent; place++, unsent--) {
        all[place].missing = depth;
        send_all(all[place].socket, piece.bytes, piece.length);
    }
    while (unread) {
        struct epoll_event events[LINES];
        for (int count = ready(events); count--;) {
            struct connection *one = events[count].data.ptr;
            if (!all_read(one, &looked[one - all]))
                continue;
            sent.length = 0;
            if (one->acknowledges) {
                must_be(&one->read, depth, entries);
                unread--;
            } else {
                put_acknowledgements(&sent, &one->read, depth, entries);
            }
            if (one->acknowledges && unsent) {
                unsent--;
                put(&sent, piece.bytes, piece.length);
            }
            one->acknowledges = !one->acknowledges;
            one->missing = sent.length ? depth : 0;
            one->read.length = looked[one - all] = 0;
            send_all(one->socket, sent.bytes, sent.length);
        }
    }
    printf("%.6f\n", now() - began);
}

// Reads replies until so many connections have all of theirs.
static void replies(int number)
{
    while (number) {
        struct epoll_event events[LINES];
        for (int count = ready(events); count--;) {
            struct connection *one = events[count].data.ptr;
            size_t looked = 0;
            number -= all_read(one, &looked);
            drop(&one->read, one->read.bytes + looked);
        }
    }
}

static void begin(struct connection *reader, const char *words)
{
    struct text text = {0};
    put_request(&text, words, 1);
    reader->missing = 1;
    send_all(reader->socket, text.bytes, text.length);
    free(text.bytes);
}

// Rounds in which all readers wait and are served, or one of a group is and waits again.
static void run_rounds(int number, int rounds, int in_group)
{
    struct connection *readers = opened(number), *maker = opened(1);
    const char *group = "XREADGROUP GROUP g c BLOCK 0 NOACK STREAMS s >";
    char add[32], read[64];
    for (int place = 0; in_group && place < number; place++)
        begin(&readers[place], group);
    for (int round = 1; round <= rounds; round++) {
        snprintf(read, sizeof read, "XREAD BLOCK 0 STREAMS s %d-1", round);
        for (int place = 0; !in_group && place < number; place++)
            begin(&readers[place], read);
        usleep(PAUSE);
        snprintf(add, sizeof add, "XADD s %d-1 f v", round + 1);
        double began = now();
        begin(maker, add);
        replies(in_group ? 2 : number + 1);
        printf("%.1f\n", 1e6 * (now() - began));
        for (int place = 0; in_group && place < number; place++)
            if (!readers[place].missing)
                begin(&readers[place], group);
    }
}

static void run_fill(long number)
{
    struct connection *one = opened(1);
    char words[64];
    for (long done = 0; done < number;) {
        struct text text = {0};
        for (; done < number && text.length < MOST / 4; one->missing++) {
            snprintf(words, sizeof words, "XADD s 1-%ld f v", ++done);
            put_request(&text, words, 1);
        }
        send_all(one->socket, text.bytes, text.length);
        free(text.bytes);
        replies(1);
    }
}

int main(int count, char **words)
{
    if (count < 4)
        fail("usage: load PORT fill|requests|during|groups|wake|turns NUMBER ..");
    port = atoi(words[1]);
    poller = epoll_create1(0);
    const char *kind = words[2];
    if (!strcmp(kind, "fill"))
        run_fill(atol(words[3]));
    else if (!strcmp(kind, "requests") && count == 7)
        run_requests(atoi(words[3]), atoi(words[4]), atol(words[5]), words[6]);
    else if (!strcmp(kind, "during") && count == 7)
        run_during(atoi(words[3]), atoi(words[4]), atof(words[5]), words[6]);
    else if (!strcmp(kind, "groups") && count == 7)
        run_groups(atoi(words[3]), atoi(words[4]), atol(words[5]), atoi(words[6]));
    else if (count == 5)
        run_rounds(atoi(words[3]), atoi(words[4]), !strcmp(kind, "turns"));
    else
        fail("%s takes other numbers", kind);
    return 0;
}
