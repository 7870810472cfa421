// Traders of a server, in one thread: each logs in, keeps so many orders in flight for so long, and measures the time from
// the write of an order to its Accepted in hand. Or an echo: it answers as many bytes to each order as a server does, in a
// thread of its own for each connection, and does nothing else; or it has two for each, one that reads and one that writes,
// and so many nanoseconds of work for each order, under one lock for all, as a server has that has one book.
//
//   load PORT CLIENTS WINDOW SECONDS cross|rest      one line: orders, seconds, orders a second, p50, p99, longest in us
//   load PORT CLIENTS WINDOW SECONDS cross|rest MS   a line before it: the nanosecond of the monotonic clock when it began;
//                                                    and one behind it: the orders of each so many milliseconds from then on
//   load PORT CLIENTS WINDOW SECONDS cross|rest MS PAGE WHO PLAN
//                                                    and at the beginning of each so many milliseconds the server's page is
//                                                    asked for what the plan's next letter says, over and over: s its state,
//                                                    in the name of who (his name and password as HTTP's Basic has them), n
//                                                    what it has not; at any other it is not asked
//   load echo PORT [NANOSECONDS]
#include <arpa/inet.h>
#include <errno.h>
#include <netinet/tcp.h>
#include <pthread.h>
#include <stdint.h>
#include <stdio.h>
#include <stdlib.h>
#include <string.h>
#include <sys/epoll.h>
#include <sys/resource.h>
#include <sys/socket.h>
#include <time.h>
#include <unistd.h>

enum { LOGIN = 49, ORDER = 52, TOLD = 69, MOST = 64 * 1024, LATENCIES = 16 * 1024 * 1024 };

struct trader {
    int line, index, held;
    uint64_t sent, accepted, *times;
    uint8_t data[MOST];
};

static uint64_t *latencies;
static uint64_t measured;
static uint64_t *portions, portion, portion_count;
static struct { int port; const char *who, *plan; uint64_t begun, until; } page;

static void fail(const char *what) {
    perror(what);
    exit(2);
}

static uint64_t now(void) {
    struct timespec t;
    clock_gettime(CLOCK_MONOTONIC, &t);
    return (uint64_t)t.tv_sec * 1000000000u + (uint64_t)t.tv_nsec;
}

static void put32(uint8_t *at, uint32_t value) {
    for (int i = 0; i < 4; i++) at[i] = (uint8_t)(value >> (24 - 8 * i));
}

static int connected(int port) {
    int line = socket(AF_INET, SOCK_STREAM, 0), one = 1;
    struct sockaddr_in peer = {.sin_family = AF_INET, .sin_port = htons((uint16_t)port)};
    peer.sin_addr.s_addr = htonl(INADDR_LOOPBACK);
    if (line < 0 || connect(line, (struct sockaddr *)&peer, sizeof peer) < 0) fail("connect");
    setsockopt(line, IPPROTO_TCP, TCP_NODELAY, &one, sizeof one);
    return line;
}

static void write_all(int line, const uint8_t *bytes, size_t count) {
    while (count > 0) {
        ssize_t done = write(line, bytes, count);
        if (done <= 0) fail("write");
        bytes += done;
        count -= (size_t)done;
    }
}

static void log_in(struct trader *t) {
    uint8_t packet[LOGIN + 1], answer[33];
    snprintf((char *)packet + 2, sizeof packet - 2, "LT%02d   P%02d       %10s%20d", t->index, t->index, "", 1);
    packet[0] = 0;
    packet[1] = LOGIN - 2;
    write_all(t->line, packet, LOGIN);
    if (recv(t->line, answer, sizeof answer, MSG_WAITALL) != (ssize_t)sizeof answer || answer[2] != 'A') {
        fprintf(stderr, "T%02d is not logged in\n", t->index);
        exit(2);
    }
}

// A new order of 100 shares: it meets those of the other side, or never any.
static void make_order(uint8_t *at, const struct trader *t, uint64_t number, int cross) {
    char token[15];
    uint32_t price = cross ? 100000 : t->index % 2 == 0 ? 99000 : 101000;
    snprintf(token, sizeof token, "%-14llu", (unsigned long long)number);
    memset(at, ' ', ORDER);
    at[0] = 0;
    at[1] = ORDER - 2;
    at[2] = 'U';
    at[3] = 'O';
    memcpy(at + 4, token, 14);
    at[18] = t->index % 2 == 0 ? 'B' : 'S';
    put32(at + 19, 100);
    memcpy(at + 23, "TEST", 4);
    at[27] = (uint8_t)('0' + t->index / 2 % 4);
    put32(at + 31, price);
    put32(at + 35, 99999);
    memcpy(at + 43, "YAN", 3);
    put32(at + 46, 0);
    memcpy(at + 50, "NN", 2);
}

static void enter(struct trader *t, int count, int window, int cross) {
    uint8_t packets[ORDER * 4096];
    uint64_t moment = now();
    for (int i = 0; i < count; i++) {
        make_order(packets + ORDER * i, t, t->sent, cross);
        t->times[t->sent++ % (uint64_t)window] = moment;
    }
    write_all(t->line, packets, (size_t)count * ORDER);
}

// Takes what is there; how many orders were accepted.
static int listen_to(struct trader *t, int window) {
    ssize_t count = read(t->line, t->data + t->held, (size_t)(MOST - t->held));
    if (count <= 0) fail("read");
    uint64_t moment = now();
    int at = 0, accepted = 0;
    t->held += (int)count;
    while (at + 2 <= t->held) {
        int end = at + 2 + (t->data[at] << 8 | t->data[at + 1]);
        if (end > t->held) break;
        if (t->data[at + 2] == 'S' && t->data[at + 3] == 'A') {
            latencies[measured++ % LATENCIES] = moment - t->times[t->accepted++ % (uint64_t)window];
            accepted++;
        }
        at = end;
    }
    memmove(t->data, t->data + at, (size_t)(t->held - at));
    t->held -= at;
    return accepted;
}

static void wait_until(uint64_t moment) {
    struct timespec t = {.tv_sec = (time_t)(moment / 1000000000u), .tv_nsec = (long)(moment % 1000000000u)};
    while (clock_nanosleep(CLOCK_MONOTONIC, TIMER_ABSTIME, &t, NULL) == EINTR) {}
}

// Asks the page for this, and takes the whole answer, which has to be of this status.
static void ask_page(const char *path, const char *status) {
    char request[512], answer[MOST];
    int line = connected(page.port), held = 0;
    ssize_t count;
    snprintf(request, sizeof request, "GET %s HTTP/1.1\r\nHost: 127.0.0.1\r\nAuthorization: Basic %s\r\n\r\n", path, page.who);
    write_all(line, (const uint8_t *)request, strlen(request));
    while ((count = read(line, answer + (held < 16 ? held : 16), sizeof answer - 16)) > 0) held += (int)count;
    if (held < 16 || memcmp(answer, "HTTP/1.1 ", 9) != 0 || memcmp(answer + 9, status, 3) != 0) {
        fprintf(stderr, "the page does not answer %s by %s\n", path, status);
        exit(2);
    }
    close(line);
}

// Asks the page by the plan, until the traders' time is over.
static void *ask_by_plan(void *given) {
    uint64_t letters = strlen(page.plan), turn = 0;
    for (;; turn++) {
        char letter = page.plan[turn % letters];
        uint64_t moment = page.begun + turn * portion;
        if (moment >= page.until) return given;
        if (letter != 's' && letter != 'n') continue;
        wait_until(moment);
        ask_page(letter == 's' ? "/state.json" : "/nothing", letter == 's' ? "200" : "404");
    }
}

// Counts orders to the portion of time that they were accepted in.
static void count_at(uint64_t since, int accepted) {
    if (portion > 0 && since / portion < portion_count) portions[since / portion] += (uint64_t)accepted;
}

static int by_size(const void *a, const void *b) {
    uint64_t x = *(const uint64_t *)a, y = *(const uint64_t *)b;
    return x < y ? -1 : x > y;
}

static void drive(int port, int clients, int window, double seconds, int cross) {
    struct trader *traders = calloc((size_t)clients, sizeof *traders);
    struct epoll_event events[64];
    int poll = epoll_create1(0);
    for (int i = 0; i < clients; i++) {
        struct trader *t = &traders[i];
        t->index = i;
        t->times = calloc((size_t)window, sizeof *t->times);
        t->line = connected(port);
        log_in(t);
        struct epoll_event event = {.events = EPOLLIN, .data.ptr = t};
        epoll_ctl(poll, EPOLL_CTL_ADD, t->line, &event);
    }
    uint64_t begun = now(), until = begun + (uint64_t)(seconds * 1e9), last = begun, open = 0;
    if (portion > 0) {
        portion_count = (until - begun) / portion;
        portions = calloc((size_t)portion_count, sizeof *portions);
        printf("%llu\n", (unsigned long long)begun);
        fflush(stdout);
    }
    if (page.port > 0) {
        pthread_t asking;
        page.begun = begun;
        page.until = until;
        if (pthread_create(&asking, NULL, ask_by_plan, NULL) != 0) fail("pthread_create");
        pthread_detach(asking);
    }
    for (int i = 0; i < clients; i++) enter(&traders[i], window, window, cross);
    open = (uint64_t)clients * (uint64_t)window;
    while (open > 0) {
        int ready = epoll_wait(poll, events, 64, 10000);
        if (ready <= 0) {
            fprintf(stderr, "nothing came for 10 seconds, %llu orders are unanswered\n", (unsigned long long)open);
            exit(1);
        }
        for (int i = 0; i < ready; i++) {
            struct trader *t = events[i].data.ptr;
            int accepted = listen_to(t, window);
            open -= (uint64_t)accepted;
            last = accepted > 0 ? now() : last;
            count_at(last - begun, accepted);
            if (accepted > 0 && last < until) {
                enter(t, accepted, window, cross);
                open += (uint64_t)accepted;
            }
        }
    }
    uint64_t kept = measured < LATENCIES ? measured : LATENCIES;
    double took = (double)(last - begun) / 1e9;
    qsort(latencies, kept, sizeof *latencies, by_size);
    printf("%llu %.3f %.0f %.1f %.1f %.1f\n", (unsigned long long)measured, took, (double)measured / took,
           (double)latencies[kept / 2] / 1e3, (double)latencies[kept * 99 / 100] / 1e3,
           (double)latencies[kept - 1] / 1e3);
    for (uint64_t i = 0; i < portion_count; i++) printf("%llu ", (unsigned long long)portions[i]);
}

struct speaker {
    int line, owed, over;
    pthread_mutex_t lock;
    pthread_cond_t news;
};

static long work = -1;
static pthread_mutex_t book = PTHREAD_MUTEX_INITIALIZER;

static void answer(int line, int orders) {
    uint8_t out[TOLD * 128];
    while (orders > 0) {
        int some = orders < 128 ? orders : 128;
        memset(out, 0, sizeof out);
        for (int i = 0; i < some; i++) {
            out[TOLD * i + 1] = TOLD - 2;
            out[TOLD * i + 2] = 'S';
            out[TOLD * i + 3] = 'A';
        }
        write_all(line, out, (size_t)some * TOLD);
        orders -= some;
    }
}

static void *speak(void *given) {
    struct speaker *s = given;
    for (;;) {
        pthread_mutex_lock(&s->lock);
        while (s->owed == 0 && !s->over) pthread_cond_wait(&s->news, &s->lock);
        int orders = s->owed, over = s->over;
        s->owed = 0;
        pthread_mutex_unlock(&s->lock);
        if (over) return NULL;
        answer(s->line, orders);
    }
}

static void work_on(int orders) {
    for (int i = 0; i < orders; i++) {
        pthread_mutex_lock(&book);
        for (uint64_t until = now() + (uint64_t)work; now() < until;) {}
        pthread_mutex_unlock(&book);
    }
}

static void leave_to(struct speaker *s, int orders, int over) {
    pthread_mutex_lock(&s->lock);
    s->owed += orders;
    s->over = over;
    pthread_mutex_unlock(&s->lock);
    pthread_cond_signal(&s->news);
}

static void *echo_one(void *given) {
    int line = (int)(intptr_t)given, held = 0;
    static const uint8_t accepted[33] = {0, 31, 'A'};
    uint8_t data[4096];
    struct speaker speaker = {.line = line, .lock = PTHREAD_MUTEX_INITIALIZER, .news = PTHREAD_COND_INITIALIZER};
    pthread_t speaking;
    if (recv(line, data, LOGIN, MSG_WAITALL) != LOGIN) return NULL;
    write_all(line, accepted, sizeof accepted);
    if (work >= 0 && pthread_create(&speaking, NULL, speak, &speaker) != 0) fail("pthread_create");
    for (;;) {
        ssize_t count = read(line, data + held, sizeof data - (size_t)held);
        if (count <= 0) break;
        held += (int)count;
        int orders = held / ORDER;
        if (work < 0) {
            answer(line, orders);
        } else if (orders > 0) {
            work_on(orders);
            leave_to(&speaker, orders, 0);
        }
        memmove(data, data + orders * ORDER, (size_t)(held - orders * ORDER));
        held -= orders * ORDER;
    }
    if (work >= 0) {
        leave_to(&speaker, 0, 1);
        pthread_join(speaking, NULL);
    }
    close(line);
    return NULL;
}

static void echo(int port) {
    int at = socket(AF_INET, SOCK_STREAM, 0), one = 1;
    struct sockaddr_in here = {.sin_family = AF_INET, .sin_port = htons((uint16_t)port)};
    here.sin_addr.s_addr = htonl(INADDR_LOOPBACK);
    setsockopt(at, SOL_SOCKET, SO_REUSEADDR, &one, sizeof one);
    if (bind(at, (struct sockaddr *)&here, sizeof here) < 0 || listen(at, 1024) < 0) fail("listen");
    puts("listening");
    fflush(stdout);
    for (;;) {
        pthread_t thread;
        int line = accept(at, NULL, NULL);
        if (line < 0) continue;
        setsockopt(line, IPPROTO_TCP, TCP_NODELAY, &one, sizeof one);
        if (pthread_create(&thread, NULL, echo_one, (void *)(intptr_t)line) == 0) pthread_detach(thread);
    }
}

int main(int count, char **words) {
    if ((count == 3 || count == 4) && strcmp(words[1], "echo") == 0) {
        if (count == 4) work = atol(words[3]);
        echo(atoi(words[2]));
    }
    if (count != 6 && count != 7 && count != 10) return 2;
    if (count == 10) {
        page.port = atoi(words[7]);
        page.who = words[8];
        page.plan = words[9];
    }
    if (count >= 7) portion = (uint64_t)atol(words[6]) * 1000000u;
    latencies = malloc(LATENCIES * sizeof *latencies);
    drive(atoi(words[1]), atoi(words[2]), atoi(words[3]), atof(words[4]), strcmp(words[5], "cross") == 0);
    return 0;
}
