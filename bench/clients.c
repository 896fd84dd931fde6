/* Clients of a cluster of pcommit_node processes, of two PostgreSQL servers, or of both, for bench/cluster.py: many in one process, with as
 * little work of their own as can be. Each transaction writes a row at each of two managers, or servers.
 *
 *     clients KIND SECONDS MOST SERIAL WORDS CLIENT...
 *
 * KIND is `nodes`, `servers`, `logged` (the servers, and a log of decisions with a sync for each, one sync at a time in this process, in
 * which nothing else happens meanwhile), `threaded` (the same with a thread for each client, so that none waits for another's sync),
 * `ended` (the servers, ended by the nodes) or `timed` (as `nodes`, with names that begin with their time; whatever is answered, it goes on
 * until a node is gone, and then prints how many were committed and how many not, and nothing else). WORDS are the two servers' connection
 * strings and the log's name, before each client's number, parted by `|`, or `-`. A CLIENT is its number, and with nodes the open sockets
 * of r0, r1 and l0, as 7=4,5,6: connected, and let in where that wants a proof. The program says `ready` once the servers are connected,
 * begins at the first byte of its input, and goes on for so many seconds or until each client has made MOST transactions. Then it prints a
 * line for each, its microseconds to the outcome and to both managers' end, and last the seconds that it ran, and those of a processor that
 * it took meanwhile. */
#include <errno.h>
#include <fcntl.h>
#include <libpq-fe.h>
#include <pthread.h>
#include <stdio.h>
#include <stdlib.h>
#include <string.h>
#include <sys/epoll.h>
#include <sys/resource.h>
#include <sys/socket.h>
#include <time.h>
#include <unistd.h>

enum kind { NODES, SERVERS, LOGGED, THREADED, ENDED };
enum { MANAGERS = 2, LEADER = 2, ENDS = 3, KEYS = 64 };

/* A connection to a node or to a server, what of a line came from it, and how many answers are still to come. */
struct end {
    struct client *client;
    PGconn *server;
    char left[4096];
    size_t held;
    int socket, wanted;
};

struct times {
    unsigned outcome, both;
};

/* A client with its ends, and the times of the transactions that it has made. */
struct client {
    struct end nodes[ENDS], servers[MANAGERS];
    double begun, outcome;
    unsigned long long serial;
    unsigned number;
    int phase, log, is_committed;
    char gtrid[33], tx[64];
    struct times *times;
    size_t count, room;
};

static enum kind kind;
static double until;
static unsigned long long last_serial;
static int is_timed;
static size_t committed, others;

static void fail(const char *what, const char *why)
{
    fprintf(stderr, "clients: %s: %s\n", what, why);
    exit(1);
}

static double now(void)
{
    struct timespec at;
    clock_gettime(CLOCK_MONOTONIC, &at);
    return at.tv_sec + at.tv_nsec / 1e9;
}

/* Says what came of timed names, and ends. */
static void finish_timed(void)
{
    printf("%zu %zu\n", committed, others);
    fflush(stdout);
    _exit(0);
}

/* The seconds of a processor that this process took. */
static double processor(void)
{
    struct rusage used;
    getrusage(RUSAGE_SELF, &used);
    return used.ru_utime.tv_sec + used.ru_stime.tv_sec + (used.ru_utime.tv_usec + used.ru_stime.tv_usec) / 1e6;
}

/* Whether a client writes its decisions into a log of its own. */
static int has_log(void)
{
    return kind == LOGGED || kind == THREADED;
}

/* ---- what is asked */

static void tell(struct end *end, const char *text, int lines)
{
    size_t length = strlen(text);
    while (length) {
        ssize_t sent = send(end->socket, text, length, MSG_NOSIGNAL);
        if (sent < 0 && errno != EINTR && is_timed)
            finish_timed();
        if (sent < 0 && errno != EINTR)
            fail("a node takes no lines", strerror(errno));
        if (sent > 0)
            text += sent, length -= sent;
    }
    end->wanted += lines;
}

static void query(struct end *end, const char *text)
{
    if (!PQsendQuery(end->server, text))
        fail("a server takes no statement", PQerrorMessage(end->server));
    end->wanted = 1;
}

/* A branch at each manager: with a row, or, where a server has the row, without. */
static void ask_managers(struct client *client)
{
    char text[512];
    for (int rm = 0; rm < MANAGERS; rm++) {
        char xid[64];
        snprintf(xid, sizeof xid, kind == NODES ? "r%d 1:%s:6%d" : "r%d 1:%s:0%d", rm, client->gtrid, kind == NODES ? rm + 1 : rm);
        if (kind == NODES)
            snprintf(text, sizeof text, "start %s\nput %s %04x%02llx %08llx\nend %s\n", xid, xid, client->number, client->serial % KEYS,
                     client->serial & 0xffffffffu, xid);
        else
            snprintf(text, sizeof text, "start %s\nend %s\n", xid, xid);
        tell(&client->nodes[rm], text, kind == NODES ? 3 : 2);
    }
}

static void ask_leader(struct client *client)
{
    char text[256];
    snprintf(text, sizeof text, "commit l0 %s\nawait l0 %s\n", client->tx, client->tx);
    tell(&client->nodes[LEADER], text, 2);
}

static void await_managers(struct client *client)
{
    char text[128];
    for (int rm = 0; rm < MANAGERS; rm++) {
        snprintf(text, sizeof text, "await r%d %s\n", rm, client->tx);
        tell(&client->nodes[rm], text, 1);
    }
}

static void prepare(struct client *client)
{
    char text[512];
    for (int rm = 0; rm < MANAGERS; rm++) {
        snprintf(text, sizeof text, "BEGIN; INSERT INTO kv VALUES ('%s', 'x'); PREPARE TRANSACTION 'pcommit:%d:%s'", client->gtrid, rm,
                 client->tx);
        query(&client->servers[rm], text);
    }
}

static void commit_prepared(struct client *client)
{
    char text[256];
    if (has_log()) {
        int length = snprintf(text, sizeof text, "%s\n", client->tx);
        if (write(client->log, text, length) != length || fdatasync(client->log))
            fail("the log", strerror(errno));
    }
    client->outcome = now() - client->begun;
    for (int rm = 0; rm < MANAGERS; rm++) {
        snprintf(text, sizeof text, "COMMIT PREPARED 'pcommit:%d:%s'", rm, client->tx);
        query(&client->servers[rm], text);
    }
}

static void begin(struct client *client)
{
    client->serial++;
    client->begun = now();
    client->phase = 0;
    client->is_committed = 0;
    if (is_timed) {
        struct timespec at;
        clock_gettime(CLOCK_REALTIME, &at);
        snprintf(client->gtrid, sizeof client->gtrid, "%012llx%04x%016llx", at.tv_sec * 1000ull + at.tv_nsec / 1000000,
                 client->number & 0xffff, client->serial);
    } else {
        snprintf(client->gtrid, sizeof client->gtrid, "%04x%012llx", client->number & 0xffff, client->serial & 0xffffffffffffull);
    }
    snprintf(client->tx, sizeof client->tx, kind == NODES ? "1:%s/0=61,1=62" : "1:%s/0=00,1=01", client->gtrid);
    if (kind == NODES)
        ask_managers(client);
    else
        prepare(client);
}

/* ---- what comes */

static int is_idle(const struct client *client)
{
    for (int place = 0; place < ENDS; place++)
        if (client->nodes[place].wanted)
            return 0;
    for (int rm = 0; rm < MANAGERS; rm++)
        if (client->servers[rm].wanted)
            return 0;
    return 1;
}

/* Takes what came from a node: each line answers one. */
static void take_lines(struct end *end)
{
    ssize_t came = recv(end->socket, end->left + end->held, sizeof end->left - end->held, 0);
    if (came <= 0 && is_timed)
        finish_timed();
    if (came <= 0)
        fail("a node has gone", came ? strerror(errno) : "it closed the connection");
    char *line = end->left, *limit = end->left + end->held + came;
    for (char *lf; (lf = memchr(line, '\n', limit - line)); line = lf + 1) {
        *lf = 0;
        if (end == &end->client->nodes[LEADER] && !strcmp(line, "committed"))
            end->client->is_committed = 1;
        if (!is_timed && strcmp(line, "0") && strcmp(line, "undecided") && strcmp(line, "committed"))
            fail(end->client->tx, line);
        end->wanted--;
    }
    end->held = limit - line;
    if (end->held == sizeof end->left)
        fail(end->client->tx, "an answer is too long");
    memmove(end->left, line, end->held);
}

/* Takes what came from a server: a statement is done where no more results come. */
static void take_results(struct end *end)
{
    if (!PQconsumeInput(end->server))
        fail("a server has gone", PQerrorMessage(end->server));
    while (!PQisBusy(end->server)) {
        PGresult *result = PQgetResult(end->server);
        if (!result) {
            end->wanted = 0;
            return;
        }
        if (PQresultStatus(result) != PGRES_COMMAND_OK)
            fail(end->client->tx, PQresultErrorMessage(result));
        PQclear(result);
    }
}

static void keep(struct client *client)
{
    if (is_timed) {
        *(client->is_committed ? &committed : &others) += 1;
        return;
    }
    if (client->count == client->room) {
        client->room = client->room ? 2 * client->room : 4096;
        client->times = realloc(client->times, client->room * sizeof *client->times);
        if (!client->times)
            fail("memory", "there is no more");
    }
    struct times *times = &client->times[client->count++];
    times->outcome = 1e6 * client->outcome;
    times->both = 1e6 * (now() - client->begun);
}

/* The next step, when all answers of the last one are there. Whether a transaction has ended with it. */
static int go_on(struct client *client)
{
    client->phase++;
    if (kind == NODES && client->phase == 1) {
        ask_leader(client);
        await_managers(client);
    } else if (kind == ENDED && client->phase == 1) {
        ask_managers(client);
    } else if (kind == ENDED && client->phase == 2) {
        ask_leader(client);
    } else if ((kind == SERVERS || has_log()) && client->phase == 1) {
        commit_prepared(client);
    } else if (kind == ENDED && client->phase == 3) {
        commit_prepared(client);
    } else {
        keep(client);
        return 1;
    }
    return 0;
}

/* ---- the whole */

/* Clients by turns in one thread: a step of each whose answers are there. */
static void run(struct client *clients, int so_many)
{
    int poll = epoll_create1(0), live = so_many;
    for (int at = 0; at < so_many; at++) {
        for (int place = 0; place < ENDS + MANAGERS; place++) {
            struct end *end = place < ENDS ? &clients[at].nodes[place] : &clients[at].servers[place - ENDS];
            struct epoll_event event = {.events = EPOLLIN, .data.ptr = end};
            end->client = &clients[at];
            if (end->socket >= 0 && epoll_ctl(poll, EPOLL_CTL_ADD, end->socket, &event))
                fail("epoll", strerror(errno));
        }
        begin(&clients[at]);
    }
    while (live) {
        struct epoll_event events[64];
        int came = epoll_wait(poll, events, 64, -1);
        for (int at = 0; at < came; at++) {
            struct end *end = events[at].data.ptr;
            struct client *client = end->client;
            if (end->server)
                take_results(end);
            else
                take_lines(end);
            if (end == &client->nodes[LEADER] && kind == NODES && !end->wanted)
                client->outcome = now() - client->begun;
            if (!is_idle(client) || !go_on(client))
                continue;
            if (now() < until && client->serial < last_serial)
                begin(client);
            else
                live--;
        }
    }
}

static void *run_alone(void *client)
{
    run(client, 1);
    return 0;
}

/* Each client in a thread of its own. */
static void run_threads(struct client *clients, int so_many)
{
    pthread_t threads[so_many];
    for (int at = 0; at < so_many; at++) {
        int why = pthread_create(&threads[at], 0, run_alone, &clients[at]);
        if (why)
            fail("a thread", strerror(why));
    }
    for (int at = 0; at < so_many; at++)
        pthread_join(threads[at], 0);
}

static void connect_servers(struct client *client, char *const words[])
{
    char name[4096];
    for (int rm = 0; rm < MANAGERS; rm++) {
        struct end *end = &client->servers[rm];
        end->server = PQconnectdb(words[rm]);
        if (PQstatus(end->server) != CONNECTION_OK)
            fail("a server doesn't answer", PQerrorMessage(end->server));
        end->socket = PQsocket(end->server);
    }
    if (!has_log())
        return;
    snprintf(name, sizeof name, "%s%u", words[MANAGERS], client->number);
    client->log = open(name, O_WRONLY | O_CREAT | O_APPEND, 0600);
    if (client->log < 0)
        fail(name, strerror(errno));
}

/* The client that a word names: its number, and the sockets that it has. */
static void read_client(struct client *client, const char *word)
{
    for (int place = 0; place < ENDS; place++)
        client->nodes[place].socket = -1;
    for (int rm = 0; rm < MANAGERS; rm++)
        client->servers[rm].socket = -1;
    if (kind == NODES || kind == ENDED) {
        if (sscanf(word, "%u=%d,%d,%d", &client->number, &client->nodes[0].socket, &client->nodes[1].socket, &client->nodes[LEADER].socket)
            != 1 + ENDS)
            fail("no client and its sockets", word);
    } else if (sscanf(word, "%u", &client->number) != 1) {
        fail("no client", word);
    }
}

int main(int argc, char **argv)
{
    static const char *const KINDS[] = {"nodes", "servers", "logged", "threaded", "ended", "timed"};
    enum { FIRST = 6, TIMED = 5 };
    char *words[MANAGERS + 1] = {0}, go;
    int named = 0;
    if (argc <= FIRST)
        fail("usage", "clients KIND SECONDS MOST SERIAL WORDS CLIENT...");
    while (named <= TIMED && strcmp(argv[1], KINDS[named]))
        named++;
    if (named > TIMED)
        fail("no kind", argv[1]);
    is_timed = named == TIMED;
    kind = is_timed ? NODES : named;
    unsigned long long serial = strtoull(argv[4], 0, 10);
    last_serial = serial + strtoull(argv[3], 0, 10);
    for (int at = 0; at <= MANAGERS && kind != NODES; at++)
        words[at] = strtok(at ? 0 : argv[5], "|");
    int so_many = argc - FIRST;
    struct client *clients = calloc(so_many, sizeof *clients);
    for (int at = 0; at < so_many; at++) {
        read_client(&clients[at], argv[FIRST + at]);
        clients[at].serial = serial;
        if (kind != NODES)
            connect_servers(&clients[at], words);
    }
    puts("ready");
    fflush(stdout);
    if (read(0, &go, 1) != 1)
        return 1;
    double begun = now(), used = processor();
    until = begun + strtod(argv[2], 0);
    (kind == THREADED ? run_threads : run)(clients, so_many);
    double took = now() - begun;
    used = processor() - used;
    if (is_timed)
        finish_timed();
    for (int at = 0; at < so_many; at++)
        for (const struct times *one = clients[at].times; one < clients[at].times + clients[at].count; one++)
            printf("%u %u\n", one->outcome, one->both);
    printf("%.6f %.6f\n", took, used);
    return 0;
}
