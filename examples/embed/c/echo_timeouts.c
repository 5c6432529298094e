/* An echo server on one thread, with timers: a connection from which nothing comes for a while is closed, and the server's heart
 * beats at a fixed rate. It waits in poll(2) until the next of them is due. Its clients are three processes that it starts itself. */
#define _POSIX_C_SOURCE 200809L
#include "timers.h"
#include <arpa/inet.h>
#include <inttypes.h>
#include <netinet/in.h>
#include <poll.h>
#include <stdio.h>
#include <stdlib.h>
#include <sys/socket.h>
#include <sys/wait.h>
#include <time.h>
#include <unistd.h>

#define MILLISECOND UINT64_C(1000000)
#define IDLE (1000 * MILLISECOND)
#define BEAT (20 * MILLISECOND)

enum { CONNECTIONS = 8, CLIENTS = 3, HEART = CONNECTIONS };

/* Sends so many bytes, one after the other, each once the one before has come back and a pause is over. Then it hangs up, or waits
 * until the server does. */
static const struct { const char *name; int bytes; int pause_ms; bool waits; } clients[CLIENTS] = {
    {"talker", 12, 100, false}, {"one byte", 1, 0, true}, {"silent", 0, 0, true}};

typedef struct connection {
    int socket; /* -1: there is none */
    timers_ref timeout;
} connection;

typedef struct server {
    int listener;
    timers_slot timers;
    connection connections[CONNECTIONS];
    unsigned accepted, timed_out, renewed, beats;
    uint64_t last_beat; /* the moment at which it was due */
    bool steady;        /* each beat was due one period after the one before */
} server;

static void demand(bool holds, const char *what) {
    if (holds) return;
    perror(what);
    exit(1);
}

static void done(timers_status status, const char *what) {
    if (status == TIMERS_DONE) return;
    fprintf(stderr, "%s: %s\n", what, timers_status_text(status));
    exit(1);
}

static uint64_t now(void) {
    struct timespec time;
    demand(clock_gettime(CLOCK_MONOTONIC, &time) == 0, "clock");
    return (uint64_t)time.tv_sec * 1000 * MILLISECOND + (uint64_t)time.tv_nsec;
}

/* A socket that listens at a port of this machine alone, which the system chooses. */
static int listen_here(struct sockaddr_in *address) {
    socklen_t size = sizeof *address;
    int listener = socket(AF_INET, SOCK_STREAM, 0);
    *address = (struct sockaddr_in){.sin_family = AF_INET, .sin_addr.s_addr = htonl(INADDR_LOOPBACK)};
    demand(listener >= 0 && bind(listener, (struct sockaddr *)address, size) == 0 && listen(listener, CONNECTIONS) == 0, "listen");
    demand(getsockname(listener, (struct sockaddr *)address, &size) == 0, "listen");
    return listener;
}

/* What a client does. Answers how many bytes came back, and -1 where the server hung up too early, or did not. */
static int talk(const struct sockaddr_in *address, int bytes, int pause_ms, bool waits) {
    const struct timespec pause = {0, pause_ms * (long)MILLISECOND};
    int stream = socket(AF_INET, SOCK_STREAM, 0);
    char byte = 'x';
    demand(stream >= 0 && connect(stream, (const struct sockaddr *)address, sizeof *address) == 0, "connect");
    for (int sent = 0; sent < bytes; sent++) {
        nanosleep(&pause, NULL);
        if (send(stream, &byte, 1, MSG_NOSIGNAL) != 1 || recv(stream, &byte, 1, 0) != 1) return -1;
    }
    return waits && recv(stream, &byte, 1, 0) != 0 ? -1 : bytes;
}

static pid_t start(int client, int listener, const struct sockaddr_in *address) {
    pid_t process = fork();
    demand(process >= 0, "fork");
    if (process > 0) return process;
    close(listener);
    _exit(talk(address, clients[client].bytes, clients[client].pause_ms, clients[client].waits));
}

/* The timeout of a connection begins anew. */
static void submit_timeout(server *s, uint32_t place) {
    done(timers_schedule(&s->timers, now(), IDLE, place, &s->connections[place].timeout), "timeout");
}

static void cancel_timeout(server *s, uint32_t place) {
    uint32_t effect;
    done(timers_cancel(&s->timers, s->connections[place].timeout, &effect), "cancel");
    s->renewed += effect == TIMERS_CANCEL_YES;
}

static void hang_up(server *s, uint32_t place) {
    close(s->connections[place].socket);
    s->connections[place].socket = -1;
}

static void take_connection(server *s) {
    uint32_t place = 0;
    while (place < CONNECTIONS && s->connections[place].socket >= 0) place++;
    int stream = accept(s->listener, NULL, NULL);
    demand(stream >= 0 && place < CONNECTIONS, "accept");
    s->connections[place].socket = stream;
    s->accepted++;
    submit_timeout(s, place);
}

/* Sends back what came from a connection, or hangs up where that has ended. */
static void echo(server *s, uint32_t place) {
    char bytes[256];
    ssize_t count = recv(s->connections[place].socket, bytes, sizeof bytes, 0);
    cancel_timeout(s, place);
    if (count <= 0 || send(s->connections[place].socket, bytes, (size_t)count, MSG_NOSIGNAL) != count) hang_up(s, place);
    else submit_timeout(s, place);
}

static void beat(server *s, const timers_run *run) {
    s->steady = s->steady && (run->run == 0 || run->due == s->last_beat + BEAT);
    s->last_beat = run->due;
    s->beats++;
}

/* Runs each task that is due. */
static void run_due(server *s) {
    timers_run run;
    timers_end end;
    while (timers_poll(&s->timers, now(), 0, &run) == TIMERS_DONE) {
        if (run.data == HEART) {
            beat(s, &run);
        } else {
            hang_up(s, (uint32_t)run.data);
            s->timed_out++;
        }
        done(timers_finish(&s->timers, now(), 0, 0, &end), "finish");
    }
}

/* How many milliseconds poll(2) may wait: rounded up, so that it does not wake before the next task is due. */
static int wait_ms(server *s) {
    uint64_t due, time = now();
    done(timers_next_due(&s->timers, &due), "next due");
    return due <= time ? 0 : (int)((due - time + MILLISECOND - 1) / MILLISECOND);
}

/* Waits until something comes, or is due, and serves it. */
static void serve(server *s) {
    struct pollfd polled[CONNECTIONS + 1];
    for (uint32_t place = 0; place < CONNECTIONS; place++) polled[place] = (struct pollfd){s->connections[place].socket, POLLIN, 0};
    polled[CONNECTIONS] = (struct pollfd){s->listener, POLLIN, 0};
    demand(poll(polled, CONNECTIONS + 1, wait_ms(s)) >= 0, "poll");
    for (uint32_t place = 0; place < CONNECTIONS; place++)
        if (polled[place].revents != 0) echo(s, place);
    if (polled[CONNECTIONS].revents != 0) take_connection(s);
    run_due(s);
}

static bool is_over(const server *s) {
    for (uint32_t place = 0; place < CONNECTIONS; place++)
        if (s->connections[place].socket >= 0) return false;
    return s->accepted == CLIENTS;
}

static void tell_clients(const pid_t *processes) {
    for (int client = 0; client < CLIENTS; client++) {
        int status;
        demand(waitpid(processes[client], &status, 0) == processes[client], "wait");
        bool good = WIFEXITED(status) && WEXITSTATUS(status) == clients[client].bytes;
        const char *ended = clients[client].waits ? "the server hung up" : "each byte came back";
        printf("%s: %s\n", clients[client].name, good ? ended : "failed");
    }
}

int main(void) {
    server s = {.timers = TIMERS_EMPTY, .steady = true};
    struct sockaddr_in address;
    pid_t processes[CLIENTS];
    timers_ref heart;
    timers_gone gone;
    for (uint32_t place = 0; place < CONNECTIONS; place++) s.connections[place].socket = -1;
    s.listener = listen_here(&address);
    for (int client = 0; client < CLIENTS; client++) processes[client] = start(client, s.listener, &address);
    done(timers_new(&s.timers, 1), "new");
    done(timers_set_policy(&s.timers, now(), TIMERS_POLICY_REMOVE, true), "policy");
    done(timers_rate(&s.timers, now(), BEAT, BEAT, HEART, &heart), "heart");
    while (!is_over(&s)) serve(&s);
    tell_clients(processes);
    printf("%u connections, %u timed out, %u timeouts cancelled\n", s.accepted, s.timed_out, s.renewed);
    printf("the heart beat%s at a fixed rate\n", s.steady && s.beats >= IDLE / BEAT ? "" : ", and not");
    done(timers_shutdown_now(&s.timers, now()), "shutdown");
    for (size_t place = 0; timers_ended(&s.timers, place, &gone) == TIMERS_DONE; place++)
        printf("ended: %s\n", gone.data == HEART ? "the heart" : "a timeout");
    close(s.listener);
    done(timers_free(&s.timers), "free");
    return 0;
}
