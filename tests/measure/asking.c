/*
 * Masters that send the same request again and again over sockets, and an answerer that is no rack, for serve_speed.py.
 *
 *   asking answer                        listens at a free port, prints it, and answers each connection
 *   asking ask COUNT PORT MASTER ..      one master for each pair; prints the nanoseconds of all their requests
 *
 * A master sends its address, gets E5, and then sends COUNT times Slave_Diag to slave 5, each once it has the reply to the one
 * before. The answerer sends E5 for the address, and for each request the reply of a slave that nobody holds.
 */
#define _POSIX_C_SOURCE 200809L

#include <arpa/inet.h>
#include <netinet/in.h>
#include <netinet/tcp.h>
#include <pthread.h>
#include <stdbool.h>
#include <stdint.h>
#include <stdio.h>
#include <stdlib.h>
#include <string.h>
#include <sys/socket.h>
#include <time.h>
#include <unistd.h>

enum { MOST_MASTERS = 16, REQUEST_LENGTH = 11, REPLY_LENGTH = 17 };

struct master {
    uint16_t port;
    uint8_t address;
    unsigned long count;
    bool answered;
};

static pthread_barrier_t ready;

static void fail(const char *what)
{
    perror(what);
    exit(1);
}

static bool read_all(int socket, uint8_t *octets, size_t length)
{
    while (length > 0) {
        ssize_t taken = read(socket, octets, length);
        if (taken <= 0)
            return false;
        octets += taken;
        length -= (size_t)taken;
    }
    return true;
}

static struct sockaddr_in loopback(uint16_t port)
{
    struct sockaddr_in address = { .sin_family = AF_INET, .sin_port = htons(port) };
    address.sin_addr.s_addr = htonl(INADDR_LOOPBACK);
    return address;
}

static void send_at_once(int socket)
{
    int on = 1;
    setsockopt(socket, IPPROTO_TCP, TCP_NODELAY, &on, sizeof on);
}

/* Slave_Diag of a master to slave 5: an SRD with the access points 60 and 62. */
static void write_request(uint8_t *request, uint8_t master)
{
    uint8_t octets[REQUEST_LENGTH] = { 0x68, 5, 5, 0x68, 0x85, (uint8_t)(0x80 | master), 0x6D, 60, 62, 0, 0x16 };
    for (int i = 4; i < 9; i++)
        octets[9] = (uint8_t)(octets[9] + octets[i]);
    memcpy(request, octets, sizeof octets);
}

static void *ask(void *argument)
{
    struct master *master = argument;
    struct sockaddr_in address = loopback(master->port);
    uint8_t request[REQUEST_LENGTH], reply[REPLY_LENGTH];
    int line = socket(AF_INET, SOCK_STREAM, 0);
    if (line < 0 || connect(line, (struct sockaddr *)&address, sizeof address) != 0)
        fail("connect");
    send_at_once(line);
    if (write(line, &master->address, 1) != 1 || !read_all(line, reply, 1) || reply[0] != 0xE5)
        fail("the address");
    write_request(request, master->address);
    pthread_barrier_wait(&ready);
    master->answered = true;
    for (unsigned long i = 0; i < master->count && master->answered; i++)
        master->answered = write(line, request, sizeof request) == sizeof request && read_all(line, reply, sizeof reply)
            && reply[0] == 0x68 && reply[REPLY_LENGTH - 1] == 0x16;
    close(line);
    return NULL;
}

static int ask_all(int words, char **word)
{
    struct master masters[MOST_MASTERS];
    pthread_t threads[MOST_MASTERS];
    struct timespec begun, ended;
    unsigned long count = strtoul(word[0], NULL, 10);
    unsigned several = (unsigned)(words - 1) / 2;
    if (several < 1 || several > MOST_MASTERS || words % 2 == 0)
        return 2;
    pthread_barrier_init(&ready, NULL, several + 1);
    for (unsigned i = 0; i < several; i++) {
        masters[i] = (struct master){ .port = (uint16_t)atoi(word[1 + 2 * i]), .address = (uint8_t)atoi(word[2 + 2 * i]), .count = count };
        if (pthread_create(&threads[i], NULL, ask, &masters[i]) != 0)
            fail("a thread");
    }
    pthread_barrier_wait(&ready);
    clock_gettime(CLOCK_MONOTONIC, &begun);
    for (unsigned i = 0; i < several; i++)
        pthread_join(threads[i], NULL);
    clock_gettime(CLOCK_MONOTONIC, &ended);
    for (unsigned i = 0; i < several; i++)
        if (!masters[i].answered)
            return 1;
    printf("%lld\n", (ended.tv_sec - begun.tv_sec) * 1000000000LL + (ended.tv_nsec - begun.tv_nsec));
    return 0;
}

static void *answer(void *argument)
{
    static const uint8_t reply_to_1[REPLY_LENGTH] = { 0x68, 11, 11, 0x68, 0x81, 0x85, 0x08, 62, 60, 2, 5, 0, 0xFF, 0x80, 0xA1, 0xAF, 0x16 };
    int line = (int)(intptr_t)argument;
    uint8_t request[REQUEST_LENGTH];
    send_at_once(line);
    if (read_all(line, request, 1) && write(line, "\xE5", 1) == 1)
        while (read_all(line, request, sizeof request) && write(line, reply_to_1, sizeof reply_to_1) == sizeof reply_to_1)
            ;
    close(line);
    return NULL;
}

static _Noreturn void answer_each(void)
{
    struct sockaddr_in address = loopback(0);
    socklen_t length = sizeof address;
    int listener = socket(AF_INET, SOCK_STREAM, 0);
    if (listener < 0 || bind(listener, (struct sockaddr *)&address, sizeof address) != 0 || listen(listener, MOST_MASTERS) != 0
        || getsockname(listener, (struct sockaddr *)&address, &length) != 0)
        fail("listen");
    printf("%d\n", ntohs(address.sin_port));
    fflush(stdout);
    for (;;) {
        pthread_t thread;
        int line = accept(listener, NULL, NULL);
        if (line < 0 || pthread_create(&thread, NULL, answer, (void *)(intptr_t)line) != 0)
            fail("accept");
        pthread_detach(thread);
    }
}

int main(int words, char **word)
{
    if (words == 2 && strcmp(word[1], "answer") == 0)
        answer_each();
    if (words >= 5 && strcmp(word[1], "ask") == 0)
        return ask_all(words - 2, word + 2);
    fprintf(stderr, "asking answer | asking ask COUNT PORT MASTER ..\n");
    return 2;
}
