// Asks a port the same command over and over: PROTOCOL PORT PROCESSES CONNECTIONS PIPELINE ROUNDS WORD..
//
// PROTOCOL is 2 or 3; with 3 each connection begins with HELLO 3. Each process has its share of the connections. In a round it writes PIPELINE commands to each connection, and then reads their answers from each,
// so that the server never waits for it. What the first answer has as its length, each has. Prints how many requests a second were answered.
#include <arpa/inet.h>
#include <netinet/tcp.h>
#include <stdio.h>
#include <stdlib.h>
#include <string.h>
#include <sys/socket.h>
#include <sys/time.h>
#include <sys/wait.h>
#include <unistd.h>

enum { MOST = 256, ROOM = 1 << 20 };

static void stop_if(int failed, const char *why)
{
    if (failed) {
        perror(why);
        exit(1);
    }
}

static double now(void)
{
    struct timeval time;
    gettimeofday(&time, NULL);
    return time.tv_sec + time.tv_usec / 1e6;
}

static int connected(int port)
{
    struct sockaddr_in address = {.sin_family = AF_INET, .sin_port = htons(port), .sin_addr.s_addr = htonl(INADDR_LOOPBACK)};
    int connection = socket(AF_INET, SOCK_STREAM, 0), one = 1;
    stop_if(connect(connection, (struct sockaddr *)&address, sizeof address) != 0, "connect");
    setsockopt(connection, IPPROTO_TCP, TCP_NODELAY, &one, sizeof one);
    return connection;
}

static void write_all(int connection, const char *bytes, size_t length)
{
    for (size_t done = 0; done < length;) {
        ssize_t count = write(connection, bytes + done, length - done);
        stop_if(count <= 0, "write");
        done += count;
    }
}

static void read_all(int connection, size_t length)
{
    static char room[ROOM];
    while (length > 0) {
        ssize_t count = read(connection, room, length < ROOM ? length : ROOM);
        stop_if(count <= 0, "read");
        length -= count;
    }
}

// The length of the first answer, which comes in one piece.
static size_t answer_length(int connection, const char *command, size_t length)
{
    char room[4096];
    write_all(connection, command, length);
    ssize_t count = read(connection, room, sizeof room);
    stop_if(count <= 0, "read");
    return count;
}

static void begin_resp3(int connection)
{
    static const char hello[] = "*2\r\n$5\r\nHELLO\r\n$1\r\n3\r\n";
    char room[4096];
    write_all(connection, hello, sizeof hello - 1);
    stop_if(read(connection, room, sizeof room) <= 0, "read");
    if (room[0] != '%') {
        fputs("the answer to HELLO 3 is no map\n", stderr);
        exit(1);
    }
}

static void ask(int protocol, int port, int connections, int pipeline, int rounds, const char *command, size_t length)
{
    int open[MOST];
    char *batch = malloc(length * pipeline);
    for (int place = 0; place < pipeline; place++)
        memcpy(batch + place * length, command, length);
    for (int place = 0; place < connections; place++) {
        open[place] = connected(port);
        if (protocol == 3)
            begin_resp3(open[place]);
    }
    size_t answer = answer_length(open[0], command, length);
    for (int round = 0; round < rounds; round++) {
        for (int place = 0; place < connections; place++)
            write_all(open[place], batch, length * pipeline);
        for (int place = 0; place < connections; place++)
            read_all(open[place], answer * pipeline);
    }
}

int main(int count, char **words)
{
    if (count < 8)
        return 2;
    int protocol = atoi(words[1]), port = atoi(words[2]), processes = atoi(words[3]);
    int connections = atoi(words[4]), pipeline = atoi(words[5]), rounds = atoi(words[6]);
    char command[4096];
    size_t length = sprintf(command, "*%d\r\n", count - 7);
    for (int place = 7; place < count; place++)
        length += sprintf(command + length, "$%zu\r\n%s\r\n", strlen(words[place]), words[place]);
    double began = now();
    for (int place = 0; place < processes; place++) {
        int share = connections / processes + (place < connections % processes);
        if (fork() == 0) {
            ask(protocol, port, share, pipeline, rounds, command, length);
            _exit(0);
        }
    }
    int failed = 0, status;
    for (int place = 0; place < processes; place++)
        failed |= wait(&status) < 0 || status != 0;
    printf("%.0f\n", (double)connections * pipeline * rounds / (now() - began));
    return failed;
}
