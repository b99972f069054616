// Connections that listen at a port: PORT COUNT SECONDS COMMAND [PATTERN], where COMMAND is SUBSCRIBE, PSUBSCRIBE or PING (which listens to nothing).
// A % in the pattern is each connection's number. Prints "ready" once all are answered. When the seconds are over: for each text of a message, in the order in which
// they came, "COUNT FIRST MEDIAN LAST TEXT", the times in milliseconds of the clock at which a message with it came, and "closed COUNT".
#include <arpa/inet.h>
#include <fcntl.h>
#include <stdio.h>
#include <stdlib.h>
#include <string.h>
#include <sys/epoll.h>
#include <sys/socket.h>
#include <time.h>
#include <unistd.h>

enum { TEXTS = 512, TEXT_ROOM = 256, ROOM = 1 << 16, EVENTS = 512, SHARES_PORTS = 20000 };

struct text {
    char bytes[TEXT_ROOM];
    int count;
    double *came;
};

static struct text texts[TEXTS];
static int known;

static void stop_if(int failed, const char *why)
{
    if (failed) {
        perror(why);
        exit(1);
    }
}

static double now(void)
{
    struct timespec time;
    clock_gettime(CLOCK_REALTIME, &time);
    return time.tv_sec * 1e3 + time.tv_nsec / 1e6;
}

static int by_time(const void *one, const void *other)
{
    double a = *(const double *)one, b = *(const double *)other;
    return (a > b) - (a < b);
}

// A connection whose command is answered, from an address of its own for each 20,000.
static int connected(int port, int number, const char *command, const char *pattern)
{
    struct sockaddr_in address = {.sin_family = AF_INET, .sin_port = htons(port), .sin_addr.s_addr = htonl(INADDR_LOOPBACK + number / SHARES_PORTS)};
    int connection = socket(AF_INET, SOCK_STREAM, 0);
    char name[TEXT_ROOM] = "", asked[2 * TEXT_ROOM], answer[ROOM];
    const char *mark = strchr(pattern, '%');
    if (mark)
        snprintf(name, sizeof name, "%.*s%d%s", (int)(mark - pattern), pattern, number, mark + 1);
    else
        snprintf(name, sizeof name, "%s", pattern);
    if (*name)
        snprintf(asked, sizeof asked, "*2\r\n$%zu\r\n%s\r\n$%zu\r\n%s\r\n", strlen(command), command, strlen(name), name);
    else
        snprintf(asked, sizeof asked, "*1\r\n$%zu\r\n%s\r\n", strlen(command), command);
    stop_if(connect(connection, (struct sockaddr *)&address, sizeof address) != 0, "connect");
    stop_if(write(connection, asked, strlen(asked)) < 0, "write");
    stop_if(read(connection, answer, sizeof answer) <= 0, "read");
    fcntl(connection, F_SETFL, O_NONBLOCK);
    return connection;
}

static void note(const char *bytes, size_t length, int most, double came)
{
    int place = 0;
    while (place < known && (strlen(texts[place].bytes) != length || memcmp(texts[place].bytes, bytes, length) != 0))
        place++;
    if (place == known) {
        if (known == TEXTS || length >= TEXT_ROOM)
            return;
        memcpy(texts[place].bytes, bytes, length);
        texts[place].came = calloc(most, sizeof(double));
        known++;
    }
    if (texts[place].count < most)
        texts[place].came[texts[place].count++] = came;
}

// Notes the channel and the text of each message: its last two bulk strings, with a space between.
static void note_all(char *bytes, int most, double came)
{
    for (char *at = bytes; (at = strstr(at, "message\r\n"));) {
        char *words[3], *end;
        size_t length, count = 0;
        for (at += 9; *at == '$' && count < 3;) {
            length = strtoul(at + 1, &end, 10);
            words[count++] = end + 2;
            at = end + 2 + length + 2;
        }
        if (count < 2)
            return;
        char told[2 * TEXT_ROOM], *channel = words[count - 2], *text = words[count - 1];
        int size = snprintf(told, sizeof told, "%.*s %.*s", (int)strcspn(channel, "\r"), channel, (int)strcspn(text, "\r"), text);
        note(told, size, most, came);
    }
}

int main(int count, char **words)
{
    static char bytes[ROOM];
    if (count < 5)
        return 2;
    int port = atoi(words[1]), clients = atoi(words[2]), closed = 0, waits = epoll_create1(0);
    int *all = calloc(clients, sizeof(int));
    for (int it = 0; it < clients; it++) {
        struct epoll_event event = {.events = EPOLLIN, .data.u32 = it};
        all[it] = connected(port, it, words[4], count > 5 ? words[5] : "");
        epoll_ctl(waits, EPOLL_CTL_ADD, all[it], &event);
    }
    puts("ready");
    fflush(stdout);
    double end = now() + 1e3 * atof(words[3]);
    while (now() < end) {
        struct epoll_event events[EVENTS];
        int some = epoll_wait(waits, events, EVENTS, 100);
        for (int it = 0; it < some; it++) {
            int connection = all[events[it].data.u32];
            ssize_t length = read(connection, bytes, sizeof bytes - 1);
            if (length > 0) {
                bytes[length] = 0;
                note_all(bytes, 4 * clients, now());
            } else if (length == 0) {
                epoll_ctl(waits, EPOLL_CTL_DEL, connection, NULL);
                closed++;
            }
        }
    }
    for (struct text *it = texts; it < texts + known; it++) {
        qsort(it->came, it->count, sizeof(double), by_time);
        printf("%d %.1f %.1f %.1f %s\n", it->count, it->came[0], it->came[it->count / 2], it->came[it->count - 1], it->bytes);
    }
    printf("closed %d\n", closed);
    return 0;
}
