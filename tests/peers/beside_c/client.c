// Sends requests to a desk one after the other, each over its own connection. For each request,
// prints the microseconds from before the client connects until the end of the reply. Writes the
// replies to a file.
//   client PORT REQUESTS REPLIES      REQUESTS has, for each request, a line with its length, then its bytes
#include <arpa/inet.h>
#include <stdio.h>
#include <stdlib.h>
#include <sys/socket.h>
#include <time.h>
#include <unistd.h>

static double micros_now(void) {
    struct timespec now;
    clock_gettime(CLOCK_MONOTONIC, &now);
    return now.tv_sec * 1e6 + now.tv_nsec / 1e3;
}

static size_t ask(const struct sockaddr_in *address, const char *request, size_t len, char *reply, size_t room) {
    size_t taken = 0;
    int connection = socket(AF_INET, SOCK_STREAM, 0);
    if (connect(connection, (const struct sockaddr *)address, sizeof *address)) return perror("connect"), exit(1), 0;
    if (write(connection, request, len) != (ssize_t)len) return perror("write"), exit(1), 0;
    for (ssize_t came; (came = read(connection, reply + taken, room - taken)) > 0;) taken += (size_t)came;
    close(connection);
    return taken;
}

int main(int count, char **words) {
    if (count != 4) return fprintf(stderr, "usage: client PORT REQUESTS REPLIES\n"), 2;
    struct sockaddr_in address = {.sin_family = AF_INET, .sin_addr.s_addr = htonl(INADDR_LOOPBACK)};
    address.sin_port = htons((unsigned short)atoi(words[1]));
    FILE *requests = fopen(words[2], "rb"), *replies = fopen(words[3], "wb");
    if (!requests || !replies) return perror("client"), 1;
    static char request[20000], reply[4096];
    for (size_t len; fscanf(requests, "%zu", &len) == 1;) {
        fgetc(requests);
        if (len > sizeof request || fread(request, 1, len, requests) != len) return fprintf(stderr, "requests truncated\n"), 1;
        double start = micros_now();
        size_t taken = ask(&address, request, len, reply, sizeof reply);
        printf("%.1f\n", micros_now() - start);
        fwrite(reply, 1, taken, replies);
    }
    return 0;
}
