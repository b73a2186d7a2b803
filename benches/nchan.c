/* Puts nginx with nchan under load, on loopback. Subscribers of one channel receive by long-polling what publishers send to it.
   Each client has one connection, and one request at a time.

   usage: nchan PORT SUBSCRIBERS PUBLISHERS EVENTS        (EVENTS: the number of publishes in all)

   It prints the number of events that the subscribers received, and how many that is a second. The status is 0 if each
   subscriber received each event, and 1 if not, or if a connection broke. */
#define _GNU_SOURCE
#include <arpa/inet.h>
#include <err.h>
#include <errno.h>
#include <netinet/tcp.h>
#include <stdio.h>
#include <stdlib.h>
#include <string.h>
#include <sys/epoll.h>
#include <sys/socket.h>
#include <time.h>
#include <unistd.h>

/* How long the clients wait for a response, and for the first requests to be held, in milliseconds. */
enum { PATIENCE = 3000, SETTLING = 500 };

/* A client. `tag` and `modified` name the last event that a subscriber received, as nchan sent them. */
struct client {
    int socket, is_publisher, used;
    char tag[128], modified[128], input[65536];
};

static int subscribers, publishers;
static long events, sent, accepted, received;

static double now(void) {
    struct timespec time;
    clock_gettime(CLOCK_MONOTONIC, &time);
    return time.tv_sec + time.tv_nsec / 1e9;
}

/* Sends a client's next request, unless a publisher has nothing left to send. */
static void ask(struct client *client) {
    char data[128], request[1024];
    int length;
    if (client->is_publisher) {
        if (sent >= events) return;
        int size = snprintf(data, sizeof data, "{\"channel\":\"/load\",\"data\":{\"n\":%ld,\"pad\":\"%040d\"}}", sent++, 0);
        length = snprintf(request, sizeof request,
            "POST /publish HTTP/1.1\r\nHost: a\r\nContent-Type: application/json\r\nContent-Length: %d\r\n\r\n%s", size, data);
    } else if (client->tag[0]) {
        length = snprintf(request, sizeof request, "GET /subscribe HTTP/1.1\r\nHost: a\r\nIf-None-Match: %s\r\nIf-Modified-Since: %s\r\n\r\n",
            client->tag, client->modified);
    } else {
        length = snprintf(request, sizeof request, "GET /subscribe HTTP/1.1\r\nHost: a\r\n\r\n");
    }
    if (write(client->socket, request, length) != length) err(1, "write");
}

/* Copies the value of the field `name` of a response's head to `value`, which stays as it is if there is no such field. */
static void copy_field(const char *head, const char *name, char *value, size_t room) {
    const char *found = strcasestr(head, name);
    if (!found) return;
    found += strlen(name);
    size_t length = strcspn(found, "\r\n");
    snprintf(value, room, "%.*s", (int)length, found);
}

/* Takes a complete response from the client's input, and sends the next request. Returns 0 if no response is complete. */
static int take(struct client *client) {
    char *body = strstr(client->input, "\r\n\r\n"), length[32] = "0";
    if (!body) return 0;
    body[2] = 0;
    copy_field(client->input, "\r\nContent-Length: ", length, sizeof length);
    int size = body + 4 - client->input + atoi(length), status = atoi(client->input + 9);
    if (client->used < size) return body[2] = '\r', 0;
    if (status / 100 != 2) errx(1, "status %d", status);
    if (client->is_publisher) {
        accepted++;
    } else {
        received++;
        copy_field(client->input, "\r\nEtag: ", client->tag, sizeof client->tag);
        copy_field(client->input, "\r\nLast-Modified: ", client->modified, sizeof client->modified);
    }
    client->used -= size;
    memmove(client->input, client->input + size, client->used + 1);
    ask(client);
    return 1;
}

/* Reads what has arrived for a client. */
static void serve(struct client *client) {
    for (;;) {
        int size = recv(client->socket, client->input + client->used, sizeof client->input - 1 - client->used, MSG_DONTWAIT);
        if (size < 0 && errno == EAGAIN) return;
        if (size <= 0) errx(1, "a connection ended");
        client->used += size;
        client->input[client->used] = 0;
        while (take(client)) {}
    }
}

static void connect_client(struct client *client, int port, int poll) {
    struct sockaddr_in address = {.sin_family = AF_INET, .sin_port = htons(port), .sin_addr.s_addr = htonl(INADDR_LOOPBACK)};
    struct epoll_event event = {.events = EPOLLIN, .data.ptr = client};
    int one = 1;
    client->socket = socket(AF_INET, SOCK_STREAM, 0);
    if (connect(client->socket, (void *)&address, sizeof address)) err(1, "connect");
    setsockopt(client->socket, IPPROTO_TCP, TCP_NODELAY, &one, sizeof one);
    epoll_ctl(poll, EPOLL_CTL_ADD, client->socket, &event);
}

int main(int count, char **args) {
    if (count != 5) return fprintf(stderr, "usage: nchan PORT SUBSCRIBERS PUBLISHERS EVENTS\n"), 2;
    subscribers = atoi(args[2]), publishers = atoi(args[3]), events = atol(args[4]);
    int poll = epoll_create1(0), all = subscribers + publishers, ready;
    struct client *clients = calloc(all, sizeof *clients);
    struct epoll_event found[256];
    for (int i = 0; i < all; i++) {
        clients[i].is_publisher = i >= subscribers;
        connect_client(&clients[i], atoi(args[1]), poll);
        if (i < subscribers) ask(&clients[i]);
    }
    usleep(SETTLING * 1000);
    double start = now();
    for (int i = subscribers; i < all; i++) ask(&clients[i]);
    while (received < events * subscribers || accepted < events) {
        if ((ready = epoll_wait(poll, found, 256, PATIENCE)) <= 0) break;
        for (int i = 0; i < ready; i++) serve(found[i].data.ptr);
    }
    printf("events: %ld, %.0f a second\n", received, received / (now() - start));
    return received != events * subscribers;
}
