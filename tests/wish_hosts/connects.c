/*
 * Notes each address that is connected to, and each name that is looked up, as a line of the file that CONNECTS names. To be
 * preloaded.
 */
#define _GNU_SOURCE
#include <arpa/inet.h>
#include <dlfcn.h>
#include <fcntl.h>
#include <netdb.h>
#include <stdio.h>
#include <stdlib.h>
#include <string.h>
#include <sys/socket.h>
#include <unistd.h>

static void tell(const char *text) {
    const char *name = getenv("CONNECTS");
    int file = name ? open(name, O_WRONLY | O_CREAT | O_APPEND, 0644) : -1;
    if (file < 0 || write(file, text, strlen(text)) < 0)
        abort();
    close(file);
}

int connect(int socket, const struct sockaddr *to, socklen_t length) {
    static int (*real)(int, const struct sockaddr *, socklen_t);
    char host[INET6_ADDRSTRLEN] = "?", line[INET6_ADDRSTRLEN + 32];
    int port = 0;
    if (!real)
        real = (int (*)(int, const struct sockaddr *, socklen_t))dlsym(RTLD_NEXT, "connect");
    if (to->sa_family == AF_INET) {
        inet_ntop(AF_INET, &((const struct sockaddr_in *)to)->sin_addr, host, sizeof host);
        port = ntohs(((const struct sockaddr_in *)to)->sin_port);
    } else if (to->sa_family == AF_INET6) {
        inet_ntop(AF_INET6, &((const struct sockaddr_in6 *)to)->sin6_addr, host, sizeof host);
        port = ntohs(((const struct sockaddr_in6 *)to)->sin6_port);
    }
    snprintf(line, sizeof line, "connect %s %d\n", host, port);
    tell(line);
    return real(socket, to, length);
}

int getaddrinfo(const char *node, const char *service, const struct addrinfo *hints, struct addrinfo **found) {
    static int (*real)(const char *, const char *, const struct addrinfo *, struct addrinfo **);
    char line[300];
    if (!real)
        real = (int (*)(const char *, const char *, const struct addrinfo *, struct addrinfo **))dlsym(RTLD_NEXT, "getaddrinfo");
    snprintf(line, sizeof line, "look %.255s\n", node ? node : "");
    tell(line);
    return real(node, service, hints, found);
}
