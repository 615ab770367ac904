/* HOST:PORT, as UDP has it. */
#ifndef SHOW_ADDRESS_H
#define SHOW_ADDRESS_H

#include <stdbool.h>
#include <sys/socket.h>

typedef struct {
    struct sockaddr_storage to;
    socklen_t len;
} address;

/* One to send to: HOST:PORT or [HOST]:PORT. */
bool address_there(address *a, const char *text);
/* One to listen at: PORT of this machine alone, or ADDR:PORT. */
bool address_here(address *a, const char *text);

#endif
