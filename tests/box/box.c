/* box RECORD_FILE SECONDS: a box that can be run. It serves one record on a free TCP port of 127.0.0.1, which it prints as `port N`,
 * one request at a time, until the seconds have passed or a signal ends it. The record is in RECORD_FILE: a box that was ended, at any
 * moment, comes back with it. Where there is no such file the box is new. C99 and POSIX, with the calls of include/box_firmware.h. */
#include "box_firmware.h"

#include <arpa/inet.h>
#include <errno.h>
#include <fcntl.h>
#include <libgen.h>
#include <poll.h>
#include <signal.h>
#include <stdio.h>
#include <stdlib.h>
#include <string.h>
#include <sys/socket.h>
#include <unistd.h>

#define CONNECTIONS 16 /* one for each station that a floor may have */

/* A connection has an input of its own, so that half a frame of one station holds up no other. */
struct connection {
    size_t got; /* how many bytes of the next frame are there */
    uint8_t input[FRAME_MOST_BYTES];
};

static uint8_t record[BOX_RECORD_BYTES]; /* all 0 at first */
static const char *record_file;
static char new_file[4096];
static int folder; /* that of both files */

static void stop(const char *why) {
    fprintf(stderr, "box: %s: %s\n", record_file, why);
    exit(1);
}

/* [serve] */
/* A box that comes back goes on with what the file holds. So the new bytes are on the disk before the file becomes them, and its new
 * place in the folder is, before an answer is sent. A box that cannot keep its record does not answer: to the floor it is away. */
static void save(void) {
    int file = open(new_file, O_WRONLY | O_CREAT | O_TRUNC, 0666);
    if (file < 0 || write(file, record, sizeof record) != (ssize_t)sizeof record || fsync(file) != 0 || close(file) != 0 ||
        rename(new_file, record_file) != 0 || fsync(folder) != 0)
        stop("the record was not saved");
}

/* The two length bytes, and then as many as they say. No byte of the next frame is fetched, so frames may come split or joined. */
static size_t wanted(const struct connection *c) {
    return c->got < 2 ? 2 : 2 + ((size_t)c->input[0] << 8 | c->input[1]);
}

/* Fetches what has come and, where that makes a request whole, serves it. Answers 0 where the connection is to be closed. */
static int serve(int fd, struct connection *c) {
    uint8_t before[BOX_RECORD_BYTES], answer[FRAME_MOST_BYTES];
    size_t size, sent = 0;
    ssize_t n = recv(fd, c->input + c->got, wanted(c) - c->got, 0);
    if (n <= 0) return n < 0 && errno == EAGAIN;
    c->got += (size_t)n;
    if (wanted(c) > sizeof c->input) return 0;
    if (c->got < wanted(c)) return 1;

    memcpy(before, record, sizeof record);
    if (box_serve(record, sizeof record, c->input, c->got, answer, sizeof answer, &size) != BOX_DONE) return 0;
    if (memcmp(before, record, sizeof record) != 0) save(); /* before the answer: what a station was told is never lost */
    for (; sent < size; sent += (size_t)n)
        if ((n = send(fd, answer + sent, size - sent, MSG_NOSIGNAL)) < 0) return 0;
    c->got = 0;
    return 1;
}
/* [/serve] */

/* Any 12 bytes are a record. A file of another size is none, and a box that has lost its record stays away. */
static void load(void) {
    uint8_t bytes[BOX_RECORD_BYTES + 1];
    FILE *file = fopen(record_file, "rb");
    if (file == NULL && errno == ENOENT) return;
    if (file == NULL) stop(strerror(errno));
    if (fread(bytes, 1, sizeof bytes, file) != sizeof record) stop("this is no record of 12 bytes");
    memcpy(record, bytes, sizeof record);
    fclose(file);
}

static int listen_on_free_port(void) {
    struct sockaddr_in address = {.sin_family = AF_INET, .sin_addr.s_addr = htonl(INADDR_LOOPBACK)}; /* port 0: a free one */
    socklen_t size = sizeof address;
    int listener = socket(AF_INET, SOCK_STREAM, 0);
    if (listener < 0 || bind(listener, (struct sockaddr *)&address, size) != 0 || listen(listener, CONNECTIONS) != 0 ||
        getsockname(listener, (struct sockaddr *)&address, &size) != 0 || fcntl(listener, F_SETFL, O_NONBLOCK) != 0)
        stop(strerror(errno));
    printf("port %u\n", (unsigned)ntohs(address.sin_port));
    if (fflush(stdout) != 0) stop("the port was not printed");
    return listener;
}

/* The file holds a whole record at every moment, so a box may end at any. */
static void ended(int why) {
    (void)why;
    _exit(0);
}

int main(int argc, char **argv) {
    struct connection all[CONNECTIONS];
    struct pollfd watched[CONNECTIONS + 1]; /* the last is the listener; one below 0 is not watched */
    int i, s, seconds = argc == 3 ? atoi(argv[2]) : 0;
    record_file = argc == 3 ? argv[1] : "";
    if (seconds <= 0 || strlen(record_file) + sizeof ".new" > sizeof new_file) stop("usage: box RECORD_FILE SECONDS");
    load();
    if ((folder = open(dirname(strcpy(new_file, record_file)), O_RDONLY)) < 0) stop("its folder was not opened");
    strcat(strcpy(new_file, record_file), ".new");
    signal(SIGTERM, ended);
    signal(SIGALRM, ended);
    alarm((unsigned)seconds);
    for (i = 0; i <= CONNECTIONS; i++) watched[i] = (struct pollfd){.fd = -1, .events = POLLIN};
    watched[CONNECTIONS].fd = listen_on_free_port();
    for (;;) {
        if (poll(watched, CONNECTIONS + 1, -1) < 0) continue;
        for (i = 0; i < CONNECTIONS; i++)
            if (watched[i].revents != 0 && !serve(watched[i].fd, &all[i])) {
                close(watched[i].fd);
                watched[i].fd = -1;
            }
        if (watched[CONNECTIONS].revents == 0 || (s = accept(watched[CONNECTIONS].fd, NULL, NULL)) < 0) continue;
        for (i = 0; i < CONNECTIONS && watched[i].fd >= 0;) i++;
        /* Not blocking: a station that does not fetch its answers is cut off, and holds up no other. */
        if (i < CONNECTIONS && fcntl(s, F_SETFL, O_NONBLOCK) == 0) {
            watched[i].fd = s;
            all[i].got = 0;
        } else {
            close(s);
        }
    }
}
