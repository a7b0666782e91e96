/* ask - a query over a blocking socket: ask HOST PORT TEXT QUERY prints the rows with bars between their values.
 * Built by: cc -Iinclude examples/c/ask.c $(pkg-config --cflags --libs hothummei) */
#include <hothummei.h>

#include <netdb.h>
#include <stdio.h>
#include <string.h>
#include <sys/random.h>
#include <sys/socket.h>
#include <unistd.h>

static int dial(const char *host, const char *port) {
    struct addrinfo hints = {.ai_socktype = SOCK_STREAM}, *found = NULL;
    int fd = -1;
    if (getaddrinfo(host, port, &hints, &found) != 0) return -1;
    for (struct addrinfo *at = found; at != NULL && fd < 0; at = at->ai_next) {
        fd = socket(at->ai_family, at->ai_socktype, at->ai_protocol);
        if (fd >= 0 && connect(fd, at->ai_addr, at->ai_addrlen) != 0) { close(fd); fd = -1; }
    }
    freeaddrinfo(found);
    return fd;
}

/* Sends what is to be sent, and takes what comes, until the session is done or fails. */
static uint32_t hold(hothummei *s, int fd) {
    static unsigned char bytes[65536];
    uint32_t code = hothummei_start(s, UINT64_MAX);
    for (;;) {
        struct hothummei_value out;
        while (hothummei_pending(s, &out) == HOTHUMMEI_OK && out.len > 0) {
            ssize_t n = send(fd, out.at, out.len, MSG_NOSIGNAL);
            if (n < 0) return code != HOTHUMMEI_OK ? code : HOTHUMMEI_IO_ERROR;
            hothummei_sent(s, (size_t)n);
        }
        if (code != HOTHUMMEI_OK || hothummei_phase(s) == HOTHUMMEI_DONE) return code;
        ssize_t n = recv(fd, bytes, sizeof bytes, 0);
        if (n < 0) return HOTHUMMEI_IO_ERROR;
        code = n == 0 ? hothummei_at_end(s) : hothummei_take(s, bytes, (size_t)n);
    }
}

static void show(struct hothummei_value v) {
    if (v.null) fputs("NULL", stdout);
    else fwrite(v.at, 1, v.len, stdout);
}

/* The rows of the one answer, or the server's error. */
static int print(hothummei *s) {
    struct hothummei_answer answer;
    struct hothummei_result result = {0};
    struct hothummei_row row;
    struct hothummei_value message = {0};
    if (hothummei_answer(s, 0, &answer) != HOTHUMMEI_OK) return 1;
    if (answer.kind == HOTHUMMEI_REMOTE) {
        if (hothummei_answer_field(s, 0, 'M', &message) == HOTHUMMEI_OK) fprintf(stderr, "%.*s\n", (int)message.len, message.at);
        return 1;
    }
    for (size_t at = 0; at < answer.results; at++) {
        if (hothummei_result(s, 0, at, &result) != HOTHUMMEI_OK) return 1;
        for (size_t r = 0; r < result.rows; r++) {
            if (hothummei_row(s, 0, at, r, &row) != HOTHUMMEI_OK) return 1;
            for (size_t c = 0; c < row.count; c++) { if (c > 0) putchar('|'); show(row.values[c]); }
            putchar('\n');
        }
    }
    return 0;
}

int main(int argc, char **argv) {
    unsigned char nonce[18];
    struct hothummei_value why = {0};
    int fd, status = 1;
    uint32_t code;
    if (argc != 5) { fputs("ask HOST PORT TEXT QUERY\n", stderr); return 2; }
    if (getrandom(nonce, sizeof nonce, 0) != (ssize_t)sizeof nonce || (fd = dial(argv[1], argv[2])) < 0) { perror("ask"); return 1; }
    hothummei *s = hothummei_new();
    code = hothummei_connection(s, argv[3], strlen(argv[3]), nonce);
    if (code == HOTHUMMEI_OK) code = hothummei_simple(s, argv[4], strlen(argv[4]));
    if (code == HOTHUMMEI_OK) code = hold(s, fd);
    if (code == HOTHUMMEI_OK) status = print(s);
    else {
        if (hothummei_sentence(s, &why) != HOTHUMMEI_OK) why.len = 0;
        fprintf(stderr, "%s: %.*s\n", hothummei_code_name(code), (int)why.len, why.at == NULL ? (const unsigned char *)"" : why.at);
    }
    hothummei_free(s);
    close(fd);
    return status;
}
