/* example ADDRESS PORT SCHEMA: asks a server twice, and writes the rows and how each query was answered.

   gcc -o example c/example.c -Ic out/sr_c.a liblibc_c.a */
#include <arpa/inet.h>
#include <stdio.h>
#include <stdlib.h>
#include <string.h>
#include <unistd.h>

#include "naworuke.h"

static uint8_t bytes[1 << 16];

static void stop(const char *what) {
    fprintf(stderr, "%s\n", what);
    exit(1);
}

/* Sends what a call left, and takes what comes until no request is out. Answers the last outcome. */
static uint32_t settle(naworuke *client, int link, naworuke_told *told) {
    size_t size = naworuke_sent(client, bytes, sizeof bytes);
    if (size > sizeof bytes || write(link, bytes, size) != (ssize_t)size) stop("link");
    while (naworuke_waits(client)) {
        uint32_t outcome = naworuke_take(client, told);
        if (outcome == NAWORUKE_WANTING) {
            ssize_t came = read(link, bytes, sizeof bytes);
            if (came <= 0 || naworuke_feed(client, bytes, came) != NAWORUKE_DONE) stop("link");
        } else if (outcome == NAWORUKE_SENT) {
            size = naworuke_sent(client, bytes, sizeof bytes);
            if (size > sizeof bytes || write(link, bytes, size) != (ssize_t)size) stop("link");
        } else if (outcome >= NAWORUKE_BAD_MESSAGE) {
            stop("frame");
        }
    }
    return told->outcome;
}

static void ask(naworuke *client, int link, const char *sql) {
    naworuke_told told;
    uint32_t outcome = naworuke_query(client, (const uint8_t *)sql, strlen(sql), &told);
    const char *how = outcome == NAWORUKE_ANSWERED ? "held" : "asked";
    if (outcome == NAWORUKE_SENT) outcome = settle(client, link, &told);
    if (outcome != NAWORUKE_ANSWERED) stop("query");
    printf("%s: %s, version %llu\n", sql, how, (unsigned long long)told.version);
    for (size_t row = 0; row < naworuke_rows(client); row++) {
        int64_t number;
        for (size_t c = 0; naworuke_cell(client, row, c, &number, bytes, sizeof bytes) != 0; c++) {
            if (naworuke_cell(client, row, c, &number, bytes, sizeof bytes) == 1) printf(" %lld", (long long)number);
            else printf(" %.*s", (int)number, (char *)bytes);
        }
        printf("\n");
    }
}

int main(int count, char **words) {
    if (count != 4) stop("example ADDRESS PORT SCHEMA");
    struct sockaddr_in at = {.sin_family = AF_INET, .sin_port = htons(atoi(words[2]))};
    int link = socket(AF_INET, SOCK_STREAM, 0);
    inet_pton(AF_INET, words[1], &at.sin_addr);
    naworuke client;
    naworuke_told told;
    naworuke_setting setting = {.client = 1, .rows = 10000, .regions = 64, .policy = 0};
    if (naworuke_open((uint8_t *)words[3], strlen(words[3]), &setting, &client, &told) != NAWORUKE_DONE) stop("schema");
    if (connect(link, (struct sockaddr *)&at, sizeof at) != 0) stop("link");
    if (naworuke_resume(&client, &told) != NAWORUKE_SENT || settle(&client, link, &told) != NAWORUKE_WELCOMED) stop("link");
    ask(&client, link, "SELECT id, amount FROM sale WHERE amount BETWEEN 0 AND 2000");
    ask(&client, link, "SELECT id FROM sale WHERE amount BETWEEN 100 AND 1500");
    naworuke_free(client);
    close(link);
    return 0;
}
