/* A client of naworuke: a cache that keeps the rows of queries, and answers what they cover without asking the server.

   The library does not open sockets. The caller sends the bytes that a call leaves (naworuke_sent) over its link, gives it the
   bytes that come (naworuke_feed), and lets it take the messages among them (naworuke_take) until the outcome is what it waits for.
   c/example.c does so.

   Texts and bytes are a pointer, which is never NULL, and a length; no text ends with a NUL. A naworuke is a client from
   naworuke_open that is not freed, used by one call at a time. docs/EMBEDDING.md says what of this is proved. */
#ifndef NAWORUKE_H
#define NAWORUKE_H

#include <stdbool.h>
#include <stddef.h>
#include <stdint.h>

typedef struct naworuke {
    void *client;
} naworuke;

/* The number of the client, 1 to 64; how many rows it keeps, up to 200,000, and regions, up to 1,024; and which go first: 0, those not
   used for the longest time, or 1, those farthest from the last answer. */
typedef struct naworuke_setting {
    uint32_t client, rows, regions, policy;
} naworuke_setting;

/* What a call did: the outcome, which is answered too, and the numbers that stand beside the outcomes below. */
typedef struct naworuke_told {
    uint32_t outcome, why;
    uint64_t at, number, version;
} naworuke_told;

/* A region that is kept: its table, counted from 0, its columns as bits, when it was last used, and how many rows it has. */
typedef struct naworuke_region {
    uint32_t table, columns;
    uint64_t stamp, rows;
} naworuke_region;

enum {
    NAWORUKE_DONE = 0,
    NAWORUKE_ANSWERED = 1,     /* number: of the query; version: of which the rows are */
    NAWORUKE_SENT = 2,         /* bytes are to be sent; number: of the request */
    NAWORUKE_BUSY = 3,         /* nothing was done, since a request is out; number: of that */
    NAWORUKE_DOWN = 4,         /* nothing was done, since the link is cut; number: of the cut */
    NAWORUKE_SQL = 5,          /* the text is refused; why: the number of the fault; at: its place */
    NAWORUKE_UP = 6,           /* nothing was done, since the link is up */
    NAWORUKE_CUT = 7,          /* number: of the cut */
    NAWORUKE_ALREADY_CUT = 8,  /* number: of the last cut */
    NAWORUKE_DROPPED = 9,
    NAWORUKE_NO_SUCH = 10,     /* number: how many regions there are */
    NAWORUKE_EXPLAINED = 11,   /* version: that of the client */
    NAWORUKE_WANTING = 12,     /* more bytes have to come */
    NAWORUKE_KEPT_BACK = 13,   /* the message waits for the last one of its request */
    NAWORUKE_APPLIED = 14,     /* version: that of the client from now on */
    NAWORUKE_FORGOT = 15,      /* all that was held is dropped; version: as above */
    NAWORUKE_WRITTEN = 16,     /* number: of the request; version: as above */
    NAWORUKE_REFUSED = 17,     /* the server refuses the write; number: of the request; why and at: as of NAWORUKE_SQL */
    NAWORUKE_WELCOMED = 18,    /* number: 1 where what was held is kept, else 0; version: as above */
    NAWORUKE_BAD_MESSAGE = 19, /* what came must be refused; why: 1 direction, 2 state, 3 number, 4 version, 5 shape */
    NAWORUKE_BAD_FRAME = 20,   /* what came is no frame; why: 2 its length, 3 its kind, 4 a field; at: that, or the field's place */
    NAWORUKE_NO_MEMORY = 21,   /* memory was refused: cut the link */
    NAWORUKE_WORN = 22,        /* the client has done all steps that it can */
    NAWORUKE_BAD_TEXT = 23,    /* the text is no UTF-8; at: the first bad byte */
    NAWORUKE_OUT_OF_RANGE = 24, /* a number of the setting, or the length of the schema */
    NAWORUKE_BAD_LINE = 25,    /* number: the line of the schema; at: the byte of the line */
    NAWORUKE_BAD_CREATE = 26   /* number: the line of the schema; why and at: as of NAWORUKE_SQL */
};

/* A client over the tables of a schema, the CREATE lines that the server has. Its link is down. */
uint32_t naworuke_open(const uint8_t *schema, size_t length, const naworuke_setting *setting, naworuke *client, naworuke_told *told);

/* Lets go of a client, which is none from then on. Nothing is sent. */
void naworuke_free(naworuke client);

/* Judges a query. It is answered at once, or its rest is to be sent, unless a request is out or the link is cut. */
uint32_t naworuke_query(naworuke *client, const uint8_t *sql, size_t length, naworuke_told *told);

/* The text of a write is to be sent, unless a request is out or the link is cut. */
uint32_t naworuke_write(naworuke *client, const uint8_t *sql, size_t length, naworuke_told *told);

/* Says how a query would be answered, in lines that naworuke_text has. Nothing else changes. */
uint32_t naworuke_explain(naworuke *client, const uint8_t *sql, size_t length, naworuke_told *told);

/* Drops the region of that number, counted from 0, unless a request is out. */
uint32_t naworuke_evict(naworuke *client, size_t number, naworuke_told *told);

/* The link was cut: the request that is out ends, and so does what came and was not taken. What is held stays. */
uint32_t naworuke_cut(naworuke *client, naworuke_told *told);

/* Begins a session over a new link: its first message is to be sent. */
uint32_t naworuke_resume(naworuke *client, naworuke_told *told);

/* These bytes came over the link. NAWORUKE_DONE or NAWORUKE_NO_MEMORY. */
uint32_t naworuke_feed(naworuke *client, const uint8_t *bytes, size_t length);

/* Takes the next message among the bytes that came, if it is whole. */
uint32_t naworuke_take(naworuke *client, naworuke_told *told);

/* How many bytes the last call that changed anything leaves to be sent; they go into the room where that is long enough. */
uint64_t naworuke_sent(naworuke *client, uint8_t *room, size_t length);

/* How many rows the last answer has. */
uint64_t naworuke_rows(naworuke *client);

/* A cell of the last answer: 1 a number, 2 a text, whose length is the number and which goes into the room where that is long enough, 3 NULL,
   0 none. */
uint32_t naworuke_cell(naworuke *client, size_t row, size_t column, int64_t *number, uint8_t *room, size_t length);

/* Makes bytes of the last answer for naworuke_text: for each row the number of its cells, in four bytes, and each cell, a byte 0 and
   eight bytes of a number, a byte 1, four bytes of a length and a text, or a byte 2 of NULL. Numbers have the highest byte first. */
uint32_t naworuke_pack(naworuke *client);

/* How many bytes the lines of the last explanation have, or the rows that were packed since; they go into the room as above. */
uint64_t naworuke_text(naworuke *client, uint8_t *room, size_t length);

/* The version of which the regions have the rows. */
uint64_t naworuke_version(naworuke *client);

/* How many rows the regions have. */
uint64_t naworuke_kept(naworuke *client);

/* Whether a request is out. */
bool naworuke_waits(naworuke *client);

/* How many regions are kept. */
uint64_t naworuke_regions(naworuke *client);

/* The region of that number, counted from 0. False where there is none. */
bool naworuke_region_at(naworuke *client, size_t number, naworuke_region *region);

#endif
