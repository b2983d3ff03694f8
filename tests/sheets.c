/* Reads and writes sheets of settings, as standard input asks for them, one request after the other, and answers each in a line.
 * model/compare --sheets writes the requests and compares the answers; model/README.md has the format. What a write may not touch is marked
 * before it and shown behind it: the room, and some bytes behind that.
 *
 * Ends with status 1 where a call wrote before the room, or where the input is no such request. */
#include <inttypes.h>
#include <stdio.h>
#include <stdlib.h>
#include <string.h>

#include "mirgalhet.h"

enum { WORDS = 15, MARGIN = 8, MARK_BYTE = 0xa5 };

static void fails(const char *words)
{
    fprintf(stderr, "sheets: %s\n", words);
    exit(1);
}

static size_t size(void)
{
    size_t n = 0;

    if (scanf("%zu", &n) != 1)
        fails("a length is missing");
    return n;
}

static int32_t number(void)
{
    int32_t n = 0;

    if (scanf("%" SCNd32, &n) != 1)
        fails("a number is missing");
    return n;
}

static void end_of_line(void)
{
    if (getchar() != '\n')
        fails("a line feed is missing");
}

/* Memory of just this size, so that a tool that watches it sees where a call goes past its end. */
static uint8_t *memory(size_t length)
{
    uint8_t *bytes = malloc(length > 0 ? length : 1);

    if (bytes == NULL)
        fails("there is no memory");
    return bytes;
}

static mirgalhet_settings settings(void)
{
    mirgalhet_settings s;

    s.t = number();
    s.skp = number();
    s.skcor = number();
    s.ski = number();
    s.ckp = number();
    s.ckcor = number();
    s.cki = number();
    s.v = number();
    s.q = number();
    s.kr = number();
    s.kt = number();
    s.kth = number();
    s.kn = number();
    s.f = number();
    s.r = number();
    return s;
}

static void show_settings(const mirgalhet_settings *s)
{
    const int32_t words[WORDS] = {s->t, s->skp, s->skcor, s->ski, s->ckp, s->ckcor, s->cki, s->v, s->q, s->kr, s->kt, s->kth, s->kn, s->f, s->r};

    for (int k = 0; k < WORDS; k++)
        printf(" %" PRId32, words[k]);
}

/* r LENGTH, a line feed and so many bytes, which may be any. */
static void read_sheet(void)
{
    const size_t length = size();
    uint8_t *text = memory(length);

    end_of_line();
    if (fread(text, 1, length, stdin) != length)
        fails("a sheet is shorter than its length");
    const mirgalhet_reading answer = mirgalhet_read_sheet(text, length);
    free(text);
    printf("%" PRId32 " %" PRId32, answer.number, answer.line);
    show_settings(&answer.settings);
    printf("\n");
}

/* w ROOM, the settings and a line feed. */
static void write_sheet(void)
{
    const size_t room = size();
    const mirgalhet_settings s = settings();
    uint8_t *bytes = memory(MARGIN + room + MARGIN);

    end_of_line();
    memset(bytes, MARK_BYTE, MARGIN + room + MARGIN);
    const mirgalhet_writing answer = mirgalhet_write_sheet(s, bytes + MARGIN, room);
    for (size_t k = 0; k < MARGIN; k++)
        if (bytes[k] != MARK_BYTE)
            fails("a write wrote before the room");
    printf("%" PRId32 " %" PRId32 " ", answer.number, answer.length);
    for (size_t k = MARGIN; k < MARGIN + room + MARGIN; k++)
        printf("%02x", bytes[k]);
    printf("\n");
    free(bytes);
}

int main(void)
{
    int kind;

    while ((kind = getchar()) != EOF)
        switch (kind) {
        case 'r': read_sheet(); break;
        case 'w': write_sheet(); break;
        default: fails("there is no such request");
        }
    return 0;
}
