/* The relay: a small x86-64 program over the proved library, for machines of another kind.
 *
 * It answers sheets on standard input with pages on standard output until the input ends.
 * A request is three numbers of four bytes, low byte first, and the sheet: the sheet's length,
 * the page buffer's length, and 1 where the answers so far are waited for, else 0. An answer is
 * the function's result, four bytes, and as many bytes of the page. The program needs no header
 * of the machine's own C library.
 */

typedef unsigned char byte;
typedef __SIZE_TYPE__ size;

size knellnettle_page(const byte *sheet, size sheet_len, byte *page, size page_len);
long read(int file, void *to, size length);
long write(int file, const void *from, size length);

enum { HEAD = 12, SHEET_MOST = 1 << 16, GUARD = 16, GUARD_BYTE = 0x55 };

/* How the program ends. */
enum { DONE = 0, CUT_SHORT = 2, TOO_LONG = 3, NOT_WRITTEN = 4, GUARD_CHANGED = 5 };

static byte request[HEAD + SHEET_MOST];

/* The answers not yet written: each a result and a page, with the bytes that are watched behind the last. */
enum { ANSWERS_MOST = 1 << 18, BESIDE_PAGE = 4 + GUARD };
static byte answers[ANSWERS_MOST];
static size answered;

static size number(const byte *from) {
    return from[0] | (size)from[1] << 8 | (size)from[2] << 16 | (size)from[3] << 24;
}

/* Reads up to length bytes; fewer only where the input ends. */
static size fill(byte *to, size length) {
    size have = 0;
    while (have < length) {
        long more = read(0, to + have, length - have);
        if (more <= 0) break;
        have += (size)more;
    }
    return have;
}

/* Writes the answers; the result is whether it could. */
static int flush(void) {
    size done = 0;
    while (done < answered) {
        long more = write(1, answers + done, answered - done);
        if (more <= 0) return 0;
        done += (size)more;
    }
    answered = 0;
    return 1;
}

/* Answers one request that has been read; page_len bytes are lent, and the ones after them watched. */
static int reply(size sheet_len, size page_len) {
    byte *page = answers + answered + 4;
    for (size k = 0; k < GUARD; k++) page[page_len + k] = GUARD_BYTE;
    size result = knellnettle_page(request + HEAD, sheet_len, page, page_len);
    for (size k = 0; k < GUARD; k++)
        if (page[page_len + k] != GUARD_BYTE) return GUARD_CHANGED;
    if (result > page_len) return TOO_LONG;
    for (int k = 0; k < 4; k++) answers[answered + k] = (byte)(result >> 8 * k);
    answered += 4 + result;
    return DONE;
}

int main(void) {
    for (;;) {
        size have = fill(request, HEAD);
        if (have == 0) return DONE;
        if (have < HEAD) return CUT_SHORT;
        size sheet_len = number(request), page_len = number(request + 4);
        if (sheet_len > SHEET_MOST || page_len > ANSWERS_MOST - BESIDE_PAGE) return TOO_LONG;
        if (fill(request + HEAD, sheet_len) < sheet_len) return CUT_SHORT;
        if (ANSWERS_MOST - answered < page_len + BESIDE_PAGE && !flush()) return NOT_WRITTEN;
        int ended = reply(sheet_len, page_len);
        if (ended != DONE) return ended;
        int waited_for = number(request + 8) != 0;
        if (waited_for && !flush()) return NOT_WRITTEN;
    }
}
