/* The C interface of the proved library: one function that runs a sheet and prints its page. */

#ifndef KNELLNETTLE_H
#define KNELLNETTLE_H

#include <stddef.h>
#include <stdint.h>

#ifdef __cplusplus
extern "C" {
#endif

/* A page buffer of this many bytes is never too short, whatever the sheet: PAGE_MOST of crates/report. */
#define KNELLNETTLE_PAGE_BYTES 21504

/*
 * Runs the sheet with a trail of its own and writes the page that document 01 fixes:
 * the records, the seats and the verdict, or one line `refused NUMBER PLACE`.
 *
 *   sheet, sheet_len   the sheet's bytes, as they came: every sequence of bytes has a page.
 *                      They are only read.
 *   page, page_len     the buffer for the page.
 *
 * The result is the page's length in bytes, never above KNELLNETTLE_PAGE_BYTES; the page
 * stands in page[0] up to page[result - 1]. It is ASCII, every line ends with one line feed,
 * and no zero byte follows it: to use it as a C string, add the zero yourself and lend the
 * function one byte less than you have.
 *
 * The result is 0 where the page does not fit page_len bytes. No page is empty, so 0 stands
 * for nothing else. What the buffer holds is then not to be used.
 *
 * Neither pointer may be null, also where its length is 0. The two areas must not overlap.
 * The function keeps nothing between calls and allocates nothing; threads may call it at the
 * same time, each with a page buffer of its own.
 *
 * Link with crates/cabi/out/libcabi.a, which `rt lib` in crates/cabi builds (x86-64 Linux):
 *
 *   cc -O2 -Icompare program.c crates/cabi/out/libcabi.a -o program
 */
size_t knellnettle_page(const uint8_t *sheet, size_t sheet_len, uint8_t *page, size_t page_len);

#ifdef __cplusplus
}
#endif

#endif
