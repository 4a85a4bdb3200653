/* Okwazibelu: plural words and printed numbers, by Unicode's UTS #35 Part 3.
 *
 * Every entry takes any bytes and needs nothing tested first. It answers 0, or the number of the
 * refusal. Figures come in an array of eight that the caller owns:
 *
 *   figures[0]        how many figures there are, n
 *   figures[1..n]     the figures
 *   entries past n    keep what they held
 *
 * Refusals, with their figures in brackets; docs/REFERENCE.md says more of each:
 *
 *   10  number over 64 bytes
 *   11  not the number grammar
 *   12  exponent above 14
 *   13  exponent after a zero integer part
 *   14  i, leading zeros dropped, has over 15 digits
 *   15  v above 9
 *   20  pack over 4,096 bytes
 *   21  not the pack grammar [place]
 *   22  relation value above 999,999 [place]
 *   23  modulus not listed [place]
 *   24  range a..b with a above b [place]
 *   25  keyword unknown or repeated [place]
 *   26  clause, relation or range too many [place]
 *   27  two rules met [first, second; from the check: first, second, e, v, i, f]
 *   30  pattern over 256 bytes
 *   31  pattern not UTF-8
 *   32  bare `¤`, `*`, `@`, or `E` after a number-part byte
 *   33  not the pattern grammar, or a quote left open
 *   34  over 15 integer or 9 fraction places
 *   35  step above 999,999 units of the last place
 *   36  over one percent or permille mark in a subpattern, or the two subpatterns differ in it
 *   40  symbol record: unknown kind, body cut short, or symbol twice
 *   41  symbol record: body not one UTF-8 code point, an ASCII digit, or minimum not 01 to 04
 *   50  printing a number with an exponent
 *   51  text longer than the output area [needed]
 *
 * place: where in the pack, in bytes from 0, for 24 that of b. first, second: rules, counted from 1.
 * e, v, i, f: the least number that meets both. needed: the text's length.
 *
 * A slice is a pointer and a length. Where the length is 0 the pointer is never followed and may be
 * NULL. Slices that are only read may overlap; out and figures may overlap nothing else. No entry
 * keeps a pointer, allocates, or writes anything but figures and, where okw_print answers 0, the
 * first figures[1] bytes of out.
 */
#ifndef OKWAZIBELU_H
#define OKWAZIBELU_H

#include <stddef.h>
#include <stdint.h>

#ifdef __cplusplus
extern "C" {
#endif

/* Reads a number such as `-1.50` or `1.2c6`. Figures: sign (1 where a `-` is written, else 0),
 * e, v, i, f, w, t. Refusals: 10 to 15. */
uint32_t okw_read_number(const uint8_t *number, size_t number_len, uint64_t figures[8]);

/* Chooses the number's word by a rule pack such as `one: i = 1 and v = 0; other:`. Figure: 0 zero,
 * 1 one, 2 two, 3 few, 4 many, 5 other. Refusals: 20 to 26, 10 to 15, 27 with the first two rules
 * that the number meets. */
uint32_t okw_select(const uint8_t *pack, size_t pack_len,
                    const uint8_t *number, size_t number_len,
                    uint64_t figures[8]);

/* Checks a rule pack: 0, with no figures, exactly when it is well-formed and no admitted number
 * meets two of its rules. Refusals: 20 to 26, 27 with the first such pair and its least number. */
uint32_t okw_check(const uint8_t *pack, size_t pack_len, uint64_t figures[8]);

/* Prints a number through a pattern such as `#,##0.##`, with the symbols of a symbol record (may be
 * empty) and the standard symbols where it lacks one; its kind 71 sets the minimum grouping digits,
 * 1 to 4, which are 1 without it. Figure: the text's length; the text stands at
 * the front of out. Refusals: 40 and 41, 30 to 36, 10 to 15, 50, 51; they leave out as it was. */
uint32_t okw_print(const uint8_t *symbols, size_t symbols_len,
                   const uint8_t *pattern, size_t pattern_len,
                   const uint8_t *number, size_t number_len,
                   uint8_t *out, size_t out_len,
                   uint64_t figures[8]);

#ifdef __cplusplus
}
#endif

#endif
