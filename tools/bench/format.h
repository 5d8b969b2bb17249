/* Model files and reports, as docs/FILES.md tells them: what both C programs use. Files are taken as good ones. */
#ifndef FORMAT_H
#define FORMAT_H

#include <stddef.h>
#include <stdint.h>

#define NODES 48
#define ROOM 64
#define DEMANDS 16
#define TOO_LONG (-1) /* the answer where a row is too long; the C programs tell no other fault */

static inline uint32_t word_at(const uint8_t *b) { return (uint32_t)b[0] << 24 | (uint32_t)b[1] << 16 | (uint32_t)b[2] << 8 | b[3]; }

/* the two words of a performance, and the weight after it, of which four bytes are 0 */
static inline void words_at(const uint8_t *b, uint32_t *w) { w[0] = word_at(b); w[1] = word_at(b + 4); }
static inline uint32_t weight_at(const uint8_t *b) { return word_at(b + 12); }

static inline uint8_t *put_text(uint8_t *to, const char *text) {
  while (*text) *to++ = (uint8_t)*text++;
  return to;
}

static inline uint8_t *put_number(uint8_t *to, uint32_t n) {
  uint8_t digits[10];
  size_t len = 0;
  do digits[len++] = (uint8_t)('0' + n % 10); while (n /= 10);
  while (len) *to++ = digits[--len];
  return to;
}

static inline uint8_t *put_need(uint8_t *to, const uint32_t *w, uint32_t met, uint32_t all) {
  to = put_number(put_text(to, "need "), w[0]);
  to = put_number(put_text(to, " "), w[1]);
  to = put_number(put_text(to, " met "), met);
  to = put_number(put_text(to, " of "), all);
  return put_text(to, "\n");
}

static inline uint8_t *put_term(uint8_t *to, const uint32_t *w, uint32_t weight) {
  to = put_number(put_text(to, "term "), w[0]);
  to = put_number(put_text(to, " "), w[1]);
  to = put_number(put_text(to, " "), weight);
  return put_text(to, "\n");
}

#define GLUED(a, b) a##_##b
#define GLUE(a, b) GLUED(a, b)
#define FROM_WORDS(K) GLUE(K, of)
#define TO_WORDS(K) GLUE(K, to)

#endif
