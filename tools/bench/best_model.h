/* The best program for one model: KIND and WEIGHT; KEY, the type of its keys, and KEYS, the name of their form; SERIES and PARALLEL of two keys;
   SETTLED, the type of what arms a, b, d and e settle, and SETTLE, which finds it; and BRIDGE, the key for a c and `line`, what is settled. */
#define OF(name) GLUE(name, KIND)
#define ROW OF(Row)
#define TABLE OF(Table)
#define TIMES GLUE(times, WEIGHT)
#define SUM GLUE(WEIGHT, SUM)
#define NONE GLUE(none, WEIGHT)

typedef struct { size_t len; KEY key[ROOM]; u32 weight[ROOM]; } ROW;

/* A key stands at its place or after it. A place that is free holds a key that belongs elsewhere, so one comparison finds it free. */
typedef struct { size_t len; KEY key[256]; u64 weight[256]; uint8_t used[256], list[ROOM], too_long; } TABLE;

static inline size_t OF(place)(KEY key) { return (size_t)(key ^ (u64)key >> 27) & 255; }

static void OF(clear)(TABLE *table) {
  table->len = table->too_long = 0;
  for (size_t i = 0; i < 256; i++) table->key[i] = (i + 1) & 255;
  memset(table->used, 0, sizeof table->used);
}

/* A key that is not at its place: 256 where it is not needed, or the table is full, which its length tells. */
static __attribute__((noinline)) size_t OF(find)(TABLE *table, KEY key, u64 weight) {
  size_t at = OF(place)(key);
  while (table->used[at]) {
    if (table->key[at] == key) return at;
    at = (at + 1) & 255;
  }
  if (weight == NONE) return 256;
  if (table->len == ROOM) { table->too_long = 1; return 256; }
  table->used[at] = 1;
  table->key[at] = key;
  table->weight[at] = NONE;
  table->list[table->len++] = (uint8_t)at;
  return at;
}

static inline __attribute__((always_inline)) void OF(add)(TABLE *table, KEY key, u64 weight) {
  size_t at = OF(place)(key);
  if (__builtin_expect(table->key[at] != key, 0)) {
    at = OF(find)(table, key, weight);
    if (at == 256) return;
  }
  table->weight[at] = SUM(table->weight[at], weight);
}

/* The row of a table, sorted; 0 where it was too long. */
static int OF(sorted)(const TABLE *table, ROW *row) {
  if (table->too_long) return 0;
  row->len = table->len;
  for (size_t i = 0; i < table->len; i++) {
    size_t at = table->list[i], j = i;
    for (; j && row->key[j - 1] > table->key[at]; j--) {
      row->key[j] = row->key[j - 1];
      row->weight[j] = row->weight[j - 1];
    }
    row->key[j] = table->key[at];
    row->weight[j] = cap(table->weight[at]);
  }
  return 1;
}

/* Goes through the terms of one list, with `key_of` an expression in `x`, the key of a term, and `w` the weight of what is before. The
   keys are found first, in a loop that the compiler can do several at a time. */
#define EACH(table, w, list, key_of)                                         \
  do {                                                                       \
    const ROW *each = list;                                                  \
    KEY keys[ROOM];                                                          \
    for (size_t each_i = 0; each_i < each->len; each_i++) {                  \
      KEY x = each->key[each_i];                                             \
      keys[each_i] = key_of;                                                 \
    }                                                                        \
    KEY held = keys[0];                                                      \
    u64 sum = each->weight[0];                                               \
    for (size_t each_i = 1; each_i < each->len; each_i++) {                  \
      if (keys[each_i] == held) sum = SUM(sum, (u64)each->weight[each_i]);   \
      else {                                                                 \
        OF(add)(table, held, TIMES(w, cap(sum)));                            \
        held = keys[each_i];                                                 \
        sum = each->weight[each_i];                                          \
      }                                                                      \
    }                                                                        \
    OF(add)(table, held, TIMES(w, cap(sum)));                                \
  } while (0)

static int OF(join)(char letter, const ROW *xs, const ROW *ys, ROW *row) {
  TABLE table;
  OF(clear)(&table);
  if (ys->len)
    for (size_t i = 0; i < xs->len; i++) {
      KEY left = xs->key[i];
      if (letter == 'S') EACH(&table, xs->weight[i], ys, SERIES(left, x));
      else EACH(&table, xs->weight[i], ys, PARALLEL(left, x));
    }
  return OF(sorted)(&table, row);
}

#define SAME_LINE(p, q) (!memcmp(&(p), &(q), sizeof(p)))

static int OF(cross)(const ROW *as, const ROW *bs, const ROW *cs, const ROW *ds, const ROW *es, ROW *row) {
  TABLE table;
  OF(clear)(&table);
  for (size_t i = 0; cs->len && es->len && i < as->len; i++)
    for (size_t j = 0; j < bs->len; j++) {
      u32 ab = TIMES(as->weight[i], bs->weight[j]);
      if (ab == NONE) continue;
      for (size_t k = 0; k < ds->len; k++) {
        u32 abd = TIMES(ab, ds->weight[k]);
        if (abd == NONE) continue;
        KEY a = as->key[i], b = bs->key[j], d = ds->key[k];
#ifdef HOLD_OUTER
        SETTLED line = SETTLE(a, b, d, es->key[0]);
        u64 outer = es->weight[0];
        for (size_t l = 1; l < es->len; l++) {
          SETTLED next = SETTLE(a, b, d, es->key[l]);
          if (SAME_LINE(line, next)) outer = SUM(outer, (u64)es->weight[l]);
          else {
            EACH(&table, TIMES(abd, cap(outer)), cs, BRIDGE(x));
            line = next;
            outer = es->weight[l];
          }
        }
        EACH(&table, TIMES(abd, cap(outer)), cs, BRIDGE(x));
#else
        for (size_t l = 0; l < es->len; l++) {
          u32 abde = TIMES(abd, es->weight[l]);
          if (abde == NONE) continue;
          SETTLED line = SETTLE(a, b, d, es->key[l]);
          EACH(&table, abde, cs, BRIDGE(x));
        }
#endif
      }
    }
  return OF(sorted)(&table, row);
}

static int OF(part)(const uint8_t *body, size_t count, ROW *row) {
  TABLE table;
  u32 w[2];
  OF(clear)(&table);
  for (size_t i = 0; i < count; i++) {
    words_at(body + 16 * i, w);
    OF(add)(&table, GLUE(KEYS, key)(w), weight_at(body + 16 * i));
  }
  return OF(sorted)(&table, row);
}

static inline u32 OF(weight)(const ROW *row, size_t j) { return row->weight[j]; }
static inline void OF(words)(const ROW *row, size_t j, u32 *w) { GLUE(KEYS, words)(row->key[j], w); }
static inline int OF(met)(const ROW *row, size_t j, const u32 *w) {
  u32 v[2];
  OF(words)(row, j, v);
  return OF(meets)(FROM_WORDS(KIND)(v), FROM_WORDS(KIND)(w));
}

#include "nodes.h"

#undef OF
#undef ROW
#undef TABLE
#undef TIMES
#undef SUM
#undef NONE
#undef EACH
#undef KIND
#undef WEIGHT
#undef KEY
#undef KEYS
#undef SERIES
#undef PARALLEL
#undef SETTLED
#undef SETTLE
#undef SAME_LINE
#undef BRIDGE
