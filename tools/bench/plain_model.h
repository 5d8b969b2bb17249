/* The plain program for one model, KIND and WEIGHT: each combination is looked up by a binary search in the row so far, and added or
   put in. With SHORTCUTS it does what the engine does: it looks first where the last performance of that slot was merged, then at the next
   place; goes no further with arms whose product weighs nothing; takes arm c of a bridge last; and holds back like performances that
   follow one another, to sum their weights up before they are multiplied, and so outer arms of a bridge that are alike once they are reduced. */
#define OF(name) GLUE(name, KIND)
#define TERM OF(Term)
#define ROW OF(Row)
#define TIMES GLUE(times, WEIGHT)
#define SUM GLUE(sum, WEIGHT)
#define NONE GLUE(none, WEIGHT)

typedef struct { KIND p; u32 w; } TERM;
typedef struct { size_t len; uint8_t seen[256]; TERM terms[ROOM]; } ROW;

static inline void OF(empty)(ROW *row) {
  row->len = 0;
#ifdef SHORTCUTS
  memset(row->seen, 0, sizeof row->seen);
#endif
}

/* Answers 0 where the row grows too long. */
static int OF(merge)(ROW *row, KIND p, u32 w) {
#ifdef SHORTCUTS
  uint8_t *seen = &row->seen[OF(slot)(p)];
  for (size_t at = *seen; at < row->len && at < *seen + 2u; at++)
    if (OF(order)(row->terms[at].p, p) == 0) {
      row->terms[at].w = SUM(row->terms[at].w, w);
      *seen = (uint8_t)at;
      return 1;
    }
#endif
  if (w == NONE) return 1;
  size_t low = 0, high = row->len;
  while (low < high) {
    size_t middle = low + (high - low) / 2;
    if (OF(order)(row->terms[middle].p, p) < 0) low = middle + 1; else high = middle;
  }
#ifdef SHORTCUTS
  *seen = (uint8_t)low;
#endif
  if (low < row->len && OF(order)(row->terms[low].p, p) == 0) {
    row->terms[low].w = SUM(row->terms[low].w, w);
    return 1;
  }
  if (row->len == ROOM) return 0;
  memmove(row->terms + low + 1, row->terms + low, (row->len - low) * sizeof row->terms[0]);
  row->terms[low] = (TERM){p, w};
  row->len++;
  return 1;
}

#ifdef SHORTCUTS
/* Goes through the terms of a list, with `joined` an expression in `x`, the performance of a term, and `weight` that of what is before. */
#define EACH(row, weight, list, joined)                                                     \
  do {                                                                                      \
    if ((weight) == NONE || !(list)->len) break;                                            \
    KIND x = (list)->terms[0].p;                                                            \
    TERM held = {joined, (list)->terms[0].w};                                               \
    for (size_t each = 1; each < (list)->len; each++) {                                     \
      x = (list)->terms[each].p;                                                            \
      KIND now = joined;                                                                    \
      if (OF(order)(now, held.p) == 0) held.w = SUM(held.w, (list)->terms[each].w);         \
      else {                                                                                \
        if (!OF(merge)(row, held.p, TIMES(weight, held.w))) return 0;                       \
        held = (TERM){now, (list)->terms[each].w};                                          \
      }                                                                                     \
    }                                                                                       \
    if (!OF(merge)(row, held.p, TIMES(weight, held.w))) return 0;                           \
  } while (0)

static int OF(join)(char letter, const ROW *xs, const ROW *ys, ROW *row) {
  OF(empty)(row);
  for (size_t i = 0; i < xs->len; i++) {
    TERM s = xs->terms[i];
    if (letter == 'S') EACH(row, s.w, ys, OF(series)(s.p, x));
    else EACH(row, s.w, ys, OF(parallel)(s.p, x));
  }
  return 1;
}

/* All of arm c with outer arms, which weigh abde. */
static int OF(through)(OF(Outer) o, u32 abde, const ROW *c, ROW *row) {
  EACH(row, abde, c, OF(bridge)(o.a, o.b, x, o.d, o.e));
  return 1;
}

static int OF(cross)(const ROW *a, const ROW *b, const ROW *c, const ROW *d, const ROW *e, ROW *row) {
  OF(empty)(row);
  for (size_t i = 0; i < a->len; i++)
    for (size_t j = 0; j < b->len; j++) {
      u32 ab = TIMES(a->terms[i].w, b->terms[j].w);
      if (ab == NONE) continue;
      for (size_t k = 0; k < d->len; k++) {
        u32 abd = TIMES(ab, d->terms[k].w);
        if (abd == NONE || !e->len) continue;
        OF(Outer) held = OF(reduced)(a->terms[i].p, b->terms[j].p, d->terms[k].p, e->terms[0].p);
        u32 sum = e->terms[0].w;
        for (size_t l = 1; l < e->len; l++) {
          OF(Outer) now = OF(reduced)(a->terms[i].p, b->terms[j].p, d->terms[k].p, e->terms[l].p);
          if (OF(like)(now, held)) sum = SUM(sum, e->terms[l].w);
          else {
            if (!OF(through)(held, TIMES(abd, sum), c, row)) return 0;
            held = now;
            sum = e->terms[l].w;
          }
        }
        if (!OF(through)(held, TIMES(abd, sum), c, row)) return 0;
      }
    }
  return 1;
}
#undef EACH
#else
static int OF(join)(char letter, const ROW *x, const ROW *y, ROW *row) {
  OF(empty)(row);
  for (size_t i = 0; i < x->len; i++)
    for (size_t j = 0; j < y->len; j++) {
      TERM s = x->terms[i], t = y->terms[j];
      KIND p = letter == 'S' ? OF(series)(s.p, t.p) : OF(parallel)(s.p, t.p);
      if (!OF(merge)(row, p, TIMES(s.w, t.w))) return 0;
    }
  return 1;
}

static int OF(cross)(const ROW *a, const ROW *b, const ROW *c, const ROW *d, const ROW *e, ROW *row) {
  OF(empty)(row);
  for (size_t i = 0; i < a->len; i++)
    for (size_t j = 0; j < b->len; j++)
      for (size_t k = 0; k < c->len; k++)
        for (size_t l = 0; l < d->len; l++) {
          u32 abcd = TIMES(TIMES(TIMES(a->terms[i].w, b->terms[j].w), c->terms[k].w), d->terms[l].w);
          for (size_t m = 0; m < e->len; m++) {
            KIND p = OF(bridge)(a->terms[i].p, b->terms[j].p, c->terms[k].p, d->terms[l].p, e->terms[m].p);
            if (!OF(merge)(row, p, TIMES(abcd, e->terms[m].w))) return 0;
          }
        }
  return 1;
}
#endif

static int OF(part)(const uint8_t *body, size_t count, ROW *row) {
  u32 w[2];
  OF(empty)(row);
  for (size_t i = 0; i < count; i++) {
    words_at(body + 16 * i, w);
    if (!OF(merge)(row, FROM_WORDS(KIND)(w), weight_at(body + 16 * i))) return 0;
  }
  return 1;
}

static inline u32 OF(weight)(const ROW *row, size_t j) { return row->terms[j].w; }
static inline void OF(words)(const ROW *row, size_t j, u32 *w) { TO_WORDS(KIND)(row->terms[j].p, w); }
static inline int OF(met)(const ROW *row, size_t j, const u32 *w) { return OF(meets)(row->terms[j].p, FROM_WORDS(KIND)(w)); }

#include "nodes.h"

#undef OF
#undef TERM
#undef ROW
#undef TIMES
#undef SUM
#undef NONE
#undef KIND
#undef WEIGHT
