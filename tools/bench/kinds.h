/* The kinds of performance and of weight in plain C, as docs/KINDS.md tells them. With SHORTCUTS the bridges are written as the engine writes
   them, so that little is left to do for each c where the other four arms stay, and these are reduced as the engine reduces them, so that many
   choices of them are alike. */
#ifndef KINDS_H
#define KINDS_H

#include <stdint.h>

#define TOP 4294967295u

typedef uint32_t u32;
typedef uint64_t u64;

static inline u32 cap(u64 n) { return n < TOP ? (u32)n : TOP; }
static inline u32 least(u32 a, u32 b) { return a < b ? a : b; }
static inline u32 least4(u32 a, u32 b, u32 c, u32 d) { return least(least(a, b), least(c, d)); }
static inline int order(u32 a, u32 b) { return a < b ? -1 : a > b; }

/* The smallest of four capped sums: of two that c has no part in, and of a-c-e and b-c-d. */
static inline u32 least_sum(u64 one, u64 other, u64 ae, u64 bd, u64 c) {
#ifdef SHORTCUTS
  return least(least(cap(one), cap(other)), cap(least(cap(ae), cap(bd)) + c));
#else
  return least4(cap(one), cap(other), cap(ae + c), cap(bd + c));
#endif
}

/* kinds that are one word */
#define WORD(K)                                                        \
  typedef struct { u32 v; } K;                                         \
  static inline int order_##K(K a, K b) { return order(a.v, b.v); }    \
  static inline uint8_t slot_##K(K a) { return (uint8_t)a.v; }         \
  static inline K K##_of(const u32 *w) { return (K){w[1]}; }           \
  static inline void K##_to(K p, u32 *w) { w[0] = 0; w[1] = p.v; }

WORD(Flow)
static inline Flow series_Flow(Flow a, Flow b) { return (Flow){least(a.v, b.v)}; }
static inline Flow parallel_Flow(Flow a, Flow b) { return (Flow){cap((u64)a.v + b.v)}; }
static inline Flow bridge_Flow(Flow a, Flow b, Flow c, Flow d, Flow e) {
  return (Flow){least_sum((u64)a.v + b.v, (u64)d.v + e.v, (u64)a.v + e.v, (u64)b.v + d.v, c.v)};
}
static inline int meets_Flow(Flow v, Flow w) { return v.v >= w.v; }

WORD(Delay)
static inline Delay series_Delay(Delay a, Delay b) { return (Delay){cap((u64)a.v + b.v)}; }
static inline Delay parallel_Delay(Delay a, Delay b) { return (Delay){least(a.v, b.v)}; }
static inline Delay bridge_Delay(Delay a, Delay b, Delay c, Delay d, Delay e) {
  return (Delay){least_sum((u64)a.v + d.v, (u64)b.v + e.v, (u64)a.v + e.v, (u64)b.v + d.v, c.v)};
}
static inline int meets_Delay(Delay v, Delay w) { return v.v <= w.v && v.v != TOP; }

WORD(FaultSet)
static inline FaultSet series_FaultSet(FaultSet a, FaultSet b) { return (FaultSet){a.v | b.v}; }
static inline FaultSet parallel_FaultSet(FaultSet a, FaultSet b) { return (FaultSet){a.v & b.v}; }
static inline FaultSet bridge_FaultSet(FaultSet a, FaultSet b, FaultSet c, FaultSet d, FaultSet e) {
#ifdef SHORTCUTS
  return (FaultSet){(a.v | d.v) & (b.v | e.v) & (((a.v | e.v) & (b.v | d.v)) | c.v)};
#else
  return (FaultSet){(a.v | d.v) & (b.v | e.v) & (a.v | c.v | e.v) & (b.v | c.v | d.v)};
#endif
}
static inline int meets_FaultSet(FaultSet v, FaultSet w) { return !(v.v & ~w.v); }

WORD(FirstFault)
static inline FirstFault series_FirstFault(FirstFault a, FirstFault b) { return a.v ? a : b; }
static inline FirstFault parallel_FirstFault(FirstFault a, FirstFault b) { return (FirstFault){a.v && b.v ? a.v : 0}; }
static inline FirstFault bridge_FirstFault(FirstFault a, FirstFault b, FirstFault c, FirstFault d, FirstFault e) {
#ifdef SHORTCUTS
  FirstFault without = parallel_FirstFault(series_FirstFault(a, d), series_FirstFault(b, e));
  FirstFault with = parallel_FirstFault(series_FirstFault(a, e), series_FirstFault(b, d));
  return c.v ? without : parallel_FirstFault(without, with);
#else
  FirstFault upper = series_FirstFault(a, d), lower = series_FirstFault(b, e);
  FirstFault down = series_FirstFault(series_FirstFault(a, c), e), up = series_FirstFault(series_FirstFault(b, c), d);
  return parallel_FirstFault(parallel_FirstFault(parallel_FirstFault(upper, lower), down), up);
#endif
}
static inline int meets_FirstFault(FirstFault v, FirstFault w) { return v.v == 0 || v.v == w.v; }

/* a delay and a flow side by side */
typedef struct { Delay first; Flow second; } Pair;
static inline int order_Pair(Pair a, Pair b) { int o = order_Delay(a.first, b.first); return o ? o : order_Flow(a.second, b.second); }
static inline uint8_t slot_Pair(Pair a) { return (uint8_t)(slot_Delay(a.first) * 17 ^ slot_Flow(a.second)); }
static inline Pair series_Pair(Pair a, Pair b) { return (Pair){series_Delay(a.first, b.first), series_Flow(a.second, b.second)}; }
static inline Pair parallel_Pair(Pair a, Pair b) { return (Pair){parallel_Delay(a.first, b.first), parallel_Flow(a.second, b.second)}; }
static inline Pair bridge_Pair(Pair a, Pair b, Pair c, Pair d, Pair e) {
  return (Pair){bridge_Delay(a.first, b.first, c.first, d.first, e.first), bridge_Flow(a.second, b.second, c.second, d.second, e.second)};
}
static inline int meets_Pair(Pair v, Pair w) { return meets_Delay(v.first, w.first) && meets_Flow(v.second, w.second); }
static inline Pair Pair_of(const u32 *w) { return (Pair){{w[0]}, {w[1]}}; }
static inline void Pair_to(Pair p, u32 *w) { w[0] = p.first.v; w[1] = p.second.v; }

/* A kind with the value out. With SHORTCUTS it is asked first whether all outer arms work, as the engine asks. */
#ifdef SHORTCUTS
#define WHERE_ALL_WORK(K, a, b, c, d, e)                                                                       \
  if (!(a.out | b.out | d.out | e.out))                                                                        \
    return (K##OrOut){0, c.out ? parallel_##K(series_##K(a.v, d.v), series_##K(b.v, e.v)) : bridge_##K(a.v, b.v, c.v, d.v, e.v)};
#else
#define WHERE_ALL_WORK(K, a, b, c, d, e)
#endif
#define OR_OUT(K)                                                                                              \
  typedef struct { u32 out; K v; } K##OrOut;                                                                   \
  static inline int order_##K##OrOut(K##OrOut a, K##OrOut b) {                                                 \
    return a.out != b.out ? (a.out ? -1 : 1) : a.out ? 0 : order_##K(a.v, b.v);                                \
  }                                                                                                            \
  static inline uint8_t slot_##K##OrOut(K##OrOut a) { return a.out ? 255 : slot_##K(a.v); }                      \
  static inline K##OrOut series_##K##OrOut(K##OrOut a, K##OrOut b) {                                           \
    if (a.out || b.out) return (K##OrOut){1, {0}};                                                             \
    return (K##OrOut){0, series_##K(a.v, b.v)};                                                                \
  }                                                                                                            \
  static inline K##OrOut parallel_##K##OrOut(K##OrOut a, K##OrOut b) {                                         \
    if (a.out) return b;                                                                                       \
    if (b.out) return a;                                                                                       \
    return (K##OrOut){0, parallel_##K(a.v, b.v)};                                                              \
  }                                                                                                            \
  static inline K##OrOut bridge_##K##OrOut(K##OrOut a, K##OrOut b, K##OrOut c, K##OrOut d, K##OrOut e) {       \
    WHERE_ALL_WORK(K, a, b, c, d, e)                                                                           \
    if (c.out) return parallel_##K##OrOut(series_##K##OrOut(a, d), series_##K##OrOut(b, e));                   \
    if (a.out) return series_##K##OrOut(b, parallel_##K##OrOut(e, series_##K##OrOut(c, d)));                   \
    if (b.out) return series_##K##OrOut(a, parallel_##K##OrOut(d, series_##K##OrOut(c, e)));                   \
    if (d.out) return series_##K##OrOut(parallel_##K##OrOut(series_##K##OrOut(a, c), b), e);                   \
    if (e.out) return series_##K##OrOut(parallel_##K##OrOut(a, series_##K##OrOut(b, c)), d);                   \
    return (K##OrOut){0, bridge_##K(a.v, b.v, c.v, d.v, e.v)};                                                 \
  }                                                                                                            \
  static inline int meets_##K##OrOut(K##OrOut v, K##OrOut w) { return !v.out && (w.out || meets_##K(v.v, w.v)); } \
  static inline K##OrOut K##OrOut_of(const u32 *w) { return (K##OrOut){w[0], {w[1]}}; }                        \
  static inline void K##OrOut_to(K##OrOut p, u32 *w) { w[0] = p.out; w[1] = p.out ? 0 : p.v.v; }

OR_OUT(Flow)
OR_OUT(Delay)

#ifdef SHORTCUTS
/* the four outer arms of a bridge, and whether two choices of them are alike */
#define OUTER(K)                                                                                                            \
  typedef struct { K a, b, d, e; } Outer_##K;                                                                                \
  static inline int like_##K(Outer_##K p, Outer_##K q) {                                                                      \
    return !order_##K(p.a, q.a) && !order_##K(p.b, q.b) && !order_##K(p.d, q.d) && !order_##K(p.e, q.e);                    \
  }

/* Reduced: what passes without c, twice, and what c adds to, of which no more than that counts. */
#define REDUCED(K, without_c, with_c)                                                                                       \
  OUTER(K)                                                                                                                  \
  static inline Outer_##K reduced_##K(K a, K b, K d, K e) {                                                                  \
    K without = without_c;                                                                                                  \
    return (Outer_##K){{0}, without, without, with_c};                                                                       \
  }

REDUCED(Flow, series_Flow(parallel_Flow(a, b), parallel_Flow(d, e)), series_Flow(series_Flow(parallel_Flow(a, e), parallel_Flow(b, d)), without))
#define WITHOUT(K) parallel_##K(series_##K(a, d), series_##K(b, e))
#define WITH(K) parallel_##K(without, parallel_##K(series_##K(a, e), series_##K(b, d)))
REDUCED(Delay, WITHOUT(Delay), WITH(Delay))
REDUCED(FaultSet, WITHOUT(FaultSet), WITH(FaultSet))
REDUCED(FirstFault, WITHOUT(FirstFault), WITH(FirstFault))

OUTER(Pair)
static inline Outer_Pair reduced_Pair(Pair a, Pair b, Pair d, Pair e) {
  Outer_Delay first = reduced_Delay(a.first, b.first, d.first, e.first);
  Outer_Flow second = reduced_Flow(a.second, b.second, d.second, e.second);
  return (Outer_Pair){{first.a, second.a}, {first.b, second.b}, {first.d, second.d}, {first.e, second.e}};
}

/* One outer arm that is out is taken for one that does as if it were not there. */
#define REDUCED_OR_OUT(K, absent)                                                                                           \
  OUTER(K##OrOut)                                                                                                           \
  static inline Outer_##K##OrOut reduced_##K##OrOut(K##OrOut a, K##OrOut b, K##OrOut d, K##OrOut e) {                       \
    if (a.out + b.out + d.out + e.out > 1) return (Outer_##K##OrOut){a, b, d, e};                                           \
    K none = {absent};                                                                                                      \
    Outer_##K inner = reduced_##K(a.out ? none : a.v, b.out ? none : b.v, d.out ? none : d.v, e.out ? none : e.v);          \
    return (Outer_##K##OrOut){{0, inner.a}, {0, inner.b}, {0, inner.d}, {0, inner.e}};                                      \
  }

REDUCED_OR_OUT(Flow, 0)
REDUCED_OR_OUT(Delay, TOP)
#endif

/* weights */
static inline u32 sum_Parts(u32 a, u32 b) { return cap((u64)a + b); }
static inline u32 times_Parts(u32 a, u32 b) { return cap((u64)a * b); }
static inline u32 sum_Scenarios(u32 a, u32 b) { return a | b; }
static inline u32 times_Scenarios(u32 a, u32 b) { return a & b; }
static inline u32 sum_Effort(u32 a, u32 b) { return least(a, b); }
static inline u32 times_Effort(u32 a, u32 b) { return cap((u64)a + b); }
enum { none_Parts = 0, none_Scenarios = 0 };
#define none_Effort TOP

#endif
