/* The job of the engine as fast as we could make it in C (on bridges with HOLD_OUTER, but for fault sets): the same call, with no faults told.

   A performance is a whole number here, a key, whose order is that of the kind. Every model has loops of its own. In a bridge, what arms a, b, d
   and e settle is worked out before arm c is gone through. Like performances that follow one another are held back: their weights are
   summed up first, and then multiplied once, since products distribute over sums. Sums of parts are capped only at the end. A
   performance is looked up by its low bits in a table of 256 places, and what is found is sorted at the end. With HOLD_OUTER choices of a, b, d and
   e that settle the same and follow one another are held back as well, and arm c is gone through once for them. */
#include <string.h>

#include "format.h"
#include "kinds.h"
#include "vividlawn.h"

/* keys: a kind's word; the two words of a pair; 0 for out and 1 more than the number for what works */
static inline u32 word_key(const u32 *w) { return w[1]; }
static inline void word_words(u64 key, u32 *w) { w[0] = 0; w[1] = (u32)key; }
static inline u64 pair_key(const u32 *w) { return (u64)w[0] << 32 | w[1]; }
static inline void pair_words(u64 key, u32 *w) { w[0] = (u32)(key >> 32); w[1] = (u32)key; }
static inline u64 out_key(const u32 *w) { return w[0] ? 0 : (u64)w[1] + 1; }
static inline void out_words(u64 key, u32 *w) { w[0] = key == 0; w[1] = key ? (u32)(key - 1) : 0; }

static inline u64 min(u64 a, u64 b) { return a < b ? a : b; }

/* sums that are not capped: of parts there are at most 2^23 in one row, each below 2^32 */
#define Parts_SUM(a, b) ((a) + (b))
#define Scenarios_SUM(a, b) ((a) | (b))
#define Effort_SUM(a, b) min(a, b)

/* What outer arms, a, b, d and e, settle. In every numeric kind the bridge is the smaller of `most` and c + `more`, of which no more than
   `most` counts. */
typedef struct { u64 most, more; } Line;
typedef struct { u32 most, more; } BitLine;
typedef struct { u32 fault, whatever; } FaultLine;
typedef struct { Line high, low; } PairLine;

static inline Line line(u64 most, u64 more) { return (Line){most, min(more, most)}; }

static inline Line flow_line(u64 a, u64 b, u64 d, u64 e) { return line(min(min(a + b, d + e), TOP), min(a + e, b + d)); }
static inline Line delay_line(u64 a, u64 b, u64 d, u64 e) { return line(min(min(a + d, b + e), TOP), min(a + e, b + d)); }
static inline BitLine bit_line(u32 a, u32 b, u32 d, u32 e) {
  u32 most = (a | d) & (b | e);
  return (BitLine){most, (a | e) & (b | d) & most};
}
static inline FaultLine fault_line(u32 a, u32 b, u32 d, u32 e) {
  u32 fault = b | e ? (a ? a : d) : 0;
  return (FaultLine){fault, fault && (a | e) && (b | d)};
}

/* With out: the same for a c that works, in keys; and the key for a c that is out. Where arm c does not matter, `more` is as large as can be. */
typedef struct { u64 most, more, out; } OutLine;

static inline OutLine always(u64 key, u64 out) { return (OutLine){key, TOP + 1ull, out}; }
static inline OutLine below(u64 most, u64 more, u64 out) { return (OutLine){min(most, TOP) + 1, min(more, min(most, TOP)), out}; }
static inline u64 working(u64 number) { return min(number, TOP) + 1; }

static inline OutLine flow_out_line(u64 ka, u64 kb, u64 kd, u64 ke) {
  u64 a = ka - 1, b = kb - 1, d = kd - 1, e = ke - 1;
  u64 ad = min(ka, kd), be = min(kb, ke), out = !ad ? be : !be ? ad : working(ad + be - 2);
  if (!ka) {
    if (!kb || (!kd && !ke)) return always(0, 0);
    if (!kd) return always(be, out);
    return ke ? below(min(b, d + e), e, out) : below(min(b, d), 0, out);
  }
  if (!kb) {
    if (!kd && !ke) return always(0, 0);
    if (!ke) return always(ad, out);
    return kd ? below(min(a, d + e), d, out) : below(min(a, e), 0, out);
  }
  if (!kd) return ke ? below(min(a + b, e), b, out) : always(0, 0);
  if (!ke) return below(min(a + b, d), a, out);
  Line line = flow_line(a, b, d, e);
  return below(line.most, line.more, out);
}

/* An arm that is out is later than any that works. */
#define LATE (1ull << 40)

static inline OutLine delay_out_line(u64 ka, u64 kb, u64 kd, u64 ke) {
  u64 a = ka ? ka - 1 : LATE, b = kb ? kb - 1 : LATE, d = kd ? kd - 1 : LATE, e = ke ? ke - 1 : LATE;
  u64 straight = min(a + d, b + e), crossed = min(a + e, b + d), out = straight < LATE ? working(straight) : 0;
  if (crossed >= LATE) return always(out, out);
  return below(straight, crossed, out);
}

#define KIND Flow
#define WEIGHT Parts
#define KEY u32
#define KEYS word
#define SERIES(x, y) least(x, y)
#define PARALLEL(x, y) cap((u64)(x) + (y))
#define SETTLED Line
#define SETTLE flow_line
#define BRIDGE(c) (u32)min(line.most, c + line.more)
#include "best_model.h"

#define KIND Delay
#define WEIGHT Parts
#define KEY u32
#define KEYS word
#define SERIES(x, y) cap((u64)(x) + (y))
#define PARALLEL(x, y) least(x, y)
#define SETTLED Line
#define SETTLE delay_line
#define BRIDGE(c) (u32)min(line.most, c + line.more)
#include "best_model.h"

#define KIND FaultSet
#define WEIGHT Scenarios
#define KEY u32
#define KEYS word
#define SERIES(x, y) ((x) | (y))
#define PARALLEL(x, y) ((x) & (y))
#define SETTLED BitLine
#define SETTLE bit_line
#define BRIDGE(c) (line.most & (c | line.more))
#include "best_model.h"

#define KIND FirstFault
#define WEIGHT Parts
#define KEY u32
#define KEYS word
#define SERIES(x, y) ((x) ? (x) : (y))
#define PARALLEL(x, y) ((x) && (y) ? (x) : 0)
#define SETTLED FaultLine
#define SETTLE fault_line
#define BRIDGE(c) ((c | line.whatever) ? line.fault : 0)
#include "best_model.h"

#define HIGH(x) ((x) >> 32)
#define LOW(x) ((x) & TOP)
#define BOTH(x, y) ((u64)(x) << 32 | (y))
static inline PairLine pair_line(u64 a, u64 b, u64 d, u64 e) {
  return (PairLine){delay_line(HIGH(a), HIGH(b), HIGH(d), HIGH(e)), flow_line(LOW(a), LOW(b), LOW(d), LOW(e))};
}

#define KIND Pair
#define WEIGHT Effort
#define KEY u64
#define KEYS pair
#define SERIES(x, y) BOTH(min(HIGH(x) + HIGH(y), TOP), min(LOW(x), LOW(y)))
#define PARALLEL(x, y) BOTH(min(HIGH(x), HIGH(y)), min(LOW(x) + LOW(y), TOP))
#define SETTLED PairLine
#define SETTLE pair_line
#define BRIDGE(c) BOTH(min(line.high.most, HIGH(c) + line.high.more), min(line.low.most, LOW(c) + line.low.more))
#include "best_model.h"

#define KIND FlowOrOut
#define WEIGHT Parts
#define KEY u64
#define KEYS out
#define SERIES(x, y) min(x, y)
#define PARALLEL(x, y) (!(x) ? (y) : !(y) ? (x) : working((x) + (y) - 2))
#define SETTLED OutLine
#define SETTLE flow_out_line
#define BRIDGE(c) (c ? min(line.most, c + line.more) : line.out)
#include "best_model.h"

#define KIND DelayOrOut
#define WEIGHT Parts
#define KEY u64
#define KEYS out
#define SERIES(x, y) ((x) && (y) ? working((x) + (y) - 2) : 0)
#define PARALLEL(x, y) (!(x) ? (y) : !(y) ? (x) : min(x, y))
#define SETTLED OutLine
#define SETTLE delay_out_line
#define BRIDGE(c) (c ? min(line.most, c + line.more) : line.out)
#include "best_model.h"

#include "call.h"
