/* The call for one model, KIND and WEIGHT, over what the program has for it: ROW, a row; part, which makes the row of states as the file has them;
   join and cross, which answer 0 where a row grows too long; and of a row words, weight and meets, of term j. */
static int64_t OF(analyse)(const uint8_t *model, uint8_t *output) {
  ROW rows[NODES], work;
  size_t nodes = model[1] - 1u;
  const uint8_t *at = model + 2;
  for (size_t k = 0; k < nodes; k++) {
    char letter = (char)at[0];
    size_t count = at[1];
    const uint8_t *body = at + 2;
    at = body + (letter == 'P' ? 16 * count : count);
    if (letter == 'P') {
      if (!OF(part)(body, count, &rows[k])) return TOO_LONG;
    } else if (letter == 'B') {
      if (!OF(cross)(&rows[body[0]], &rows[body[1]], &rows[body[2]], &rows[body[3]], &rows[body[4]], &rows[k])) return TOO_LONG;
    } else {
      const ROW *left = &rows[body[0]];
      for (size_t i = 1; i < count; i++) {
        ROW *into = (count - i) % 2 ? &rows[k] : &work;
        if (!OF(join)(letter, left, &rows[body[i]], into)) return TOO_LONG;
        left = into;
      }
    }
  }
  const ROW *row = &rows[nodes - 1];
  uint8_t *to = output;
  u32 w[2];
  for (size_t i = 0; i < at[1]; i++) {
    u32 met = NONE, all = NONE;
    words_at(at + 2 + 8 * i, w);
    for (size_t j = 0; j < row->len; j++) {
      u32 weight = OF(weight)(row, j);
      all = GLUE(sum, WEIGHT)(all, weight);
      if (OF(met)(row, j, w)) met = GLUE(sum, WEIGHT)(met, weight);
    }
    to = put_need(to, w, met, all);
  }
  for (size_t j = 0; j < row->len; j++) {
    OF(words)(row, j, w);
    to = put_term(to, w, OF(weight)(row, j));
  }
  return to - output;
}
