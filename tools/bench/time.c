/* Times a call of vividlawn_analyse, whoever has it, on one model file.

     time FILE SECONDS

   It calls until the seconds are over, three times at least, and prints the best time of a call in nanoseconds, the number of calls, and the
   most memory that the process had, in KiB; then the report, or the fault as a number below 0. */
#include <stdio.h>
#include <stdlib.h>
#include <sys/resource.h>
#include <time.h>

#include "vividlawn.h"

static double now(void) {
  struct timespec t;
  clock_gettime(CLOCK_MONOTONIC, &t);
  return t.tv_sec + t.tv_nsec * 1e-9;
}

int main(int argc, char **argv) {
  static uint8_t model[50001], report[VIVIDLAWN_LONGEST_REPORT];
  FILE *file = argc == 3 ? fopen(argv[1], "rb") : NULL;
  if (!file) {
    fprintf(stderr, "usage: time FILE SECONDS\n");
    return 2;
  }
  size_t len = fread(model, 1, sizeof model, file);
  fclose(file);
  double best = 1e9, until = now() + atof(argv[2]);
  int64_t answer = 0;
  int calls = 0;
  while (calls < 3 || now() < until) {
    double start = now();
    answer = vividlawn_analyse(model, len, report, sizeof report);
    double took = now() - start;
    if (took < best) best = took;
    calls++;
  }
  struct rusage usage;
  getrusage(RUSAGE_SELF, &usage);
  printf("%.0f %d %ld\n", best * 1e9, calls, usage.ru_maxrss);
  if (answer > 0) fwrite(report, 1, (size_t)answer, stdout);
  else printf("%lld\n", (long long)answer);
  return 0;
}
