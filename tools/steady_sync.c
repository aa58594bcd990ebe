// A disk whose syncs all take the same time, to measure a program by: cc -O2 -shared -fPIC -o steady_sync.so steady_sync.c, and then
// SYNC_US=70 LD_PRELOAD=./steady_sync.so PROGRAM. Nothing is synced.
#define _GNU_SOURCE
#include <stdlib.h>
#include <sys/prctl.h>
#include <time.h>

int fdatasync(int file) {
  const char *given = getenv("SYNC_US");
  struct timespec time = {0, (given ? atol(given) : 70) * 1000};
  (void)file;
  prctl(PR_SET_TIMERSLACK, 1);
  return clock_nanosleep(CLOCK_MONOTONIC, 0, &time, 0);
}

int fsync(int file) { return fdatasync(file); }
