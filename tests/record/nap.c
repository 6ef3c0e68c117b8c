/* Lets each process of a build begin late at random: preloaded by tests/record/shake. */
#include <time.h>
#include <unistd.h>

__attribute__((constructor)) static void nap(void) {
  struct timespec now;
  clock_gettime(CLOCK_MONOTONIC, &now);
  unsigned chance = (unsigned)now.tv_nsec * 2654435761u ^ (unsigned)getpid() * 40503u;
  if (chance >> 16 & 1) usleep(chance % 40000);
}
