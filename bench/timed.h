// The time that a call takes: the best of three.
// A file that includes this defines _GNU_SOURCE first.
#include <time.h>

static double seconds_of(void (*call)(void))
{
    double best = 1e9;
    for (int i = 0; i < 3; i++) {
        struct timespec a, b;
        clock_gettime(CLOCK_THREAD_CPUTIME_ID, &a);
        call();
        clock_gettime(CLOCK_THREAD_CPUTIME_ID, &b);
        double took = (b.tv_sec - a.tv_sec) + (b.tv_nsec - a.tv_nsec) * 1e-9;
        if (took < best)
            best = took;
    }
    return best;
}
