/* Requests to valgrind's callgrind to count what runs between them. Built without its header, nothing is counted. */
#if __has_include(<valgrind/callgrind.h>)
#include <valgrind/callgrind.h>

int count_built(void)
{
    return 1;
}

void count_start(void)
{
    CALLGRIND_START_INSTRUMENTATION;
    CALLGRIND_ZERO_STATS;
}

/* Writes what was counted since the start, under this name. */
void count_stop(const char *name)
{
    CALLGRIND_STOP_INSTRUMENTATION;
    CALLGRIND_DUMP_STATS_AT(name);
}
#else
int count_built(void)
{
    return 0;
}

void count_start(void)
{
}

void count_stop(const char *name)
{
    (void)name;
}
#endif
