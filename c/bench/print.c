/* Printing what was measured, as text in columns. */
#include "print.h"

#include <inttypes.h>
#include <stdio.h>
#include <string.h>

/* Shown at once, as the next line may take a while. */
static void end_line(void)
{
    printf("\n");
    fflush(stdout);
}

/* --- The machine */

void print_machine(void)
{
    static const char key[] = "model name";
    char line[256];
    FILE *file = fopen("/proc/cpuinfo", "r");
    if (file == NULL)
        return;
    while (fgets(line, sizeof line, file) != NULL) {
        const char *value = strchr(line, ':');
        if (strncmp(line, key, sizeof key - 1) != 0 || value == NULL)
            continue;
        printf("processor%s", value);
        break;
    }
    fclose(file);
}

/* --- Captures */

void print_captures_heading(void)
{
    printf("\nCaptures, compared call by call; inner by its refused calls and its table at the end\n\n");
    printf("%-24s %7s %8s %5s %13s %17s %8s %7s", "capture", "calls", "bytes", "PPAs", "open streams",
           "open indications", "refused", "errors");
    end_line();
}

void print_capture(const char *name, const struct capture *capture, const struct summary *summary)
{
    double calls = (double)capture->calls;
    printf("%-24s %7zu %8zu %5u %13.1f %17.1f %8" PRIu64 " %7" PRIu64, name, capture->calls, capture_size(capture),
           summary->ppas, (double)summary->open_streams / calls, (double)summary->open_indications / calls,
           summary->refused, summary->errors);
    end_line();
}

/* --- Calls */

void print_calls_heading(unsigned rounds)
{
    printf("\nCalls: processor time, best and median of %u rounds; 'times second' over 1 is faster than second\n\n",
           rounds);
    printf("%-24s %-8s %10s %10s %15s %13s", "capture", "provider", "ns a call", "median", "calls a second",
           "times second");
    end_line();
}

void print_calls(const char *name, size_t calls, const struct times times[PROVIDERS])
{
    for (unsigned i = 0; i < PROVIDERS; i++) {
        double best = times_best(&times[i]);
        printf("%-24s %-8s %10.0f %10.0f %15.0f %13.2f", i == 0 ? name : "", provider_names[i],
               best / (double)calls * 1e9, times_median(&times[i]) / (double)calls * 1e9, (double)calls / best,
               times_best(&times[SECOND]) / best);
        end_line();
    }
}

/* --- Replay */

static double megabytes(uint64_t bytes)
{
    return (double)bytes / 1e6;
}

void print_replay_capture(uint64_t bytes, uint64_t records)
{
    printf("\nReplay of %.1f MB, %" PRIu64 " records: all programs print the same", megabytes(bytes), records);
    end_line();
}

void print_replay_heading(unsigned rounds)
{
    printf("Best and median of %u rounds; 'times first' is of processor time\n\n", rounds);
    printf("%-32s %8s %8s %8s %12s %8s %8s %12s", "program", "wall s", "median", "MB/s", "processor s", "median",
           "MB/s", "times first");
    end_line();
}

void print_replay(const char *command, uint64_t bytes, const struct replay_times *times,
                  const struct replay_times *first)
{
    double wall = times_best(&times->wall);
    double processor = times_best(&times->processor);
    printf("%-32s %8.2f %8.2f %8.1f %12.2f %8.2f %8.1f %12.2f", command, wall, times_median(&times->wall),
           megabytes(bytes) / wall, processor, times_median(&times->processor), megabytes(bytes) / processor,
           times_best(&first->processor) / processor);
    end_line();
}
