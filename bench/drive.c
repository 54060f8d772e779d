/*
 * Drives the program as a client does: it writes a line, waits for the reply, and only then writes the next, and tells how
 * long that took.
 *
 *     drive [-o] PROGRAM WORD.. <SCRIPT
 *
 * A line of the script that begins with # names the section that begins there. With -o the program is first waited for to
 * write a line of its own (`vvols run`), which is the section `opening`. For each section one line is printed: its name, the
 * lines in it, the seconds that they took, the seconds of the quickest, and the peak of the program's resident memory so far,
 * in KiB. The status is 1 where the program went away or a reply was a refusal, unless the section's name begins with !.
 */
#define _GNU_SOURCE
#include <stdio.h>
#include <stdlib.h>
#include <string.h>
#include <sys/types.h>
#include <sys/wait.h>
#include <time.h>
#include <unistd.h>

static double now(void)
{
    struct timespec at;
    clock_gettime(CLOCK_MONOTONIC, &at);
    return at.tv_sec + at.tv_nsec / 1e9;
}

static long peak(pid_t child)
{
    char path[64], text[256];
    long found = 0;
    snprintf(path, sizeof path, "/proc/%d/status", (int)child);
    FILE *status = fopen(path, "r");
    while (status && fgets(text, sizeof text, status))
        sscanf(text, "VmHWM: %ld", &found);
    if (status)
        fclose(status);
    return found;
}

static struct {
    char name[128];
    long lines;
    double seconds, quickest;
} section;

static int failed;
static char *reply;
static size_t room;

static void begin(const char *name)
{
    snprintf(section.name, sizeof section.name, "%s", name);
    section.name[strcspn(section.name, "\n")] = 0;
    section.lines = 0;
    section.seconds = section.quickest = 0;
}

static void end(pid_t child)
{
    if (section.lines)
        printf("%s\t%ld\t%.6f\t%.6f\t%ld\n", section.name, section.lines, section.seconds, section.quickest, peak(child));
    fflush(stdout);
}

/* Waits for a line of the program. */
static int answered(FILE *from, double since)
{
    ssize_t n = getline(&reply, &room, from);
    double took = now() - since;
    if (n <= 0)
        return 0;
    section.quickest = section.lines && section.quickest < took ? section.quickest : took;
    section.lines++;
    section.seconds += took;
    if (section.name[0] != '!' && strstr(n > 4096 ? reply + n - 4096 : reply, "\"ok\":false")) {
        fprintf(stderr, "drive: %s: %.300s\n", section.name, reply);
        failed = 1;
    }
    return 1;
}

int main(int argc, char **argv)
{
    int opens = argc > 1 && !strcmp(argv[1], "-o"), to[2], from[2];
    char **words = argv + 1 + opens;
    if (!*words || pipe(to) || pipe(from))
        return 2;
    double start = now();
    pid_t child = fork();
    if (!child) {
        dup2(to[0], 0);
        dup2(from[1], 1);
        close(to[0]), close(to[1]), close(from[0]), close(from[1]);
        execv(*words, words);
        _exit(127);
    }
    close(to[0]), close(from[1]);
    FILE *out = fdopen(to[1], "w"), *in = fdopen(from[0], "r");
    char *line = NULL;
    size_t length = 0;
    ssize_t n;
    begin("opening");
    if (opens && !answered(in, start))
        failed = 1;
    while (!failed && (n = getline(&line, &length, stdin)) > 0) {
        if (line[0] == '#') {
            end(child);
            begin(line + 1 + strspn(line + 1, " "));
            continue;
        }
        double since = now();
        if (fwrite(line, 1, n, out) != (size_t)n || fflush(out) || !answered(in, since))
            failed = 1;
    }
    end(child);
    fclose(out);
    int status = 0;
    waitpid(child, &status, 0);
    if (failed || status)
        fprintf(stderr, "drive: the program ended with %#x in %s\n", status, section.name);
    return failed || status;
}
