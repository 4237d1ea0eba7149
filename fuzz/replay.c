/* Replays inputs, each a line of digits to base 16; fails where some call is never accepted or never gives one of its refusals, or
 * the kernel's check one of its values.
 * replay INPUTS prints how often each reply came, replay INPUTS quiet does not. */
#include <signal.h>
#include <stdio.h>
#include <string.h>
#include <unistd.h>

#include "fuzz.h"

/* With coverage.c beside this file the edges are counted. */
#ifndef COVERAGE
#define note_edges() ((void)0)
#define print_edges() ((void)0)
#endif

static char line[1 << 17];
static uint8_t data[sizeof line / 2], seen[CLASSES];

/* A touch of memory that may not be touched, or a word that is not the model's, ends here. */
static void stopped(int signal_number)
{
    const char *const what = signal_number == SIGABRT ? ": differs on input " : ": memory was touched on input ";
    const char *const parts[] = {doing, what, line};
    size_t k;
    for (k = 0; k < sizeof parts / sizeof *parts; k++)
        if (write(1, parts[k], strlen(parts[k])) < 0)
            _exit(3);
    _exit(2);
}

static unsigned digit(char letter)
{
    return (unsigned)(strchr("0123456789abcdef", letter) - "0123456789abcdef");
}

/* Whether the line has pairs of digits alone; these are then the data. */
static int is_input(void)
{
    const size_t length = strlen(line) - 1;
    size_t k;
    if (length % 2 != 0 || strspn(line, "0123456789abcdef") != length)
        return 0;
    for (k = 0; k < length / 2; k++)
        data[k] = (uint8_t)(16 * digit(line[2 * k]) + digit(line[2 * k + 1]));
    return 1;
}

/* How many inputs the text has, all replayed; 0 where a line is none. */
static unsigned long replay(FILE *text)
{
    unsigned long count = 0;
    while (fgets(line, sizeof line, text) != NULL) {
        if (!is_input())
            return 0;
        check_input(data, strlen(line) / 2, seen);
        note_edges();
        count++;
    }
    return count;
}

static int is_complete(void)
{
    int call, number, complete = 1;
    for (call = 0; call < CALLS; call++)
        for (number = 0; number < REPLIES; number++)
            if (refuses(call, number) && tally[call][number] == 0) {
                printf("%s never replies %d\n", call_names[call], number);
                complete = 0;
            }
    if (shown[0] == 0 || shown[1] == 0) {
        printf("kernel_check never gives %d\n", shown[0] != 0);
        complete = 0;
    }
    return complete;
}

static unsigned classes_seen(void)
{
    unsigned count = 0, k;
    for (k = 0; k < CLASSES; k++)
        count += seen[k];
    return count;
}

int main(int count, char **names)
{
    FILE *text = count >= 2 ? fopen(names[1], "r") : NULL;
    unsigned long inputs;
    signal(SIGSEGV, stopped);
    signal(SIGBUS, stopped);
    signal(SIGABRT, stopped);
    setvbuf(stdout, NULL, _IOLBF, 0);
    inputs = text == NULL ? 0 : replay(text);
    if (inputs == 0) {
        printf("no inputs, or a line that is none\n");
        return 1;
    }
    fclose(text);
    if (count == 2)
        print_tally();
    print_edges();
    if (!is_complete())
        return 1;
    printf("replay: %lu inputs of %u classes, each at the end and at the beginning of its memory\n", inputs, classes_seen());
    return 0;
}
