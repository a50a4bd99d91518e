/*
 * Makes every call of the header with what bytes by chance choose: texts, tables, files and numbers of every kind, in
 * buffers beside pages that cannot be touched. Where a call returns no number of the header, reads or writes elsewhere,
 * changes what it may not, answers another thing the second time, or comes to no end in 20 seconds, the bytes are kept in
 * a file, and the program ends.
 *
 * usage: calls SEED CASES SECONDS FOLDER     so many cases, or for so many seconds; what is wrong goes to the folder
 *        calls replay FILE..                 cases that were kept
 *
 * The last line is 'N passed, M failed'.
 */
#define _POSIX_C_SOURCE 200809L
#include "calls.h"
#include "chosen.h"
#include "lent.h"

#include <bisquemop.h>
#include <fcntl.h>
#include <signal.h>
#include <stdio.h>
#include <stdlib.h>
#include <string.h>
#include <time.h>
#include <unistd.h>

enum { INPUT_MAX = 1024, SECONDS_OF_A_CASE = 20, CALLS_MAX = 32, NUMBERS_MAX = 13 };

/* The case at hand, and where it is kept if something is wrong. */
static uint8_t input[INPUT_MAX];
static size_t input_len;
static char kept[4096];

/* ---- what is wrong */

/* Keeps the case, by calls that a signal's handler may make. */
static void keep_case(void)
{
    int file = kept[0] ? open(kept, O_WRONLY | O_CREAT | O_TRUNC, 0644) : -1;
    if (file >= 0) {
        ssize_t written = write(file, input, input_len);
        (void)written;
        close(file);
    }
}

static void say_at_once(const char *words)
{
    ssize_t written = write(STDERR_FILENO, words, strlen(words));
    (void)written;
}

static void stopped(int number)
{
    keep_case();
    say_at_once(number == SIGALRM ? "calls: a call came to no end" : "calls: a call was stopped");
    say_at_once(kept[0] ? "; the case is kept in " : "");
    say_at_once(kept);
    say_at_once("\n");
    _exit(1);
}

static void watch_for_stops(void)
{
    static const int numbers[] = {SIGSEGV, SIGBUS, SIGILL, SIGFPE, SIGTRAP, SIGABRT, SIGALRM};
    for (size_t k = 0; k < sizeof numbers / sizeof numbers[0]; k++) {
        signal(numbers[k], stopped);
    }
}

/* ---- a case */

/* How often each call returned each number. */
static unsigned long returned[CALLS_MAX][NUMBERS_MAX];

static int is_known(uint32_t number)
{
    return number <= BISQUEMOP_RETIRED_SETTING && number != 7;
}

/* The call is made twice, and what its value held before is another thing the second time, so that who does not write it
   is found. Answers NULL, or what is wrong. */
static const char *try_call(unsigned call)
{
    uint64_t value;
    uint32_t number, again;
    keep_held();
    number = make(call);
    if (!is_known(number)) {
        return "it returned no number of the header";
    }
    returned[call][number]++;
    if (said_wrong()) {
        return said_wrong();
    }
    if (!all_is_kept()) {
        return "it changed what it may not";
    }
    value = *WIDE_AT(VALUE);
    put_back();
    *WIDE_AT(VALUE) = ~value;
    again = make(call);
    if (again != number || *WIDE_AT(VALUE) != value) {
        return "it answered another thing the second time";
    }
    return all_is_kept() ? NULL : "it changed what it may not the second time";
}

/* The thirteen numbers as a struct: the top is their two's complement. */
static const char *try_settings(void)
{
    uint32_t numbers[BISQUEMOP_SETTINGS_NUMBERS];
    struct bisquemop_settings s;
    for (size_t k = 0; k < BISQUEMOP_SETTINGS_NUMBERS; k++) {
        numbers[k] = any32();
    }
    s = bisquemop_settings_from(numbers);
    return memcmp(&s, numbers, sizeof s) == 0 ? NULL : "the struct has not the numbers that were handed out";
}

/* Tries the input. Answers whether nothing was wrong. */
static int try_input(void)
{
    const char *wrong;
    unsigned call;
    choose_by(input, input_len);
    call = below(calls() + 1);
    alarm(SECONDS_OF_A_CASE);
    if (call == calls()) {
        wrong = try_settings();
    } else {
        prepare(call);
        wrong = try_call(call);
    }
    alarm(0);
    if (wrong) {
        keep_case();
        fprintf(stderr, "calls: bisquemop_%s: %s%s%s\n", call < calls() ? call_name(call) : "settings_from", wrong,
                kept[0] ? "; the case is kept in " : "", kept);
    }
    return !wrong;
}

/* ---- cases by chance, and those that were kept */

static uint64_t state;

static uint64_t next_chance(void)
{
    state ^= state << 13;
    state ^= state >> 7;
    state ^= state << 17;
    return state >> 16;
}

static void draw_input(void)
{
    input_len = 16 + next_chance() % (INPUT_MAX - 16);
    for (size_t k = 0; k < input_len; k++) {
        input[k] = (uint8_t)next_chance();
    }
}

/* Says of a call how often it returned what, and answers whether it was done now and then, and refused. */
static int was_tried(unsigned call)
{
    unsigned long refused = 0;
    fprintf(stderr, "calls: bisquemop_%s: done %lu", call_name(call), returned[call][0]);
    for (int number = 1; number < NUMBERS_MAX; number++) {
        refused += returned[call][number];
        if (returned[call][number] > 0) {
            fprintf(stderr, ", %d: %lu", number, returned[call][number]);
        }
    }
    fprintf(stderr, "\n");
    return returned[call][0] > 0 && refused > 0;
}

/* In so many cases every call has to have been tried well. */
enum { MANY_CASES = 10000 };

static int all_were_tried(unsigned long cases)
{
    int some_not = 0;
    for (unsigned call = 0; call < calls(); call++) {
        some_not += !was_tried(call);
    }
    return some_not == 0 || cases < MANY_CASES;
}

static int by_chance(uint64_t seed, unsigned long cases, time_t seconds, const char *folder)
{
    unsigned long done = 0;
    time_t end = time(NULL) + seconds;
    state = UINT64_C(0x9E3779B97F4A7C15) * (seed + 1);
    snprintf(kept, sizeof kept, "%s/calls-%llu", folder, (unsigned long long)seed);
    while (done < cases && (seconds == 0 || time(NULL) < end)) {
        draw_input();
        if (!try_input()) {
            printf("%lu passed, 1 failed\n", done);
            return 1;
        }
        done++;
    }
    if (!all_were_tried(done)) {
        printf("%lu passed, 1 failed\n", done);
        return 1;
    }
    printf("%lu passed, 0 failed\n", done);
    return 0;
}

static int replay(int count, char **files)
{
    int failed = 0;
    for (int k = 0; k < count; k++) {
        FILE *file = fopen(files[k], "rb");
        if (!file) {
            perror(files[k]);
            return 2;
        }
        input_len = fread(input, 1, sizeof input, file);
        fclose(file);
        if (!try_input()) {
            fprintf(stderr, "calls: that was %s\n", files[k]);
            failed++;
        }
    }
    printf("%d passed, %d failed\n", count - failed, failed);
    return failed > 0;
}

int main(int count, char **words)
{
    watch_for_stops();
    make_places();
    if (count >= 3 && strcmp(words[1], "replay") == 0) {
        return replay(count - 2, words + 2);
    }
    if (count != 5) {
        fprintf(stderr, "usage: calls SEED CASES SECONDS FOLDER, or calls replay FILE..\n");
        return 2;
    }
    return by_chance(strtoull(words[1], NULL, 10), strtoul(words[2], NULL, 10), (time_t)strtoul(words[3], NULL, 10),
                     words[4]);
}
