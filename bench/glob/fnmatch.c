/* The same patterns and texts as in main.rust, matched by fnmatch. */
#define _GNU_SOURCE
#include <fnmatch.h>
#include <stdio.h>
#include <string.h>
#include <time.h>

static const char *const TEXTS[8] = {
    "web-01.example.net", "web-17.example.net", "db-03.example.org", "cache_2",
    "mail.example.net", "web-99.example.com", "m1", "storage-eu-west-0042.example.net",
};

static char many[65537];

static void usual(const char *pattern, int flags) {
    struct timespec from, to;
    long held = 0;
    clock_gettime(CLOCK_MONOTONIC, &from);
    /* the next text hangs on the last answer, so that no answer is taken for another */
    unsigned next = 0;
    for (long i = 0; i < 2000000; i++) {
        if (fnmatch(pattern, TEXTS[next % 8], flags) == 0) {
            held++;
            next = next % 8 + 1;
        } else {
            next = next % 8 + 5;
        }
    }
    clock_gettime(CLOCK_MONOTONIC, &to);
    long long nanos = (to.tv_sec - from.tv_sec) * 1000000000LL + (to.tv_nsec - from.tv_nsec);
    printf("%s%s: %ld held, %lld ns each\n", flags ? "caseless " : "", pattern, held, nanos / 2000000);
}

static void worst(const char *pattern) {
    struct timespec from, to;
    clock_gettime(CLOCK_MONOTONIC, &from);
    int held = fnmatch(pattern, many, 0) == 0;
    clock_gettime(CLOCK_MONOTONIC, &to);
    long long nanos = (to.tv_sec - from.tv_sec) * 1000000000LL + (to.tv_nsec - from.tv_nsec);
    printf("%s at 65536 bytes: %d, %lld us\n", pattern, held, nanos / 1000);
}

int main(void) {
    memset(many, 'a', 65536);
    usual("*", 0);
    usual("web*", 0);
    usual("*.example.net", 0);
    usual("web-[0-9][0-9].*", 0);
    usual("*-0?.example.*", 0);
    usual("m1", 0);
    usual("WEB*", FNM_CASEFOLD);
    usual("*.Example.NET", FNM_CASEFOLD);
    usual("Web-[0-9][0-9].*", FNM_CASEFOLD);
    usual("M1", FNM_CASEFOLD);
    worst("*b");
    worst("*ab");
    worst("*a*a*a*b");
    worst("*[[[[[[[[b");
    return 0;
}
