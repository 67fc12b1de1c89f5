/* Lets a program run many times in one process, without a process for each: bench/hostile_many preloads it. What the program's `main` gives,
 * or the status that it exits with, is an answer, and the next request follows. Requests come on descriptor 198, answers go to 199; both have
 * numbers of 32 bits of this machine, and octets behind their count:
 *   a request: the words, each with its count; then the files that are written first, each by its name and its octets
 *   an answer: the status, microseconds of the processor, kibibytes of memory at most, a sum of what was written, and standard error
 * The standard streams are the files input, output and errors of the working folder. A run of a minute of the processor ends all by SIGVTALRM. */
#define _GNU_SOURCE
#include <dlfcn.h>
#include <fcntl.h>
#include <link.h>
#include <setjmp.h>
#include <stdint.h>
#include <stdlib.h>
#include <string.h>
#include <sys/resource.h>
#include <sys/time.h>
#include <unistd.h>

typedef int (*main_function)(int, char **, char **);
typedef int (*start_function)(main_function, int, char **, void *, void *, void *, void *);
typedef void (*init_function)(int, char **, char **);

enum { ASKED = 198, ANSWERED = 199, LAST_OPENED = 64, MOST_WORDS = 256, MOST_OCTETS = 1 << 24 };

static main_function program;
static init_function *inits; /* what the program runs before `main`: it takes the words there */
static size_t init_count;
static jmp_buf behind;
static int is_running, exit_status;

void exit(int status) {
    if (!is_running) _exit(status);
    exit_status = status;
    longjmp(behind, 1);
}

static void take(void *to, size_t count) {
    for (char *at = to; count;) {
        ssize_t got = read(ASKED, at, count);
        if (got <= 0) _exit(0);
        at += got, count -= got;
    }
}

static void give(int to, const void *from, size_t count) {
    for (const char *at = from; count;) {
        ssize_t put = write(to, at, count);
        if (put <= 0) _exit(1);
        at += put, count -= put;
    }
}

/* Octets behind their count, and a zero behind them; the count. */
static uint32_t take_octets(char *to, uint32_t most) {
    uint32_t count;
    take(&count, sizeof count);
    if (count >= most) _exit(1);
    take(to, count);
    to[count] = 0;
    return count;
}

static int find_inits(struct dl_phdr_info *info, size_t size, void *nothing) {
    for (int i = 0; i < info->dlpi_phnum; i++) {
        if (info->dlpi_phdr[i].p_type != PT_DYNAMIC) continue;
        for (ElfW(Dyn) *it = (void *)(info->dlpi_addr + info->dlpi_phdr[i].p_vaddr); it->d_tag; it++) {
            if (it->d_tag == DT_INIT_ARRAY) inits = (void *)(info->dlpi_addr + it->d_un.d_ptr);
            if (it->d_tag == DT_INIT_ARRAYSZ) init_count = it->d_un.d_val / sizeof *inits;
        }
    }
    return 1; /* (the program itself comes first) */
}

static int64_t microseconds(void) {
    struct rusage used;
    getrusage(RUSAGE_SELF, &used);
    return (used.ru_utime.tv_sec + used.ru_stime.tv_sec) * 1000000ll + used.ru_utime.tv_usec + used.ru_stime.tv_usec;
}

static char octets[MOST_OCTETS];

/* Writes the files of a request. */
static void take_files(void) {
    char name[256];
    uint32_t files;
    take(&files, sizeof files);
    while (files--) {
        take_octets(name, sizeof name);
        uint32_t count = take_octets(octets, sizeof octets);
        int file = open(name, O_WRONLY | O_CREAT | O_TRUNC, 0600);
        give(file, octets, count);
        close(file);
    }
}

/* The words of a request, with the program's name in front of them; how many. */
static int take_words(char **words) {
    static char text[1 << 16];
    uint32_t count, at = 0;
    take(&count, sizeof count);
    if (count > MOST_WORDS - 2) _exit(1);
    for (uint32_t i = 1; i <= count; i++) {
        words[i] = text + at;
        at += take_octets(text + at, sizeof text - at) + 1;
    }
    words[count + 1] = 0;
    return (int)count + 1;
}

/* A sum of the octets of a file (FNV-1a), on top of another one. */
static uint32_t sum_of(uint32_t sum, int file) {
    static unsigned char part[65536];
    lseek(file, 0, SEEK_SET);
    for (ssize_t got; (got = read(file, part, sizeof part)) > 0;)
        for (ssize_t i = 0; i < got; i++) sum = (sum ^ part[i]) * 16777619u;
    return sum;
}

static int serve(int count, char **words, char **environment) {
    static char *list[MOST_WORDS], told[1 << 20];
    int output = open("output", O_RDWR | O_CREAT, 0600), errors = open("errors", O_RDWR | O_CREAT, 0600);
    dl_iterate_phdr(find_inits, 0);
    list[0] = words[0];
    for (;;) {
        count = take_words(list);
        take_files();
        unlink("departures");
        int input = open("input", O_RDONLY);
        ftruncate(output, 0), ftruncate(errors, 0);
        lseek(output, 0, SEEK_SET), lseek(errors, 0, SEEK_SET);
        dup2(input, 0), dup2(output, 1), dup2(errors, 2), close(input);
        struct itimerval minute = {{0, 0}, {60, 0}};
        setitimer(ITIMER_VIRTUAL, &minute, 0);
        int64_t begun = microseconds();
        for (size_t i = 0; i < init_count; i++)
            if (inits[i]) inits[i](count, list, environment);
        is_running = 1;
        if (!setjmp(behind)) exit_status = program(count, list, environment);
        is_running = 0;
        for (int file = 3; file < LAST_OPENED; file++)
            if (file != output && file != errors) close(file);
        struct rusage used;
        getrusage(RUSAGE_SELF, &used);
        int left = open("departures", O_RDONLY);
        uint32_t sum = sum_of(sum_of(2166136261u, output), left);
        if (left >= 0) close(left);
        lseek(errors, 0, SEEK_SET);
        ssize_t length = read(errors, told, sizeof told);
        uint32_t answer[5] = {exit_status, microseconds() - begun, used.ru_maxrss, sum, length > 0 ? length : 0};
        give(ANSWERED, answer, sizeof answer);
        give(ANSWERED, told, answer[4]);
    }
}

int __libc_start_main(main_function its_main, int count, char **words, void *init, void *fini, void *ld_fini, void *stack) {
    start_function start = (start_function)dlsym(RTLD_NEXT, "__libc_start_main");
    program = its_main;
    return start((main_function)serve, count, words, init, fini, ld_fini, stack);
}
