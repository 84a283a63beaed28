// Runs a program on damaged copies of files: fuzz PROGRAM SEEDS SCRATCH RUNS RANDOM, where SEEDS holds files NAME.parquet with the words of a
// request in NAME.words, one a line, and the places and lengths of its pages in NAME.pages, and SCRATCH is a folder for the damaged file. Each run
// must end by itself with a status of 0 to 10, within a second of a processor and twenty of the clock, in at most 200 MB, and write nothing unless
// the status is 0 or 9. What does not is kept in SCRATCH. Prints how often each status came.
#define _GNU_SOURCE
#include <dirent.h>
#include <fcntl.h>
#include <stdint.h>
#include <stdio.h>
#include <stdlib.h>
#include <string.h>
#include <sys/resource.h>
#include <sys/stat.h>
#include <sys/wait.h>
#include <time.h>
#include <unistd.h>

// (a machine that does much else may let a run wait for its processor)
enum { MOST_SEEDS = 256, MOST_WORDS = 16, MOST_PAGES = 64, MOST_BYTES = 1 << 20, MOST_STATUS = 10, MOST_KIB = 200 * 1024, MOST_SECONDS = 1, MOST_WAIT = 20 };

struct page {
    size_t at, length;
};

struct seed {
    char name[256];
    unsigned char *bytes;
    size_t length;
    char *words[MOST_WORDS];
    struct page pages[MOST_PAGES];
    size_t page_count;
};

static struct seed seeds[MOST_SEEDS];
static int seed_count;
static uint64_t state;
extern char **environ;

static void fail(const char *what) {
    perror(what);
    exit(1);
}

// xorshift
static uint64_t draw(uint64_t below) {
    state ^= state << 13;
    state ^= state >> 7;
    state ^= state << 17;
    return below ? state % below : 0;
}

static unsigned char *read_all(const char *path, size_t *length) {
    FILE *file = fopen(path, "rb");
    if (!file) fail(path);
    unsigned char *bytes = malloc(MOST_BYTES);
    *length = fread(bytes, 1, MOST_BYTES, file);
    fclose(file);
    return bytes;
}

// The pages of a seed, in the order in which they stand.
static void read_pages(const char *folder, struct seed *seed) {
    char path[1024];
    snprintf(path, sizeof path, "%s/%s.pages", folder, seed->name);
    FILE *file = fopen(path, "r");
    if (!file) fail(path);
    struct page page;
    while (seed->page_count < MOST_PAGES && fscanf(file, "%zu %zu", &page.at, &page.length) == 2) seed->pages[seed->page_count++] = page;
    fclose(file);
}

static void read_seed(const char *folder, const char *file) {
    struct seed *seed = &seeds[seed_count++];
    char path[1024];
    size_t words;
    snprintf(seed->name, sizeof seed->name, "%.*s", (int)(strlen(file) - strlen(".parquet")), file);
    snprintf(path, sizeof path, "%s/%s.parquet", folder, seed->name);
    seed->bytes = read_all(path, &seed->length);
    snprintf(path, sizeof path, "%s/%s.words", folder, seed->name);
    char *text = (char *)read_all(path, &words);
    text[words] = 0;
    int count = 2;
    for (char *word = strtok(text, "\n"); word && count < MOST_WORDS - 1; word = strtok(NULL, "\n")) seed->words[count++] = word;
    read_pages(folder, seed);
}

static int by_name(const void *a, const void *b) { return strcmp(((const struct seed *)a)->name, ((const struct seed *)b)->name); }

static void exchange_bytes(unsigned char *a, unsigned char *b, size_t size) {
    for (size_t i = 0; i < size; i++) {
        unsigned char kept = a[i];
        a[i] = b[i];
        b[i] = kept;
    }
}

// Two pages in each other's places, headers and all: as much of both as the shorter one has, or both whole, and what stands between them shifted.
static void exchange_pages(unsigned char *bytes, size_t length, const struct seed *seed) {
    if (seed->page_count < 2) return;
    size_t i = draw(seed->page_count), j = draw(seed->page_count - 1);
    if (j >= i) j++;
    struct page early = seed->pages[i < j ? i : j], late = seed->pages[i < j ? j : i];
    // (an earlier change may have made the file shorter)
    if (late.at + late.length > length) return;
    if (draw(2)) {
        exchange_bytes(bytes + early.at, bytes + late.at, early.length < late.length ? early.length : late.length);
        return;
    }
    static unsigned char kept[MOST_BYTES];
    size_t between = early.at + early.length;
    memcpy(kept, bytes, length);
    memcpy(bytes + early.at, kept + late.at, late.length);
    memcpy(bytes + early.at + late.length, kept + between, late.at - between);
    memcpy(bytes + late.at + late.length - early.length, kept + early.at, early.length);
}

// One change: a byte, a bit, a number that is often a border, bytes taken out, put in or exchanged, two pages exchanged, the end cut off, or the length
// of the footer.
static size_t damage(unsigned char *bytes, size_t length, const struct seed *seed) {
    static const unsigned char borders[] = {0, 1, 2, 0x7e, 0x7f, 0x80, 0x81, 0xfe, 0xff};
    if (length < 16) return length;
    size_t at = draw(length), size = 1 + draw(16), other;
    switch (draw(10)) {
    case 0: bytes[at] = (unsigned char)draw(256); break;
    case 1: bytes[at] ^= (unsigned char)(1u << draw(8)); break;
    case 2: bytes[at] = borders[draw(sizeof borders)]; break;
    case 3: bytes[at] += draw(2) ? 1 : 255; break;
    case 4:
        if (at + size > length) break;
        memmove(bytes + at, bytes + at + size, length - at - size);
        return length - size;
    case 5:
        if (length + size > MOST_BYTES) break;
        memmove(bytes + at + size, bytes + at, length - at);
        for (size_t i = 0; i < size; i++) bytes[at + i] = (unsigned char)draw(256);
        return length + size;
    case 6:
        other = draw(length);
        if (at + size > length || other + size > length) break;
        exchange_bytes(bytes + at, bytes + other, size);
        break;
    case 7: exchange_pages(bytes, length, seed); break;
    case 8: return draw(8) ? length : at;
    default: bytes[length - 8 + draw(4)] = (unsigned char)draw(256); break;
    }
    return length;
}

// In the place of this process: the program, which is ended where it does not end by itself.
static void run_program(const char *program, char **words, const char *output) {
    struct rlimit time = {MOST_SECONDS + 1, MOST_SECONDS + 1};
    setrlimit(RLIMIT_CPU, &time);
    alarm(MOST_WAIT);
    int out = open(output, O_WRONLY | O_CREAT | O_TRUNC, 0644), nowhere = open("/dev/null", O_WRONLY);
    if (out < 0 || nowhere < 0 || dup2(out, 1) < 0 || dup2(nowhere, 2) < 0) _exit(127);
    execve(program, words, environ);
    _exit(127);
}

// Seconds of the clock.
static double now(void) {
    struct timespec time;
    clock_gettime(CLOCK_MONOTONIC, &time);
    return (double)time.tv_sec + (double)time.tv_nsec / 1e9;
}

int main(int argc, char **argv) {
    if (argc != 6) {
        fprintf(stderr, "usage: fuzz PROGRAM SEEDS SCRATCH RUNS RANDOM\n");
        return 2;
    }
    const char *program = argv[1], *scratch = argv[3];
    long runs = atol(argv[4]), statuses[MOST_STATUS + 1] = {0}, most_kib = 0, bad = 0;
    double longest = 0, longest_wait = 0;
    state = 0x9e3779b97f4a7c15u ^ (uint64_t)atol(argv[5]) * 0xbf58476d1ce4e5b9u;
    DIR *folder = opendir(argv[2]);
    if (!folder) fail(argv[2]);
    for (struct dirent *entry; (entry = readdir(folder)) && seed_count < MOST_SEEDS;)
        if (strstr(entry->d_name, ".parquet")) read_seed(argv[2], entry->d_name);
    qsort(seeds, (size_t)seed_count, sizeof *seeds, by_name);
    char path[1024], output[1024], kept[1024];
    snprintf(path, sizeof path, "%s/damaged.parquet", scratch);
    snprintf(output, sizeof output, "%s/output", scratch);
    unsigned char *bytes = malloc(MOST_BYTES);
    for (long run = 0; run < runs; run++) {
        struct seed *seed = &seeds[draw((uint64_t)seed_count)];
        size_t length = seed->length;
        memcpy(bytes, seed->bytes, length);
        // (the first runs are on the files as they are)
        int changes = run < seed_count ? 0 : 1 + (int)draw(4);
        if (run < seed_count) {
            seed = &seeds[run];
            length = seed->length;
            memcpy(bytes, seed->bytes, length);
        }
        while (changes-- > 0) length = damage(bytes, length, seed);
        int file = open(path, O_WRONLY | O_CREAT | O_TRUNC, 0644);
        if (file < 0 || write(file, bytes, length) != (ssize_t)length) fail(path);
        close(file);
        seed->words[0] = (char *)program;
        seed->words[1] = path;
        double begun = now();
        pid_t child = fork();
        if (child < 0) fail("fork");
        if (child == 0) run_program(program, seed->words, output);
        int status;
        struct rusage used;
        if (wait4(child, &status, 0, &used) != child) fail("wait4");
        double seconds = (double)(used.ru_utime.tv_sec + used.ru_stime.tv_sec) + (double)(used.ru_utime.tv_usec + used.ru_stime.tv_usec) / 1e6;
        double waited = now() - begun;
        struct stat written;
        stat(output, &written);
        int code = WIFEXITED(status) ? WEXITSTATUS(status) : -1;
        if (seconds > longest) longest = seconds;
        if (waited > longest_wait) longest_wait = waited;
        if (used.ru_maxrss > most_kib) most_kib = used.ru_maxrss;
        int is_whole = run >= seed_count || code == 0;
        int is_silent = code == 0 || code == 9 || written.st_size == 0;
        int is_quick = seconds <= MOST_SECONDS && waited <= MOST_WAIT;
        if (code < 0 || code > MOST_STATUS || code == 1 || !is_quick || used.ru_maxrss > MOST_KIB || !is_silent || !is_whole) {
            bad++;
            snprintf(kept, sizeof kept, "%s/bad-%ld-%s.parquet", scratch, run, seed->name);
            rename(path, kept);
            printf("run %ld of %s: status %d, %.3f s (%.3f by the clock), %ld KiB, %ld bytes written: %s\n", run, seed->name, code, seconds, waited, used.ru_maxrss, (long)written.st_size, kept);
            continue;
        }
        statuses[code]++;
    }
    printf("%ld runs on %d files:", runs, seed_count);
    for (int code = 0; code <= MOST_STATUS; code++)
        if (statuses[code]) printf(" status %d %ld,", code, statuses[code]);
    printf(" at most %.3f s (%.3f by the clock) and %ld KiB, %ld not as promised\n", longest, longest_wait, most_kib, bad);
    return bad != 0;
}
