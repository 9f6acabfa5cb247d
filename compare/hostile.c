/* Runs the reader of a program, linked in as `program_main`, on hostile texts: texts of a folder whose bytes are changed, cut, doubled
 * and spliced. compare/hostile builds it. SEED, COUNT and FOLDER come from the environment; the arguments are those of the program.
 * The text is the program's standard input, which comes in pieces of random length, or the argument `@`. FAULTS=memory, read or
 * write makes one allocation, read or write of each run fail. A run is a fault if a signal ends it, if its status is above 3, if it
 * leaks memory, or if it takes more than ten seconds. Text NUMBER depends on SEED and NUMBER alone. */
#define _GNU_SOURCE
#include <dirent.h>
#include <errno.h>
#include <signal.h>
#include <stdint.h>
#include <stdio.h>
#include <stdlib.h>
#include <string.h>
#include <sys/syscall.h>
#include <unistd.h>

enum { MAX_TEXTS = 4096, MAX_LEN = 1 << 16, MAX_STATUS = 3 };

struct text {
    unsigned char *bytes;
    size_t len;
};

static struct text texts[MAX_TEXTS];
static size_t text_count;
static uint64_t state;

/* The next random number, by SplitMix64. */
static uint64_t next(void)
{
    uint64_t z = state += 0x9e3779b97f4a7c15;
    z = (z ^ z >> 30) * 0xbf58476d1ce4e5b9;
    z = (z ^ z >> 27) * 0x94d049bb133111eb;
    return z ^ z >> 31;
}

static size_t below(size_t end)
{
    return end ? next() % end : 0;
}

static void fail(const char *what)
{
    perror(what);
    exit(2);
}

static void read_texts(const char *folder)
{
    struct dirent **names;
    int count = scandir(folder, &names, NULL, alphasort);
    if (count < 0)
        fail(folder);
    for (int i = 0; i < count && text_count < MAX_TEXTS; i++) {
        char path[4096];
        snprintf(path, sizeof path, "%s/%s", folder, names[i]->d_name);
        FILE *file = names[i]->d_name[0] == '.' ? NULL : fopen(path, "rb");
        if (!file)
            continue;
        struct text *text = &texts[text_count++];
        text->bytes = malloc(MAX_LEN);
        text->len = fread(text->bytes, 1, MAX_LEN, file);
        fclose(file);
    }
    if (!text_count) {
        fprintf(stderr, "hostile: no texts in %s\n", folder);
        exit(2);
    }
}

/* Puts `len` bytes in the place of those from `from` up to `to`. */
static void replace(struct text *text, size_t from, size_t to, const unsigned char *bytes, size_t len)
{
    if (text->len - (to - from) + len > MAX_LEN)
        return;
    memmove(text->bytes + from + len, text->bytes + to, text->len - to);
    memmove(text->bytes + from, bytes, len);
    text->len += len - (to - from);
}

static void damage(struct text *text)
{
    static const char *const TOKENS[] = {
        "18446744073709551615", "18446744073709551616", "9223372036854775808", "0", "-1", "+", "-", ".", "e", "1e400", "1e-400",
        "0.0000000000000000000001", ",", "\"", "\"\"", "\n", "\r\n", "\t", " ", ";", "#", "=", "Tag=", "HISTF", "AAAA", "==", "\xff",
        "\xc3", "\xef\xbb\xbf", "99999999999999999999999999999999999999999999", "r ", "s ", "c 1 1 ", "end 0 1", "clear\n", "reset\n",
        "p99", "<", "<=", ">", "ms", "us", "nan", "inf", "#[StartTime: 1 (", "#[BaseTime: 1", "%", "/", "0x10",
    };
    unsigned char copy[256];
    size_t from = below(text->len + 1);
    size_t to = from + below(text->len - from + 1 < 40 ? text->len - from + 1 : 40);
    size_t kind = below(8);
    if (kind == 0 && text->len) {
        text->bytes[below(text->len)] ^= 1 << below(8);
    } else if (kind == 1) {
        replace(text, from, to, copy, 0);
    } else if (kind == 2) {
        memcpy(copy, text->bytes + from, to - from);
        replace(text, to, to, copy, to - from);
    } else if (kind == 3) {
        const struct text *other = &texts[below(text_count)];
        size_t at = below(other->len + 1), len = other->len - at < 64 ? other->len - at : 64;
        memcpy(copy, other->bytes + at, len);
        replace(text, from, to, copy, len);
    } else if (kind == 4) {
        text->len = from;
    } else if (kind == 5) {
        size_t len = below(16);
        for (size_t i = 0; i < len; i++)
            copy[i] = next();
        replace(text, from, from, copy, len);
    } else {
        const char *token = TOKENS[below(sizeof TOKENS / sizeof *TOKENS)];
        replace(text, from, kind == 6 ? from : to, (const unsigned char *)token, strlen(token));
    }
}

static void make(struct text *text, uint64_t seed, uint64_t number)
{
    state = seed * 0x2545f4914f6cdd1d + number;
    next();
    const struct text *first = &texts[below(text_count)];
    memcpy(text->bytes, first->bytes, first->len);
    text->len = first->len;
    for (size_t left = 1 + below(6); left; left--)
        damage(text);
}

/* The run: what is left of the text, the allocations that live, and the calls left up to the one that fails. */
static const struct text *input;
static size_t given, live;
static uint64_t number, until_memory, until_read, until_write;
static int is_running;

int program_main(int argc, char **argv);
void *__real_malloc(size_t len);
void *__real_realloc(void *at, size_t len);
void __real_free(void *at);

static int fails(uint64_t *until)
{
    return is_running && *until && !--*until;
}

void *__wrap_malloc(size_t len)
{
    void *at = fails(&until_memory) ? NULL : __real_malloc(len);
    live += is_running && at;
    return at;
}

void *__wrap_realloc(void *at, size_t len)
{
    void *new = fails(&until_memory) ? NULL : __real_realloc(at, len);
    live += is_running && new && !at;
    return new;
}

void __wrap_free(void *at)
{
    live -= is_running && at;
    __real_free(at);
}

ssize_t __wrap_read(int file, void *to, size_t len)
{
    if (file != 0)
        return syscall(SYS_read, file, to, len);
    if (fails(&until_read)) {
        errno = below(2) ? EIO : EINTR;
        return -1;
    }
    size_t left = input->len - given, piece = len < left ? len : left;
    if (piece > 1 && below(4) == 0)
        piece = 1 + below(piece - 1);
    memcpy(to, input->bytes + given, piece);
    given += piece;
    return piece;
}

ssize_t __wrap_write(int file, const void *from, size_t len)
{
    (void)file, (void)from;
    if (fails(&until_write)) {
        errno = below(2) ? ENOSPC : EINTR;
        return -1;
    }
    return len > 1 && below(8) == 0 ? 1 + below(len - 1) : len;
}

static void die(int signal)
{
    printf("text %llu: signal %d\n", (unsigned long long)number, signal);
    fflush(stdout);
    _exit(1);
}

/* Runs the program on a text, and returns its status. */
static int run(const struct text *text, int argc, char **argv)
{
    static char argument[MAX_LEN + 1];
    static int at = -1;
    for (int i = 1; i < argc && at < 0; i++)
        if (!strcmp(argv[i], "@"))
            at = i;
    if (at > 0) {
        memcpy(argument, text->bytes, text->len);
        argument[text->len] = 0;
        argv[at] = argument;
    }
    input = text;
    given = live = 0;
    is_running = 1;
    alarm(10);
    int status = program_main(argc, argv);
    alarm(0);
    is_running = 0;
    return status;
}

int main(int argc, char **argv)
{
    const char *seed = getenv("SEED"), *wanted = getenv("COUNT"), *folder = getenv("FOLDER"), *kind = getenv("FAULTS");
    if (!seed || !wanted || !folder)
        return 2;
    uint64_t count = strtoull(wanted, NULL, 10), first = strtoull(seed, NULL, 10), faults = 0, ends[MAX_STATUS + 1] = {0};
    read_texts(folder);
    struct text text = {__real_malloc(MAX_LEN), 0};
    for (int signal = 1; signal < 16; signal++)
        if (signal != SIGTERM && signal != SIGINT)
            sigaction(signal, &(struct sigaction){.sa_handler = die}, NULL);
    for (number = 0; number < count; number++) {
        make(&text, first, number);
        until_memory = kind && !strcmp(kind, "memory") ? 1 + below(60) : 0;
        until_read = kind && !strcmp(kind, "read") ? 1 + below(3) : 0;
        until_write = kind && !strcmp(kind, "write") ? 1 + below(4) : 0;
        int status = run(&text, argc, argv);
        if (status >= 0 && status <= MAX_STATUS && !live) {
            ends[status]++;
            continue;
        }
        faults++;
        printf("text %llu: status %d, %zu allocations leak\n", (unsigned long long)number, status, live);
    }
    printf("%llu texts, statuses 0: %llu, 1: %llu, 2: %llu, 3: %llu; %llu faults\n", (unsigned long long)count,
           (unsigned long long)ends[0], (unsigned long long)ends[1], (unsigned long long)ends[2], (unsigned long long)ends[3],
           (unsigned long long)faults);
    return faults > 0;
}
