/* Preloaded by tools/refuse: refuses a program's requests for memory, one in each run.

   The program of rows requests a block of ROOM bytes for the results of each row. With that request the run of a row begins, and it
   ends when the row is written. The tool repeats a row once for each request that is to be refused, and a table has the request that
   is refused in each run. How much the block holds by then shows at which call that is. After the line `without memory` all requests
   are refused from that one on, and the row has to print what it prints with ample memory.

   A row that takes long isn't repeated: the program is forked at each of the requests. The child's request is refused, and what the
   child writes from then on is judged; the parent, whose request is granted, counts how the child ended. So what comes before a
   request is run once, and not again for each one. cfgtool and cfglint are forked at each of their requests. Nothing here calls
   malloc. */
#define _GNU_SOURCE
#include <fcntl.h>
#include <signal.h>
#include <stdio.h>
#include <stdlib.h>
#include <string.h>
#include <sys/mman.h>
#include <sys/stat.h>
#include <sys/syscall.h>
#include <sys/wait.h>
#include <time.h>
#include <unistd.h>

/* ROOM is that of rows/src/rows/files.rt.txt. */
enum { ROOM = 1048573, MOST_WRITTEN = 1 << 26, RUN_SECONDS = 60 };
enum { REPORTED = 41, UNNEEDED = 42, WRONG = 43 };

void *__libc_malloc(size_t), *__libc_realloc(void *, size_t), *__libc_calloc(size_t, size_t), *__libc_memalign(size_t, size_t);
void __libc_free(void *);

static const char OUT_OF_MEMORY[] = "out of memory\n", WITHOUT[] = "\nwithout memory\n";

/* A row whose requests are counted: how many there are, the bytes of its results, how many microseconds it takes, and how many
   requests come after the line `without memory`, or -1 if there is no such line. */
typedef struct { long requests, bytes, micros, without; } counted_row;

/* A row whose requests are refused: the offset of its results, and their bytes; whether the program is forked; and which requests are
   refused, in order. */
typedef struct { long at, bytes, forks, count, refused[]; } tried_row;

/* What to do: count the requests of rows, refuse those of rows, or refuse those of a program. */
static enum { NOTHING, COUNT, ROWS, PROGRAM } mode;
static int results = -1, counts = -1, is_armed, is_child, rows_begun, expected_status, is_without, refuses_all;
static long request, requests_without, written, begun_at, tried, reported, unneeded, wrong;
static char *block, *answers, *taken, *taken_errors;
static size_t block_used, answers_len, taken_len, taken_errors_len;
static const tried_row *here, *following, *end_of_table;

static void say(const char *text) { syscall(SYS_write, results, text, strlen(text)); }

static long now(void)
{
    struct timespec at;
    clock_gettime(CLOCK_PROCESS_CPUTIME_ID, &at);
    return at.tv_sec * 1000000L + at.tv_nsec / 1000;
}

static void *room(size_t len)
{
    void *it = mmap(0, len, PROT_READ | PROT_WRITE, MAP_PRIVATE | MAP_ANONYMOUS | MAP_NORESERVE, -1, 0);
    if (it == MAP_FAILED) _exit(WRONG);
    return it;
}

static void *contents(const char *path, size_t *len)
{
    struct stat is;
    int file = open(path, O_RDONLY | O_CLOEXEC);
    if (file < 0 || fstat(file, &is)) _exit(WRONG);
    *len = is.st_size;
    void *it = is.st_size ? mmap(0, is.st_size, PROT_READ, MAP_PRIVATE, file, 0) : "";
    close(file);
    return it;
}

/* Finds how many bytes of the row's results are written, and whether calls may still request memory. */
static void look(void)
{
    if (!block) return;
    size_t from = block_used < sizeof WITHOUT ? 0 : block_used - sizeof WITHOUT;
    block_used += strnlen(block + block_used, ROOM - block_used);
    is_without |= !!memmem(block + from, block_used - from, WITHOUT, sizeof WITHOUT - 1);
}

static int is_text(const char *at, size_t len, const char *text) { return len == strlen(text) && !memcmp(at, text, len); }

/* Reports a run that is wrong: the row, the request, how many bytes were written before it, and what was written after them. */
static int is_wrong(const char *why, const char *from, size_t len)
{
    char line[512];
    const char *name = here ? answers + here->at : "";
    int name_len = here ? strcspn(name, "\n") : 0;
    snprintf(line, sizeof line, "wrong: %s: %.*s, request %ld, after %zu bytes: %.*s\n", why, name_len > 100 ? 100 : name_len, name,
             request, block_used, (int)(len > 200 ? 200 : len), from);
    for (char *it = line; it[0] && it[1]; it++)
        if (*it == '\n') *it = '|';
    say(line);
    return WRONG;
}

/* Judges what a run printed for a row: its results; or their prefix up to the refused call, `out of memory`, some of the last lines
   before that call again, and all results from that call on. */
static int judge_row(void)
{
    const char *whole = answers + here->at, *got = taken;
    size_t len = here->bytes, head = strcspn(whole, "\n") + 1 + block_used, got_len = taken_len;
    if (got_len == len && !memcmp(got, whole, len)) return UNNEEDED;
    size_t begins = 0;
    while (begins < got_len && begins < len && got[begins] == whole[begins]) begins++;
    if (is_without) return is_wrong("a call needs memory after `without memory`", got + begins, got_len - begins);
    if (got_len < head || begins < head) return is_wrong("other results before the call", got + begins, got_len - begins);
    const char *rest = got + head;
    size_t rest_len = got_len - head, report_len = strlen(OUT_OF_MEMORY);
    if (rest_len < report_len || memcmp(rest, OUT_OF_MEMORY, report_len)) return is_wrong("no `out of memory` at the call", rest, rest_len);
    rest += report_len, rest_len -= report_len;
    if (rest_len < len - head) return is_wrong("it doesn't go on", rest, rest_len);
    size_t again = rest_len - (len - head);
    if (again > head || memcmp(rest, whole + head - again, again))
        return is_wrong("the lines before the call are not repeated", rest, rest_len);
    if (again < head && whole[head - again - 1] != '\n' && again) return is_wrong("no whole lines again", rest, rest_len);
    if (memcmp(rest + again, whole + head, len - head)) return is_wrong("other results after the call", rest + again, len - head);
    return REPORTED;
}

/* Whether a program printed that it ran out of memory, and nothing else. */
static int ran_out_of_memory(void)
{
    return is_text(taken_errors, taken_errors_len, "cfgtool: out of memory\n") || is_text(taken_errors, taken_errors_len, "cfglint: out of memory\n");
}

/* Judges how a run of a program ended: out of memory with nothing on standard output, or as with ample memory. */
static int judge_program(int status)
{
    if (status == 3 && !taken_len && ran_out_of_memory()) return REPORTED;
    if (status == expected_status && !taken_errors_len && taken_len == answers_len && !memcmp(taken, answers, answers_len)) return UNNEEDED;
    char why[64];
    snprintf(why, sizeof why, "status %d, %zu bytes on standard output", status, taken_len);
    return is_wrong(why, taken_errors, taken_errors_len);
}

static void count(int judged)
{
    if (judged == REPORTED) reported++;
    else if (judged == UNNEEDED) unneeded++;
    else wrong++;
}

/* Refuses a request, and those after it only if no call may request memory any more. */
static int refuse(void)
{
    is_armed = 0, refuses_all = is_without;
    alarm(RUN_SECONDS);
    return 1;
}

/* Refuses a request in a child, and waits until the child ends. Returns whether this is the child. */
static int refuse_in_child(void)
{
    pid_t child = fork();
    if (!child) return is_child = 1, refuse();
    int status = 0;
    while (waitpid(child, &status, 0) < 0) ;
    int judged = WIFEXITED(status) ? WEXITSTATUS(status) : 0;
    count(judged);
    if (child < 0 || (judged != REPORTED && judged != UNNEEDED && judged != WRONG)) {
        char why[64];
        snprintf(why, sizeof why, "the run ended with %#x", status);
        is_wrong(why, "", 0);
    }
    return 0;
}

/* Counts a request. Returns whether it is to be refused. */
static int is_refused(void)
{
    if (!is_armed) return refuses_all;
    long number = request++;
    if (mode == PROGRAM) return refuse_in_child();
    if (mode == ROWS && (tried == here->count || here->refused[tried] != number)) return 0;
    look();
    requests_without += is_without;
    if (mode == COUNT) return 0;
    tried++;
    return here->forks ? refuse_in_child() : refuse();
}

/* A row has been written, or all of them: writes what was counted, or judges what was written. */
static void row_ends(void)
{
    if (is_child) _exit(judge_row());
    if (!rows_begun) return;
    if (mode == COUNT) {
        counted_row it = {request, written, now() - begun_at, is_without ? requests_without : -1};
        syscall(SYS_write, counts, &it, sizeof it);
    } else if (tried < here->count) wrong++, is_wrong("fewer requests than were counted", "", 0);
    else if (!here->forks) count(judge_row());
}

/* The program requests the block for a row's results. */
static void *row_begins(void)
{
    row_ends();
    memset(block, 0, block_used + strnlen(block + block_used, ROOM - block_used));
    block_used = taken_len = taken_errors_len = 0;
    request = requests_without = written = tried = 0;
    is_without = refuses_all = 0, is_armed = 1;
    if (mode == COUNT) begun_at = now();
    else if (following == end_of_table) _exit(is_wrong("a row that isn't in the table", "", 0));
    else here = following, following = (const tried_row *)(here->refused + here->count);
    rows_begun++;
    return block;
}

void *malloc(size_t size)
{
    if (size == ROOM && block) return row_begins();
    return is_refused() ? 0 : __libc_malloc(size);
}

void free(void *it)
{
    if (!block || it != block) __libc_free(it);
}

void *realloc(void *from, size_t size)
{
    if (from && from == block) say("wrong: a row has more results than there is room for\n"), _exit(WRONG);
    return is_refused() ? 0 : __libc_realloc(from, size);
}

void *calloc(size_t count, size_t size) { return is_refused() ? 0 : __libc_calloc(count, size); }

void *aligned_alloc(size_t alignment, size_t size) { return is_refused() ? 0 : __libc_memalign(alignment, size); }

int posix_memalign(void **to, size_t alignment, size_t size)
{
    void *it = is_refused() ? 0 : __libc_memalign(alignment, size);
    if (it) *to = it;
    return it ? 0 : 12;
}

static void take(char *into, size_t *len, const void *bytes, size_t count)
{
    if (*len + count > MOST_WRITTEN) _exit(is_wrong("it writes without end", "", 0));
    memcpy(into + *len, bytes, count);
    *len += count;
}

ssize_t write(int file, const void *bytes, size_t count)
{
    int is_taken = is_child || mode == ROWS;
    if (file == 1 && mode == COUNT) look(), written += count;
    if (file == 1 && mode != PROGRAM) is_armed = refuses_all = 0;
    if (is_taken && file == 1) return take(taken, &taken_len, bytes, count), count;
    if (is_taken && file == 2) return take(taken_errors, &taken_errors_len, bytes, count), count;
    return syscall(SYS_write, file, bytes, count);
}

ssize_t __write(int file, const void *bytes, size_t count) { return write(file, bytes, count); }

/* The program ends: judges it if it is a child, and otherwise writes how many runs ended in which way. */
static void ends(int status, void *unused)
{
    (void)unused;
    is_armed = 0;
    if (is_child && mode == PROGRAM) _exit(judge_program(status));
    if (status && mode == ROWS) _exit(is_wrong("the program fails", taken_errors, taken_errors_len));
    row_ends();
    if (following != end_of_table) _exit(is_wrong("fewer rows than the table has", "", 0));
    char line[128];
    snprintf(line, sizeof line, "runs %ld %ld %ld\n", reported, unneeded, wrong);
    say(line);
}

/* A signal ends a run, and with it the process: reports the run. */
static void dies(int number)
{
    char why[64];
    snprintf(why, sizeof why, "the run ended with signal %d", number);
    _exit(is_wrong(why, taken_errors, taken_errors_len));
}

static void catch_signals(void)
{
    static char stack[1 << 16];
    sigaltstack(&(stack_t){.ss_sp = stack, .ss_size = sizeof stack}, 0);
    struct sigaction caught = {.sa_handler = dies, .sa_flags = SA_ONSTACK};
    for (const int *it = (const int[]){SIGALRM, SIGSEGV, SIGBUS, SIGILL, SIGFPE, SIGABRT, 0}; *it; it++) sigaction(*it, &caught, 0);
}

__attribute__((constructor)) static void begins(void)
{
    const char *task = getenv("REFUSE"), *to = getenv("REFUSE_RESULTS");
    if (!task || !to) return;
    results = open(to, O_WRONLY | O_CREAT | O_APPEND | O_CLOEXEC, 0600);
    const char *whole = getenv("REFUSE_ANSWERS"), *table = getenv("REFUSE_ROWS"), *status = getenv("REFUSE_STATUS");
    if (whole) answers = contents(whole, &answers_len);
    if (status) expected_status = atoi(status);
    size_t len;
    mode = !strcmp(task, "count") ? COUNT : !strcmp(task, "rows") ? ROWS : PROGRAM;
    is_armed = mode == PROGRAM;
    if (mode != PROGRAM) block = room(ROOM + 1);
    if (mode == COUNT) counts = open(table, O_WRONLY | O_CREAT | O_APPEND | O_CLOEXEC, 0600);
    else taken = room(MOST_WRITTEN), taken_errors = room(MOST_WRITTEN);
    if (mode == ROWS) {
        following = contents(table, &len);
        end_of_table = (const tried_row *)((const char *)following + len);
        catch_signals();
    }
    on_exit(ends, 0);
}
