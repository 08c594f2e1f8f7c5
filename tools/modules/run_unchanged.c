/* run_unchanged ROOT LIST PROGRAM BUILD KIND NAME ARGUMENT..

Runs PROGRAM with these arguments if every file and folder of LIST is as LIST says (tools/modules/programs.py writes it), and
otherwise the script BUILD, with KIND, NAME and the arguments. With ROOT and LIST alone the status is 86 if all are.

LIST begins with its own length. An entry has the inode, the size, and the time of the last change of the inode, which
no tool can set back, all 0 if there is no such file; the length of the entry; whether the next paths are below this
folder, and so are shorter; the path, and zeros. The first path is that of the command rt. If PATH leads to a command
rt, that has to be the same file.

Each call of a built program looks at its 2,600 sources by this. A look takes a microsecond or so, and a C library would
begin with 200. So there is none; what is needed of Linux on x86-64 is declared here. */

typedef unsigned long long number;
struct moment { long long seconds, nanoseconds; };
struct status {
    number device, inode, links;
    unsigned mode, user, group, unused;
    number special, size, block_size, blocks;
    struct moment accessed, modified, changed;
    number others[3];
};
struct entry {
    number inode, size;
    long long seconds;
    unsigned nanoseconds;
    unsigned short length, is_above_next;
    char path[];
};

enum { OPEN = 2, STAT = 4, FSTAT = 5, MMAP = 9, ACCESS = 21, EXECVE = 59, CHDIR = 80, FCHDIR = 81, EXIT = 231 };
enum { NO_FILE = -2, NO_FOLDER = -20, LAST_ERROR = -4095 };
enum { UNTIL_EXEC = 02000000, ONLY_A_PATH = 010000000, EXECUTABLE = 1, READABLE = 1, PRIVATE_AND_LOADED = 0x8002 };

static long call(long what, long a, long b, long c, long d, long e) {
    register long fourth __asm__("r10") = d, fifth __asm__("r8") = e, sixth __asm__("r9") = 0;
    __asm__ volatile("syscall"
                     : "+a"(what)
                     : "D"(a), "S"(b), "d"(c), "r"(fourth), "r"(fifth), "r"(sixth)
                     : "rcx", "r11", "memory");
    return what;
}

static long call_with(long what, const char *path, long how) { return call(what, (long)path, how, 0, 0, 0); }

static int goes_to(long folder) { return call(FCHDIR, folder, 0, 0, 0, 0) == 0; }

static int is_as_listed(const struct entry *entry, const char *path) {
    static struct status now;
    const long failed = call_with(STAT, path, (long)&now);
    if (failed)
        return entry->inode == 0 && (failed == NO_FILE || failed == NO_FOLDER);
    return now.inode == entry->inode && now.size == entry->size && now.changed.seconds == entry->seconds &&
           now.changed.nanoseconds == entry->nanoseconds;
}

/* what the environment has as PATH */
static const char *path_in(char **environment) {
    for (; *environment; environment++) {
        const char *it = *environment;
        if (it[0] == 'P' && it[1] == 'A' && it[2] == 'T' && it[3] == 'H' && it[4] == '=')
            return it + 5;
    }
    return "";
}

/* the command rt in the folders of a PATH, or else the one that is listed */
static const char *rt_on(const char *path, const char *listed) {
    static char rt[4096];
    for (; *path; path += *path == ':') {
        unsigned long size = 0;
        for (; *path && *path != ':'; path++)
            rt[size < sizeof rt - 4 ? size++ : size] = *path;
        if (size == 0)
            rt[size++] = '.';
        __builtin_memcpy(&rt[size], "/rt", 4);
        if (call_with(ACCESS, rt, EXECUTABLE) == 0)
            return rt;
    }
    return listed;
}

/* whether all entries are as listed. It begins in the caller's folder, and ends in another */
static int are_as_listed(const char *list, number length, long root, const char *paths) {
    for (number at = sizeof length; at < length;) {
        const struct entry *entry = (const struct entry *)&list[at];
        if (entry->length <= sizeof *entry || entry->length > length - at)
            return 0;
        const int is_rt = at == sizeof length;
        const char *path = is_rt ? rt_on(paths, entry->path) : entry->path;
        if (entry->is_above_next && goes_to(root) && call_with(CHDIR, path, 0) == 0)
            path = ".";
        if (!is_as_listed(entry, path) || (is_rt && !goes_to(root)))
            return 0;
        at += entry->length;
    }
    return 1;
}

/* whether the list is whole, and all is as it says */
static int is_unchanged(const char *root, const char *list, const char *paths) {
    static struct status of_list;
    const long file = call_with(OPEN, list, UNTIL_EXEC);
    if (call(FSTAT, file, (long)&of_list, 0, 0, 0) != 0 || of_list.size <= sizeof(struct entry))
        return 0;
    const long listed = call(MMAP, 0, of_list.size, READABLE, PRIVATE_AND_LOADED, file);
    if ((listed < 0 && listed >= LAST_ERROR) || *(number *)listed != of_list.size)
        return 0;
    const long top = call_with(OPEN, root, ONLY_A_PATH | UNTIL_EXEC);
    const long here = call_with(OPEN, ".", ONLY_A_PATH | UNTIL_EXEC);
    if (!goes_to(here))
        return 0;
    const int are = are_as_listed((const char *)listed, of_list.size, top, paths);
    if (!goes_to(here))
        call(EXIT, 126, 0, 0, 0, 0);
    return are;
}

static void run(char **words, char **environment) {
    call(EXECVE, (long)words[0], (long)words, (long)environment, 0, 0);
}

__attribute__((used)) static void begin(char **stack) {
    const long count = *(long *)stack;
    char **arguments = stack + 1, **environment = arguments + count + 1;
    const int unchanged = count >= 3 && is_unchanged(arguments[1], arguments[2], path_in(environment));
    if (count >= 7) {
        char *name = arguments[6];
        arguments[6] = arguments[3];
        if (unchanged)
            run(&arguments[6], environment);
        arguments[6] = name;
        arguments[3] = "/bin/sh";
        run(&arguments[3], environment);
    }
    call(EXIT, unchanged && count == 3 ? 86 : 126, 0, 0, 0, 0);
}

__asm__(".globl _start\n"
        "_start: mov %rsp, %rdi\n"
        "and $-16, %rsp\n"
        "call begin\n");
