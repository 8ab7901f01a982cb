// Runs golden tests with each of their requests for memory refused in turn.
//
//   sweep LIBRARY SECONDS PROGRAM <TESTS
//
// LIBRARY is refuse.c as a library, and each line of TESTS is the path of a test's
// plain files (tests/golden/README.md) without an ending. Answers are compared here,
// out of the program's reach. A test is given up where nothing is heard of it for so
// many seconds. One with the ending `.unit` is a unit test, which itself says whether
// a refusal is answered as it has to be: it ends as it does where none is, and behind
// a line `memory` where memory was refused to what it tests.
#define _GNU_SOURCE
#include <errno.h>
#include <fcntl.h>
#include <sched.h>
#include <signal.h>
#include <stdarg.h>
#include <stdio.h>
#include <stdlib.h>
#include <string.h>
#include <sys/mman.h>
#include <sys/prctl.h>
#include <sys/resource.h>
#include <sys/socket.h>
#include <sys/stat.h>
#include <sys/wait.h>
#include <unistd.h>

#include "refuse.h"

enum { MOST_WORDS = 16, MOST_WRITTEN = 1 << 24, MOST_SHOWN = 4096, MOST_PATH = 4096 };

// The bytes of a file, none where there is no such file.
struct text {
    char *bytes;
    size_t length;
};

// What a test gives the program, and what it wants of it.
struct test {
    const char *path;
    char *words[MOST_WORDS + 2];
    int input, output;
    struct text mode, out, err;
    int status, is_unit;
};

// A worker's files for what a program writes.
struct worker {
    int out, err;
};

// What is seen of a test while it runs.
struct seen {
    int link;
    unsigned long runs, refused;
    int run_left, whole_left;
};

// What the workers share.
struct sums {
    size_t next;
    unsigned long runs, wrong;
};

static char *program;
static long seconds;
static char **tests;
static size_t test_count;
static struct sums *sums;

static void fail(const char *what) {
    perror(what);
    exit(2);
}

// Says it with what a file begins with, if any, at once, so that lines of other workers don't mix in.
__attribute__((format(printf, 2, 3))) static void tell_wrong(int shown, const char *form, ...) {
    char text[2 * MOST_PATH + MOST_SHOWN];
    va_list parts;
    va_start(parts, form);
    int length = vsnprintf(text, 2 * MOST_PATH, form, parts);
    va_end(parts);
    if (shown >= 0) {
        ssize_t more = pread(shown, text + length, MOST_SHOWN, 0);
        if (more > 0) length += more;
    }
    if (write(STDOUT_FILENO, text, length) != length) fail("sweep");
    __atomic_fetch_add(&sums->wrong, 1, __ATOMIC_RELAXED);
}

static struct text contents(const char *test, const char *ending) {
    struct text text = {NULL, 0};
    struct stat stat;
    char path[MOST_PATH];
    if (snprintf(path, sizeof path, "%s%s", test, ending) >= MOST_PATH) fail(test);
    int file = open(path, O_RDONLY | O_CLOEXEC);
    if (file < 0) return text;
    if (fstat(file, &stat) != 0) fail(path);
    text.length = stat.st_size;
    text.bytes = malloc(text.length + 1);
    if (text.bytes == NULL || read(file, text.bytes, text.length) != stat.st_size) fail(path);
    text.bytes[text.length] = '\0';
    close(file);
    return text;
}

// Opens the file that a test's file names.
static int open_named(struct text name, int flags) {
    name.bytes[strcspn(name.bytes, "\n")] = '\0';
    int file = open(name.bytes, flags | O_CLOEXEC, 0644);
    free(name.bytes);
    return file;
}

static int input_of(const char *path) {
    struct text named = contents(path, ".in");
    if (named.bytes != NULL) return open_named(named, O_RDONLY);
    char own[MOST_PATH];
    if (snprintf(own, sizeof own, "%s.json", path) >= MOST_PATH) fail(path);
    return open(own, O_RDONLY | O_CLOEXEC);
}

static int output_of(const char *path, const struct worker *worker) {
    struct text named = contents(path, ".to");
    return named.bytes != NULL ? open_named(named, O_WRONLY | O_CREAT | O_TRUNC) : worker->out;
}

static int has_file(const char *path, const char *ending) {
    struct text text = contents(path, ending);
    free(text.bytes);
    return text.bytes != NULL;
}

static int status_wanted(const char *path) {
    struct text text = contents(path, ".status");
    int status = text.bytes == NULL ? 0 : atoi(text.bytes);
    free(text.bytes);
    return status;
}

static void split_words(struct test *test) {
    char *rest = test->mode.bytes;
    int count = 0;
    test->words[count++] = program;
    for (char *word; (word = strtok_r(rest, " \t\n", &rest)) != NULL;) {
        if (count > MOST_WORDS) fail(test->path);
        test->words[count++] = word;
    }
}

static struct test read_test(const char *path, const struct worker *worker) {
    struct test test = {
        .path = path,
        .mode = contents(path, ".mode"),
        .out = contents(path, ".out"),
        .err = contents(path, ".err"),
        .input = input_of(path),
        .output = output_of(path, worker),
        .status = status_wanted(path),
        .is_unit = has_file(path, ".unit"),
    };
    if (test.mode.bytes == NULL) fail(path);
    split_words(&test);
    return test;
}

static void let_go(struct test *test, const struct worker *worker) {
    if (test->input >= 0) close(test->input);
    if (test->output >= 0 && test->output != worker->out) close(test->output);
    free(test->mode.bytes);
    free(test->out.bytes);
    free(test->err.bytes);
}

// Whether a file holds just these bytes behind the first ones.
static int holds_behind(int file, size_t first, const char *bytes, size_t length) {
    struct stat stat;
    char part[1 << 14];
    if (fstat(file, &stat) != 0 || (size_t)stat.st_size != first + length) return 0;
    for (size_t at = 0; at < length;) {
        ssize_t got = pread(file, part, sizeof part, first + at);
        if (got <= 0 || (size_t)got > length - at || memcmp(part, bytes + at, got) != 0) return 0;
        at += got;
    }
    return 1;
}

static int holds(int file, const char *bytes, size_t length) { return holds_behind(file, 0, bytes, length); }

// Whether a test is answered as it says, behind so many bytes.
static int is_answer_behind(const struct worker *worker, const struct test *test, int status, size_t first) {
    return status == test->status && test->out.bytes != NULL && holds_behind(worker->out, first, test->out.bytes, test->out.length)
        && holds(worker->err, test->err.bytes, test->err.length);
}

static int is_own_answer(const struct worker *worker, const struct test *test, int status) {
    return is_answer_behind(worker, test, status, 0);
}

// Whether a unit test says that memory was refused to what it tests, and passes.
static int is_told(const struct worker *worker, const struct test *test, int status) {
    static const char line[] = "memory\n";
    char first[sizeof line - 1];
    return pread(worker->out, first, sizeof first, 0) == sizeof first && memcmp(first, line, sizeof first) == 0
        && is_answer_behind(worker, test, status, sizeof first);
}

static int is_refusal(const struct worker *worker, const struct test *test, int status) {
    static const char memory[] = "refused: memory\n";
    if (test->is_unit) return is_told(worker, test, status);
    return status == 3 && holds(worker->out, NULL, 0) && holds(worker->err, memory, sizeof memory - 1);
}

// As a shell tells it.
static int status_of(int status) { return WIFSIGNALED(status) ? 128 + WTERMSIG(status) : WEXITSTATUS(status); }

static void judge(const struct worker *worker, const struct test *test, struct seen *seen, int status) {
    seen->runs += 1;
    if (seen->run_left && is_refusal(worker, test, status)) {
        seen->refused += 1;
    } else if (!seen->run_left || !is_own_answer(worker, test, status)) {
        tell_wrong(worker->err, "WRONG %s: status %d with request %lu refused\n", test->path, status, seen->runs);
    }
    seen->run_left = 0;
}

static void hear(const struct worker *worker, const struct test *test, struct seen *seen, const struct event *event) {
    switch (event->said) {
    case RUN_LEAVES:
        seen->run_left = 1;
        break;
    case RUN_OVER:
        judge(worker, test, seen, status_of(event->status));
        send(seen->link, "", 1, MSG_NOSIGNAL);
        break;
    case WHOLE_LEAVES:
        seen->whole_left = event->requests == seen->runs;
        break;
    }
}

// The program in a process group of its own, which ends with this process.
static void become_program(const struct worker *worker, struct test *test, int link) {
    struct rlimit most = {MOST_WRITTEN, MOST_WRITTEN};
    prctl(PR_SET_PDEATHSIG, SIGKILL);
    setpgid(0, 0);
    setrlimit(RLIMIT_FSIZE, &most);
    dup2(test->input, STDIN_FILENO);
    dup2(test->output, STDOUT_FILENO);
    dup2(worker->err, STDERR_FILENO);
    dup2(link, LINK);
    execv(program, test->words);
    _exit(127);
}

// Runs all of a test and answers the status of the run that no refusal met.
static int run(const struct worker *worker, struct test *test, struct seen *seen) {
    int ends[2];
    struct timeval limit = {.tv_sec = seconds};
    if (socketpair(AF_UNIX, SOCK_SEQPACKET, 0, ends) != 0) fail("socketpair");
    fcntl(ends[0], F_SETFD, FD_CLOEXEC);
    setsockopt(ends[0], SOL_SOCKET, SO_RCVTIMEO, &limit, sizeof limit);
    seen->link = ends[0];
    pid_t whole = fork();
    if (whole < 0) fail("fork");
    if (whole == 0) become_program(worker, test, ends[1]);
    close(ends[1]);
    struct event event;
    ssize_t got;
    while ((got = recv(seen->link, &event, sizeof event, 0)) == sizeof event) hear(worker, test, seen, &event);
    if (got < 0 && errno == EAGAIN)
        tell_wrong(-1, "WRONG %s: no end with request %lu or none refused\n", test->path, seen->runs + 1);
    // Whatever still runs of it goes: a run without end, with the one that waits for it.
    kill(-whole, SIGKILL);
    int status;
    if (waitpid(whole, &status, 0) != whole) fail("waitpid");
    while (waitpid(-1, NULL, 0) > 0) continue;
    close(seen->link);
    return status_of(status);
}

static void sweep_test(const char *path, const struct worker *worker) {
    struct test test = read_test(path, worker);
    struct seen seen = {0};
    int status = 127;
    if (ftruncate(worker->out, 0) != 0 || ftruncate(worker->err, 0) != 0) fail("ftruncate");
    lseek(worker->out, 0, SEEK_SET);
    lseek(worker->err, 0, SEEK_SET);
    if (test.input >= 0 && test.output >= 0) status = run(worker, &test, &seen);
    // The run that no refusal met must answer as the test says, and one request at least must have been refused.
    if (!seen.whole_left || !is_own_answer(worker, &test, status) || seen.refused == 0)
        tell_wrong(-1, "WRONG %s: %lu of %lu requests refused, then status %d\n", path, seen.refused, seen.runs, status);
    __atomic_fetch_add(&sums->runs, seen.runs, __ATOMIC_RELAXED);
    let_go(&test, worker);
}

// Takes tests until there are no more.
static void work(void) {
    struct worker worker = {memfd_create("out", MFD_CLOEXEC), memfd_create("err", MFD_CLOEXEC)};
    if (worker.out < 0 || worker.err < 0) fail("memfd_create");
    prctl(PR_SET_PDEATHSIG, SIGKILL);
    // What a program leaves behind is waited for here.
    prctl(PR_SET_CHILD_SUBREAPER, 1);
    size_t at;
    while ((at = __atomic_fetch_add(&sums->next, 1, __ATOMIC_RELAXED)) < test_count) sweep_test(tests[at], &worker);
    exit(0);
}

static void read_tests(void) {
    char *line = NULL;
    size_t room = 0;
    for (ssize_t length; (length = getline(&line, &room, stdin)) > 0; test_count++) {
        if (line[length - 1] == '\n') line[length - 1] = '\0';
        tests = realloc(tests, (test_count + 1) * sizeof *tests);
        if (tests == NULL || (tests[test_count] = strdup(line)) == NULL) fail("sweep");
    }
    free(line);
}

int main(int count, char **words) {
    if (count != 4) {
        fputs("usage: sweep LIBRARY SECONDS PROGRAM <TESTS\n", stderr);
        return 2;
    }
    setenv("LD_PRELOAD", words[1], 1);
    // Else each run looks up the library's functions that it comes upon first.
    setenv("LD_BIND_NOW", "1", 1);
    seconds = atol(words[2]);
    program = words[3];
    prctl(PR_SET_PDEATHSIG, SIGKILL);
    read_tests();
    sums = mmap(NULL, sizeof *sums, PROT_READ | PROT_WRITE, MAP_SHARED | MAP_ANONYMOUS, -1, 0);
    cpu_set_t cores;
    if (sums == MAP_FAILED || sched_getaffinity(0, sizeof cores, &cores) != 0) fail("sweep");
    for (int worker = CPU_COUNT(&cores); worker > 0; worker--) {
        pid_t pid = fork();
        if (pid < 0) fail("fork");
        if (pid == 0) work();
    }
    for (int status; wait(&status) > 0;)
        if (status != 0) sums->wrong += 1;
    printf("%lu runs, %lu wrong\n", sums->runs, sums->wrong);
    return sums->wrong == 0 && sums->runs > 0 ? 0 : 1;
}
