// Preloaded under the built program. At each request for memory the process
// forks: the child's request is refused, and it runs on to its end. The parent
// waits for it, tells the sweep, and goes on as if there had been no child: so
// one start of the program serves all requests of a golden test, and the parent is the
// run that no refusal meets.
#define _GNU_SOURCE
#include <errno.h>
#include <signal.h>
#include <stddef.h>
#include <sys/prctl.h>
#include <sys/wait.h>
#include <unistd.h>

#include "refuse.h"

void *__libc_malloc(size_t);
void *__libc_realloc(void *, size_t);

enum { STREAMS = 3 };

static unsigned long requests;
// No request counts before the program begins, and at its end.
static int counts;
static int is_refused_run;

static void say(enum said said, int status) {
    struct event event = {.said = said, .status = status, .requests = requests};
    if (write(LINK, &event, sizeof event) != sizeof event) _exit(1);
}

// Parent and child share the places in their streams, so a child's end puts
// them back, and what it wrote goes once the sweep has seen it.
static void put_back(const off_t *places) {
    for (int stream = 0; stream < STREAMS; stream++) {
        if (places[stream] < 0 || lseek(stream, 0, SEEK_CUR) == places[stream]) continue;
        if (lseek(stream, places[stream], SEEK_SET) < 0) _exit(1);
        if (stream != 0 && ftruncate(stream, places[stream]) != 0) _exit(1);
    }
}

static void wait_for(pid_t run) {
    int status;
    while (waitpid(run, &status, 0) < 0)
        if (errno != EINTR) _exit(1);
    say(RUN_OVER, status);
    char seen;
    if (read(LINK, &seen, 1) != 1) _exit(1);
}

// Whether this request is refused: in the child alone.
static int is_refused(void) {
    if (!counts) return 0;
    requests += 1;
    if (is_refused_run) return 0;
    counts = 0;
    off_t places[STREAMS];
    for (int stream = 0; stream < STREAMS; stream++) places[stream] = lseek(stream, 0, SEEK_CUR);
    pid_t run = fork();
    if (run < 0) _exit(1);
    if (run == 0) {
        prctl(PR_SET_PDEATHSIG, SIGKILL);
        is_refused_run = 1;
        errno = ENOMEM;
    } else {
        wait_for(run);
        put_back(places);
    }
    counts = 1;
    return is_refused_run;
}

void *malloc(size_t size) { return is_refused() ? NULL : __libc_malloc(size); }

void *realloc(void *old, size_t size) { return is_refused() ? NULL : __libc_realloc(old, size); }

__attribute__((constructor)) static void begin(void) { counts = 1; }

__attribute__((destructor)) static void end(void) {
    counts = 0;
    say(is_refused_run ? RUN_LEAVES : WHOLE_LEAVES, 0);
}
