// The program of refusals-test. It copies its input and asks for memory before
// each byte; what it does where that is refused is the word that it is given.
// It has tests, too, which ask twice.
#include <stdlib.h>
#include <string.h>
#include <unistd.h>

static const char *word;

static int is(const char *other) { return strcmp(word, other) == 0; }

static void say(int stream, const char *text) {
    if (write(stream, text, strlen(text)) < 0) exit(5);
}

static int fault(const char *text) {
    say(STDERR_FILENO, text);
    return 2;
}

// Answers the status to end with, or nothing to go on without memory.
static int refuse(size_t at) {
    static char block[1 << 20];
    if (is("ignores") || ((is("spares") || is("forgets")) && at > 0)) return 0;
    if (is("crashes")) *(volatile char *)0 = 0;
    if (is("hangs")) pause();
    while (is("floods"))
        if (write(STDOUT_FILENO, block, sizeof block) < 0) return 4;
    if (is("prints")) say(STDOUT_FILENO, "a");
    say(STDERR_FILENO, is("mumbles") ? "refused\n" : "refused: memory\n");
    if (is("breaks_off")) _exit(3);
    return is("fails") ? 2 : 3;
}

// A test says that it noticed a refusal and passes, says so of the second one alone, says nothing, fails at the second one, or doesn't pass
// at all.
static int test(void) {
    for (int at = 0; at < 2; at++) {
        char *volatile byte = malloc(1);
        if (byte == NULL && at > 0 && is("calls::fails")) return 101;
        if (byte == NULL && !is("calls::is_silent") && (at > 0 || !is("calls::is_late"))) say(STDOUT_FILENO, "memory\n");
        free(byte);
    }
    if (is("calls::never")) return 101;
    say(STDOUT_FILENO, "\ntest result: ok\n");
    return 0;
}

int main(int count, char **words) {
    char text[100];
    size_t length = 0;
    word = count == 2 ? words[1] : "";
    if (is("--list")) {
        say(STDOUT_FILENO, "calls::passes: test\ncalls::is_late: test\ncalls::is_silent: test\n");
        say(STDOUT_FILENO, "calls::fails: test\ncalls::never: test\nothers::fails: test\ntests: 6\n");
        return 0;
    }
    if (strncmp(word, "calls::", 7) == 0) return test();
    for (;;) {
        // The compiler would leave out a request that nobody looks at.
        char *volatile byte = is("asks_nothing") ? text : malloc(1);
        if (byte == NULL) {
            int status = refuse(length);
            if (status != 0) return status;
            if (!is("spares")) return 0;
        }
        char *place = text + length;
        ssize_t got = read(STDIN_FILENO, place, 1);
        if (got == 0) break;
        if (got < 0 || *place == '!') return fault("fault: input\n");
        length += 1;
        // Output and input stand in the middle while requests are refused.
        if (is("spares") && write(STDOUT_FILENO, place, 1) != 1) return fault("fault: output\n");
    }
    if (is("never_ends")) pause();
    if (!is("spares") && write(STDOUT_FILENO, text, length) != (ssize_t)length) return fault("fault: output\n");
    return is("ends_wrongly") ? 1 : 0;
}
