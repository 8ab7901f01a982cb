// The program lower_tool once more, over the library: its words, its standard input, both outputs and its status. So what runs that
// program runs the library. It takes no memory itself, so each request for memory is the library's.
#include <errno.h>
#include <string.h>
#include <unistd.h>

#include "laxirbon.h"

enum { MOST = 1 << 28 };

static uint8_t document[MOST], out[MOST];

static const struct {
    const char *word;
    enum laxirbon_mode mode;
} MODES[] = {
    {"body", LAXIRBON_BODY}, {"path", LAXIRBON_PATH}, {"type", LAXIRBON_TYPE}, {"pat", LAXIRBON_PAT}, {"fn", LAXIRBON_FN},
};

// The mode that the words call for, or a number that is none's.
static uint32_t mode_of(int count, char **words) {
    for (size_t i = 0; count == 2 && i < sizeof MODES / sizeof *MODES; i++)
        if (strcmp(words[1], MODES[i].word) == 0) return MODES[i].mode;
    return UINT32_MAX;
}

// The length of standard input, or -1.
static ssize_t read_all(void) {
    size_t length = 0;
    while (length < MOST) {
        ssize_t more = read(STDIN_FILENO, document + length, MOST - length);
        if (more == 0) return (ssize_t)length;
        if (more > 0) length += (size_t)more;
        if (more < 0 && errno != EINTR) return -1;
    }
    return -1;
}

static int write_all(int stream, const void *text, size_t length) {
    for (size_t at = 0; at < length;) {
        ssize_t more = write(stream, (const char *)text + at, length - at);
        if (more > 0) at += (size_t)more;
        if (more < 0 && errno != EINTR) return -1;
    }
    return 0;
}

static int fault(const char *text) {
    write_all(STDERR_FILENO, text, strlen(text));
    return LAXIRBON_FAULT;
}

int main(int count, char **words) {
    uint32_t mode = mode_of(count, words);
    ssize_t length = mode == UINT32_MAX ? 0 : read_all();
    if (length < 0) return fault("fault: input\n");
    size_t needed = 0;
    uint32_t status = laxirbon_lower(mode, document, (size_t)length, out, MOST, &needed);
    if (status == LAXIRBON_TOO_SHORT) return fault("as_program: too short\n");
    if (status != LAXIRBON_OK) {
        write_all(STDERR_FILENO, out, needed);
    } else if (write_all(STDOUT_FILENO, out, needed) < 0) {
        return fault("fault: output\n");
    }
    return (int)status;
}
