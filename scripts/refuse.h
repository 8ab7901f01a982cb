// How a program under refuse.so and the sweep that started it speak with each other, over a socket.

// The socket in the program.
enum { LINK = 9 };

enum said {
    // By the whole run: one that was refused a request has ended, with this status of `waitpid`. It then waits for one byte.
    RUN_OVER,
    // By a run that was refused a request, at its very end.
    RUN_LEAVES,
    // By the whole run, at its very end.
    WHOLE_LEAVES,
};

struct event {
    enum said said;
    int status;
    // How many requests the speaker has made.
    unsigned long requests;
};
