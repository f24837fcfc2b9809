// What the program asks of its process on arm64: its arguments, its environment and the number of the last error.
//
// The kit has these for x86-64 alone. No proof covers them. test_process.c tries them.

#include <errno.h>
#include <stddef.h>
#include <stdlib.h>
#include <sys/types.h>
#include <unistd.h>

enum { IS_MISSING = -1, DOES_NOT_FIT = -2 };

extern char **environ;

static size_t arguments_count;
static char **arguments;

// The C library calls what stands in this section before `main`, with what it calls `main` with.
static void keep_arguments(int count, char **words, char **variables) {
    (void)variables;
    arguments_count = count > 0 ? (size_t)count : 0;
    arguments = words;
}

__attribute__((section(".init_array"), used)) static void (*const keeps)(int, char **, char **) = keep_arguments;

// Puts a text at the start of a room, without a zero after it, and answers its length, or what is wrong: there is no text, or the room is
// too small, and then it is full.
static ssize_t put(const char *text, unsigned char *room, size_t size) {
    size_t length = 0;
    if (text == NULL)
        return IS_MISSING;
    for (; text[length] != '\0'; length++) {
        if (length == size)
            return DOES_NOT_FIT;
        room[length] = (unsigned char)text[length];
    }
    return (ssize_t)length;
}

// How many arguments there are, with the name of the program.
size_t rattle_arg_count(void) { return arguments_count; }

// Puts an argument in a room.
ssize_t rattle_arg(size_t number, unsigned char *room, size_t size) {
    return put(number < arguments_count ? arguments[number] : NULL, room, size);
}

// Puts the value of a variable of the environment in a room. The name ends in a zero.
ssize_t rattle_env(const char *name, unsigned char *room, size_t size) { return put(getenv(name), room, size); }

// Puts an entry of the environment, NAME=VALUE, in a room.
ssize_t rattle_env_at(size_t number, unsigned char *room, size_t size) {
    char **entry = environ;
    if (entry == NULL)
        return IS_MISSING;
    for (; *entry != NULL && number > 0; number--)
        entry++;
    return put(*entry, room, size);
}

// The number of the last error of this thread.
int rattle_errno(void) { return errno; }

void rattle_set_errno(int number) { errno = number; }
