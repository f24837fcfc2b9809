// Tries the functions of process.c, or of the kit. It is run with the arguments and the environment that it asks for:
//
//     env -i EMPTY= NAME=grün ./test_process one '' 'two three'
//
// It writes what is wrong, and ends with status 1.

#include <errno.h>
#include <pthread.h>
#include <stdbool.h>
#include <stdio.h>
#include <stdlib.h>
#include <string.h>
#include <sys/types.h>

extern char **environ;

size_t rattle_arg_count(void);
ssize_t rattle_arg(size_t number, unsigned char *room, size_t size);
ssize_t rattle_env(const char *name, unsigned char *room, size_t size);
ssize_t rattle_env_at(size_t number, unsigned char *room, size_t size);
int rattle_errno(void);
void rattle_set_errno(int number);

enum { ROOM = 64, UNTOUCHED = 0x5a };

static void check(bool is_right, const char *what) {
    if (!is_right) {
        fprintf(stderr, "%s\n", what);
        exit(1);
    }
}

typedef ssize_t (*puts_text)(const void *which, unsigned char *room, size_t size);

static ssize_t put_argument(const void *which, unsigned char *room, size_t size) { return rattle_arg(*(const size_t *)which, room, size); }
static ssize_t put_variable(const void *which, unsigned char *room, size_t size) { return rattle_env(which, room, size); }
static ssize_t put_entry(const void *which, unsigned char *room, size_t size) { return rattle_env_at(*(const size_t *)which, room, size); }

// In each room from none to more than is needed: the text and no byte after it, or that it does not fit, and then the room is full.
static void check_put(puts_text put, const void *which, const char *text, const char *what) {
    size_t length = strlen(text);
    for (size_t size = 0; size <= length + 2; size++) {
        unsigned char room[ROOM];
        memset(room, UNTOUCHED, ROOM);
        ssize_t found = put(which, room, size);
        size_t taken = size < length ? size : length;
        check(found == (size < length ? -2 : (ssize_t)length), what);
        check(memcmp(room, text, taken) == 0, what);
        for (size_t place = taken; place < ROOM; place++)
            check(room[place] == UNTOUCHED, what);
    }
}

static void check_missing(puts_text put, const void *which, const char *what) {
    unsigned char room[ROOM];
    memset(room, UNTOUCHED, ROOM);
    check(put(which, room, ROOM) == -1 && room[0] == UNTOUCHED, what);
}

static void *set_another(void *given) {
    check(rattle_errno() == 0, "a new thread has an error");
    rattle_set_errno(EPIPE);
    check(rattle_errno() == EPIPE && errno == EPIPE, "the error of a thread");
    return given;
}

int main(int count, char **words) {
    static const char *const asked[] = {"one", "", "two three"};
    check(count == 4 && rattle_arg_count() == 4, "how many arguments there are");
    for (size_t number = 0; number < 3; number++) {
        size_t place = number + 1;
        check_put(put_argument, &place, asked[number], "an argument");
    }
    size_t first = 0, after = 4, far = (size_t)-1, second = 1, third = 2;
    // (an emulator may hand the environment over in another order)
    bool is_turned = strncmp(environ[0], "NAME", 4) == 0;
    check(strlen(words[0]) + 2 < ROOM, "the name of the program is too long for the test");
    check_put(put_argument, &first, words[0], "the name of the program");
    check_missing(put_argument, &after, "an argument after the last");
    check_missing(put_argument, &far, "an argument far after the last");
    check_put(put_variable, "NAME", "gr\xc3\xbcn", "a variable");
    check_put(put_variable, "EMPTY", "", "an empty variable");
    check_missing(put_variable, "NAM", "a variable that is not there");
    check_put(put_entry, is_turned ? &second : &first, "EMPTY=", "an entry");
    check_put(put_entry, is_turned ? &first : &second, "NAME=gr\xc3\xbcn", "an entry with a value");
    check_missing(put_entry, &third, "an entry after the last");
    check_missing(put_entry, &far, "an entry far after the last");
    rattle_set_errno(ENOENT);
    check(errno == ENOENT && rattle_errno() == ENOENT, "the error of the first thread");
    pthread_t thread;
    check(pthread_create(&thread, NULL, set_another, NULL) == 0 && pthread_join(thread, NULL) == 0, "a thread");
    check(rattle_errno() == ENOENT, "the error of another thread came over");
    clearenv();
    check_missing(put_entry, &first, "an entry of no environment");
    check_missing(put_variable, "NAME", "a variable of no environment");
    puts("process: as it should be");
    return 0;
}
