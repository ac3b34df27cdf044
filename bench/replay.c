/* Does in the folder that it is given what standard input says, a call a line: `open NAME`, `write NAME PLACE LENGTH`,
 * `cut NAME LENGTH`, `fsync NAME` and `fdatasync NAME`, where the name `.` is the folder itself. It reads all before it
 * begins. At `mark NAME` it looks at the clock, and in the end it tells the seconds from each mark to the next or the end. */
#include <fcntl.h>
#include <stdio.h>
#include <stdlib.h>
#include <string.h>
#include <time.h>
#include <unistd.h>

enum { MOST_MARKS = 16, MOST_FILES = 64, MOST_NAME = 64, MOST_LENGTH = 1 << 16, MOST_CALLS = 1 << 20 };

struct call {
    char word[16];
    char name[MOST_NAME];
    long place;
    long length;
};

static struct { char name[MOST_NAME]; int file; } opened[MOST_FILES];
static int count;
static struct { char name[MOST_NAME]; double at; } marks[MOST_MARKS];
static int marked;
static char bytes[MOST_LENGTH];

static void fail(const char *what) {
    perror(what);
    exit(1);
}

static int file_of(const char *name) {
    for (int i = 0; i < count; i++)
        if (strcmp(opened[i].name, name) == 0)
            return opened[i].file;
    fail("replay: a file that is not open");
    return -1;
}

static void open_file(const char *name) {
    if (count == MOST_FILES)
        fail("replay: too many files");
    strcpy(opened[count].name, name);
    opened[count].file = open(name, O_RDWR | O_CREAT | O_CLOEXEC, 0666);
    if (opened[count].file < 0)
        fail(name);
    count++;
}

static double now(void) {
    struct timespec time;
    clock_gettime(CLOCK_MONOTONIC, &time);
    return time.tv_sec + time.tv_nsec / 1e9;
}

static void mark(const char *name) {
    if (marked == MOST_MARKS)
        fail("replay: too many marks");
    strcpy(marks[marked].name, name);
    marks[marked++].at = now();
}

static void tell_marks(void) {
    double end = now();
    for (int i = 0; i < marked; i++)
        printf("%s %.9f\n", marks[i].name, (i + 1 < marked ? marks[i + 1].at : end) - marks[i].at);
}

static int sync_folder(void) {
    int folder = open(".", O_RDONLY | O_CLOEXEC);
    int failed = folder < 0 || fsync(folder) != 0;
    close(folder);
    return failed;
}

static void repeat(const struct call *call) {
    int failed = 0;
    if (strcmp(call->word, "mark") == 0)
        mark(call->name);
    else if (strcmp(call->word, "open") == 0)
        open_file(call->name);
    else if (strcmp(call->word, "cut") == 0)
        failed = ftruncate(file_of(call->name), call->length) != 0;
    else if (strcmp(call->word, "write") == 0)
        failed = pwrite(file_of(call->name), bytes, call->length, call->place) != call->length;
    else if (strcmp(call->word, "fdatasync") == 0)
        failed = fdatasync(file_of(call->name)) != 0;
    else if (strcmp(call->name, ".") == 0)
        failed = sync_folder();
    else
        failed = fsync(file_of(call->name)) != 0;
    if (failed)
        fail(call->word);
}

static int read_call(struct call *call) {
    call->place = call->length = 0;
    if (scanf("%15s %63s", call->word, call->name) != 2)
        return 0;
    if (strcmp(call->word, "cut") == 0 && scanf("%ld", &call->length) != 1)
        return 0;
    if (strcmp(call->word, "write") == 0 && scanf("%ld %ld", &call->place, &call->length) != 2)
        return 0;
    return call->length <= MOST_LENGTH;
}

int main(int words, char **word) {
    struct call *calls = malloc(sizeof(struct call) * MOST_CALLS);
    int last = 0;
    if (words != 2 || calls == NULL || chdir(word[1]) != 0)
        fail("replay");
    while (last < MOST_CALLS && read_call(&calls[last]))
        last++;
    for (int i = 0; i < last; i++)
        repeat(&calls[i]);
    tell_marks();
    return 0;
}
