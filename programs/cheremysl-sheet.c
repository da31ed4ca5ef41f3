/*
 * cheremysl-sheet [FILE]: the sheet of a job, as the proved program at PROGRAM prints it, to the
 * byte. The status of that program tells no refused job from a sheet; this one's does: 0 for a
 * sheet, 1 for a refused job, 2 for any other failure.
 */
#define _POSIX_C_SOURCE 200809L
#include <cheremysl.h>
#include <errno.h>
#include <fcntl.h>
#include <signal.h>
#include <stdio.h>
#include <string.h>
#include <sys/wait.h>
#include <unistd.h>

enum { SHEET, REFUSED, FAILED };
#define USAGE "usage: cheremysl-sheet [FILE]\n"
static const char version[] = "cheremysl-sheet " CHEREMYSL_VERSION_TEXT "\n";
static const char help[] = USAGE
    "Prints the sheet of the job in FILE, or on standard input without one or with -:\n"
    "name, port, length and bends of each pad, then the totals; or the refusal.\n"
    "--help prints this text, --version the version; -- ends the options.\n"
    "The status is 0 for a sheet, 1 for a refused job, 2 for any other failure.\n";

struct bytes {
    char at[4096]; /* the longest job takes 1,024, the longest text less than 1,300 */
    size_t count;
};

static void fail(const char *what, const char *thing, const char *why) {
    fprintf(stderr, "cheremysl-sheet: %s %s: %s\n", what, thing, why);
    _exit(FAILED);
}
static void cannot(const char *what, const char *thing) { fail(what, thing, strerror(errno)); }

/* Else a pipe would get a closed stream's number. A stream opened the wrong way fails as well. */
static void keep_standard_numbers(void) {
    for (int number = 0; number <= 2; number++)
        if (fcntl(number, F_GETFD) < 0) open("/dev/null", number == 0 ? O_WRONLY : O_RDONLY);
}

/* Reads up to the end, but no more than so many bytes, and closes. */
static void read_bytes(int from, size_t most, struct bytes *all, const char *name) {
    all->count = 0;
    for (ssize_t got = 1; got != 0 && all->count < most;) {
        got = read(from, all->at + all->count, most - all->count);
        if (got < 0 && errno != EINTR) cannot("cannot read", name);
        if (got > 0) all->count += (size_t)got;
    }
    close(from);
}

/* Writes all and closes, since some errors come no sooner. */
static void write_bytes(int to, const char *at, size_t count, const char *name) {
    while (count > 0) {
        ssize_t put = write(to, at, count);
        if (put < 0 && errno != EINTR) cannot("cannot write", name);
        if (put > 0) at += put, count -= (size_t)put;
    }
    if (close(to) != 0 && errno != EINTR) cannot("cannot write", name);
}

/* One byte more than a job may have: a longer file is refused too. */
static void read_job(const char *file, struct bytes *job) {
    int standard = strcmp(file, "-") == 0, from = standard ? 0 : open(file, O_RDONLY);
    if (from < 0) cannot("cannot open", file);
    read_bytes(from, CHEREMYSL_MAX_JOB_BYTES + 1, job, standard ? "standard input" : file);
}

/* No end of a pipe that is for the front may stay open here: each would wait for the other. */
static void become_program(const int *in, const int *out) {
    close(out[0]);
    if (dup2(in[0], 0) == 0 && dup2(out[1], 1) == 1) execl(PROGRAM, PROGRAM, (char *)NULL);
    cannot("cannot run", PROGRAM);
}

/* The proved program's text. The job fits a pipe's buffer, so it is there before its reader. */
static void run_program(const struct bytes *job, struct bytes *text) {
    int in[2], out[2], ended = 0;
    if (pipe(in) != 0 || pipe(out) != 0) cannot("cannot make", "a pipe");
    write_bytes(in[1], job->at, job->count, "a pipe");
    pid_t child = fork();
    if (child < 0) cannot("cannot run", PROGRAM);
    if (child == 0) become_program(in, out);
    close(out[1]);
    read_bytes(out[0], sizeof text->at - 1, text, PROGRAM);
    text->at[text->count] = 0;
    while (waitpid(child, &ended, 0) < 0)
        if (errno != EINTR) cannot("cannot wait for", PROGRAM);
    if (WIFEXITED(ended) && WEXITSTATUS(ended) == FAILED) _exit(FAILED); /* the child said why */
    if (ended != 0) fail("cannot use", PROGRAM, "it ended badly");
}

static int print(const char *text, size_t count, int status) {
    write_bytes(1, text, count, "standard output");
    return status;
}

static int print_sheet(const char *file) {
    struct bytes job, text;
    read_job(file, &job);
    run_program(&job, &text);
    if (strncmp(text.at, "refused ", 8) == 0) return print(text.at, text.count, REFUSED);
    if (strstr(text.at, "total ") == NULL) fail("cannot use", PROGRAM, "no sheet");
    return print(text.at, text.count, SHEET);
}

int main(int argc, char **argv) {
    int at = argc > 1 && strcmp(argv[1], "--") == 0 ? 2 : 1; /* where the file would stand */
    const char *word = argc > at ? argv[at] : "-";
    keep_standard_numbers();
    signal(SIGCHLD, SIG_DFL); /* where it is ignored, no status comes from the program */
    if (at == 1 && strcmp(word, "--help") == 0) return print(help, sizeof help - 1, SHEET);
    if (at == 1 && strcmp(word, "--version") == 0)
        return print(version, sizeof version - 1, SHEET);
    if (argc <= at + 1 && (at == 2 || word[0] != '-' || word[1] == 0)) return print_sheet(word);
    fputs(USAGE, stderr);
    return FAILED;
}
