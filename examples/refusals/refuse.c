/* Refuses growths of a program, and fails calls of its sockets. It is loaded by LD_PRELOAD, and told by its environment what to do.

   REFUSE_EXPECTED=PATH   At each growth the process forks: the child has this one refused and runs on to its end, its output
                          going to memory, and the parent compares it with PATH.out, PATH.err and REFUSE_STATUS, which the
                          program left without a refusal. Then the parent goes on to the next growth.
   REFUSE_LATER=1         another child has each later growth refused too
   REFUSE_TWICE=1         the growth behind the refused one is refused too
   REFUSE_AGAIN=1         the last line of the output, which begins with "again:", may differ: its numbers are added up
   REFUSE_FILE=PATH       a file that the program writes: a child that ends for want of memory must have written none,
                          and may have printed all before
   REFUSE_AT=N            no fork: the Nth growth behind the first accept is refused
   FAIL_CALL, FAIL_AT, FAIL_ERROR    the call of this name that is the FAIL_ATth behind the first accept fails so
   REFUSE_REPORT=PATH     where what came of it is appended */
#define _GNU_SOURCE
#include <dlfcn.h>
#include <errno.h>
#include <fcntl.h>
#include <signal.h>
#include <stdarg.h>
#include <stdio.h>
#include <stdlib.h>
#include <string.h>
#include <sys/epoll.h>
#include <sys/mman.h>
#include <sys/socket.h>
#include <sys/stat.h>
#include <sys/wait.h>
#include <unistd.h>

#define SUMS 16
#define OUT (1 << 22)
#define SECONDS 20

extern void *__libc_malloc(size_t), *__libc_realloc(void *, size_t), *__libc_calloc(size_t, size_t);

static int forks, is_child, later, again, twice, more, accepted;
static long growths, same, memory, other, sums[SUMS], refuse_at, fail_at, calls;
static char expected_out[OUT], expected_err[1 << 16], made_out[OUT], made_err[1 << 16];
static long expected_out_len, expected_err_len;
static int expected_status, out_file = -1, err_file = -1, fail_error;
static const char *report_file, *written_file, *fail_call;

static void report(const char *format, ...) {
    char line[1000];
    va_list words;
    va_start(words, format);
    int length = vsnprintf(line, sizeof line, format, words);
    va_end(words);
    if (length >= (int)sizeof line) length = sizeof line - 1;
    int file = report_file ? open(report_file, O_WRONLY | O_APPEND | O_CREAT, 0644) : -1;
    if (file < 0 || write(file, line, length) != length) _exit(97);
    close(file);
}

static long number(const char *name) {
    const char *word = getenv(name);
    return word ? atol(word) : 0;
}

static long slurp(const char *path, const char *ending, char *into, long room) {
    char name[600];
    snprintf(name, sizeof name, "%s.%s", path, ending);
    int file = open(name, O_RDONLY);
    long length = 0, got;
    if (file < 0) _exit(96);
    while ((got = read(file, into + length, room - length)) > 0) length += got;
    close(file);
    return length;
}

__attribute__((constructor)) static void begin(void) {
    const char *path = getenv("REFUSE_EXPECTED");
    report_file = getenv("REFUSE_REPORT");
    refuse_at = number("REFUSE_AT");
    fail_call = getenv("FAIL_CALL");
    fail_at = number("FAIL_AT");
    fail_error = number("FAIL_ERROR");
    if (!path) return;
    expected_out_len = slurp(path, "out", expected_out, OUT - 1);
    expected_err_len = slurp(path, "err", expected_err, sizeof expected_err - 1);
    expected_status = number("REFUSE_STATUS");
    later = number("REFUSE_LATER");
    twice = number("REFUSE_TWICE");
    again = number("REFUSE_AGAIN");
    written_file = getenv("REFUSE_FILE");
    out_file = memfd_create("out", 0);
    err_file = memfd_create("err", 0);
    forks = 1;
}

__attribute__((destructor)) static void end(void) {
    if (is_child || !report_file) return;
    if (!forks) {
        report("growths %ld calls %ld\n", growths, calls);
        return;
    }
    forks = 0;
    report("growths %ld same %ld memory %ld other %ld sums", growths, same, memory, other);
    for (int i = 0; i < SUMS; i++) report(" %ld", sums[i]);
    report("\n");
}

/* In the child: where a file is read is shared with the parent, so each is opened anew at its place. */
static void reopen(void) {
    for (int file = 0; file < 16; file++) {
        struct stat about;
        char name[40];
        if (file == 1 || file == 2 || file == out_file || file == err_file) continue;
        if (fstat(file, &about) || !S_ISREG(about.st_mode)) continue;
        snprintf(name, sizeof name, "/proc/self/fd/%d", file);
        off_t place = lseek(file, 0, SEEK_CUR);
        int fresh = open(name, O_RDONLY);
        if (fresh < 0) continue;
        lseek(fresh, place, SEEK_SET);
        dup2(fresh, file);
        close(fresh);
    }
}

/* The line that counts calls that were made again: its numbers are added up. */
static int is_same_but_for_the_counts(long length) {
    made_out[length] = expected_out[expected_out_len] = 0;
    char *made = strstr(made_out, "again:"), *wanted = strstr(expected_out, "again:");
    if (!made || !wanted || made - made_out != wanted - expected_out) return 0;
    if (memcmp(made_out, expected_out, made - made_out)) return 0;
    for (int i = 0; *made && i < SUMS; made++)
        if (*made >= '0' && *made <= '9') sums[i++] += strtol(made, &made, 10);
    return 1;
}

static int has_written_nothing(void) {
    return !written_file || access(written_file, F_OK);
}

/* What a child printed is compared with what is printed without a refusal. */
static void judge(int all, int status) {
    long out = pread(out_file, made_out, OUT - 1, 0), err = pread(err_file, made_err, sizeof made_err - 1, 0);
    int code = WIFEXITED(status) ? WEXITSTATUS(status) : 1000 + WTERMSIG(status);
    int errs = err == expected_err_len && !memcmp(made_err, expected_err, err);
    int outs = again ? is_same_but_for_the_counts(out) : out == expected_out_len && !memcmp(made_out, expected_out, out);
    if (code == expected_status && errs && outs) same++;
    else if (again && code == 4 && !out && !err) memory++; /* its input could not be read */
    else if (again && twice && code == 1 && !out) memory++; /* what is none of its calls failed, and once more as it began again */
    else if (!again && code == 4 && (out == 0 || (written_file && outs)) && err == 15 && !memcmp(made_err, "warren: memory\n", 15) && has_written_nothing()) memory++;
    else {
        other++;
        made_out[out < 300 ? out : 300] = made_err[err < 200 ? err : 200] = 0;
        report("differs at growth %ld%s: status %d, [%s] [%s]\n", growths, all ? " and later" : "", code, made_err, made_out);
    }
}

/* Tells whether this is the child. */
static int try_child(int all) {
    if (ftruncate(out_file, 0) || ftruncate(err_file, 0)) _exit(98);
    lseek(out_file, 0, SEEK_SET);
    lseek(err_file, 0, SEEK_SET);
    if (written_file) unlink(written_file);
    pid_t child = fork();
    if (child < 0) _exit(95);
    if (child == 0) {
        is_child = 1;
        later = all;
        more = twice;
        signal(SIGALRM, SIG_DFL);
        alarm(SECONDS);
        reopen();
        dup2(out_file, 1);
        dup2(err_file, 2);
        return 1;
    }
    int status;
    while (waitpid(child, &status, 0) < 0 && errno == EINTR) {}
    judge(all, status);
    return 0;
}

/* Whether this growth is refused. */
static int is_refused(void) {
    if (is_child) return later || (more > 0 && more--);
    if (forks) {
        int tries_later = later;
        growths++;
        if (try_child(0) || (tries_later && try_child(1))) {
            errno = ENOMEM;
            return 1;
        }
        return 0;
    }
    if (!accepted) return 0;
    if (++growths != refuse_at) return 0;
    errno = ENOMEM;
    return 1;
}

void *malloc(size_t size) { return is_refused() ? 0 : __libc_malloc(size); }
void *realloc(void *old, size_t size) { return is_refused() ? 0 : __libc_realloc(old, size); }
void *calloc(size_t count, size_t size) { return is_refused() ? 0 : __libc_calloc(count, size); }

/* Whether this call fails. */
static int fails(const char *name) {
    if (!accepted || !fail_call || strcmp(name, fail_call)) return 0;
    if (++calls != fail_at) return 0;
    errno = fail_error;
    return 1;
}

#define SYSTEM(name) __extension__({ static __typeof__(&name) system_call; if (!system_call) system_call = (__typeof__(&name))dlsym(RTLD_NEXT, #name); system_call; })

int accept4(int socket, struct sockaddr *address, socklen_t *length, int flags) {
    if (fails("accept4")) return -1;
    int made = SYSTEM(accept4)(socket, address, length, flags);
    if (made >= 0) accepted = 1;
    return made;
}
ssize_t recv(int socket, void *bytes, size_t size, int flags) { return fails("recv") ? -1 : SYSTEM(recv)(socket, bytes, size, flags); }
ssize_t send(int socket, const void *bytes, size_t size, int flags) { return fails("send") ? -1 : SYSTEM(send)(socket, bytes, size, flags); }
int epoll_wait(int poll, struct epoll_event *events, int most, int wait) { return fails("epoll_wait") ? -1 : SYSTEM(epoll_wait)(poll, events, most, wait); }
int epoll_ctl(int poll, int what, int file, struct epoll_event *event) { return fails("epoll_ctl") ? -1 : SYSTEM(epoll_ctl)(poll, what, file, event); }
int close(int file) { return fails("close") ? -1 : SYSTEM(close)(file); }
