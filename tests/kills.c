/* Checks of the desk killed at random moments:  kills SEED KILLS TABLE CASES PROGRAM WORDS..
 * A line of CASES has the words of one check (data, ARQC) and the ARPC that it gives, by rising counters; PROGRAM with its WORDS and those of a case is
 * the check. A quarter of the kills is spread from the program's start on, a quarter from the making of TABLE.part on, and two quarters close in on the
 * renaming and on the answer. After each kill the table is the one of before byte for byte, or the counter asked again is refused with 23; and a counter
 * that was answered is always refused. Fails too where a kind of moment was hit too seldom to say anything. */
#define _POSIX_C_SOURCE 200809L
#include <poll.h>
#include <signal.h>
#include <stdint.h>
#include <stdio.h>
#include <stdlib.h>
#include <string.h>
#include <sys/inotify.h>
#include <sys/stat.h>
#include <sys/wait.h>
#include <time.h>
#include <unistd.h>

enum { WORDS = 64, CASES = 4096, FILE_MOST = 4096, OUTPUT = 512, SELDOM = 5, AGAIN = 10 };
enum { FROM_START, FROM_PART, AT_RENAMING, AT_ANSWER, KINDS };

/* What a kill left: the table of before, without or with a part of the new one; the new table, without or with an answer. */
enum { EARLIER, BETWEEN, UNANSWERED, ANSWERED, MOMENTS };

static struct {
    char data[131], arqc[17], arpc[17];
} cases[CASES];
static int case_count;
static char *words[WORDS];
static int word_count;
static const char *table;
static char part[FILE_MOST], lock[FILE_MOST];
static int watch;
static uint64_t state;

static void fail(const char *what) {
    printf("kills: FAILED: %s\n", what);
    exit(1);
}

static double random_part(void) {
    state ^= state << 13;
    state ^= state >> 7;
    state ^= state << 17;
    return (double)(state >> 11) / 9007199254740992.0;
}

static double now(void) {
    struct timespec t;
    clock_gettime(CLOCK_MONOTONIC, &t);
    return (double)t.tv_sec + 1e-9 * (double)t.tv_nsec;
}

/* Up to a moment: asleep while it is far, awake at the end. */
static void wait_until(double moment) {
    while (now() < moment) {
        double left = moment - now() - 0.0005;
        struct timespec t;
        if (left <= 0) continue;
        t.tv_sec = (time_t)left;
        t.tv_nsec = (long)(1e9 * (left - (double)t.tv_sec));
        nanosleep(&t, NULL);
    }
}

/* One run of a check. */
struct run {
    pid_t process;
    int out, ended, status;
    double begun, locked, made, end;
    char said[OUTPUT], refused[OUTPUT];
};

static FILE *refusals;

static void start(struct run *run, int number) {
    int ends[2];
    char csu[] = "00820000";
    memset(run, 0, sizeof *run);
    if (pipe(ends) != 0 || ftruncate(fileno(refusals), 0) != 0) fail("no pipe");
    rewind(refusals);
    run->begun = now();
    run->process = fork();
    if (run->process < 0) fail("no process");
    if (run->process == 0) {
        words[word_count] = cases[number].data;
        words[word_count + 1] = cases[number].arqc;
        words[word_count + 2] = csu;
        words[word_count + 3] = NULL;
        if (dup2(ends[1], STDOUT_FILENO) >= 0 && dup2(fileno(refusals), STDERR_FILENO) >= 0) {
            close(ends[0]);
            close(ends[1]);
            execv(words[0], words);
        }
        _exit(127);
    }
    close(ends[1]);
    run->out = ends[0];
}

/* The process is waited for, and what it said is read: all that reached the pipe. */
static void finish(struct run *run) {
    ssize_t n, length = 0;
    if (!run->ended && waitpid(run->process, &run->status, 0) != run->process) fail("a process is lost");
    run->end = now();
    while (length + 1 < OUTPUT && (n = read(run->out, run->said + length, (size_t)(OUTPUT - 1 - length))) > 0) length += n;
    close(run->out);
    rewind(refusals);
    run->refused[fread(run->refused, 1, OUTPUT - 1, refusals)] = '\0';
}

/* What the directory tells, for at most so long; notes when the lock was opened and the part made. */
static void look(struct run *run, int milliseconds) {
    static union {
        struct inotify_event event;
        char bytes[8192];
    } room;
    struct pollfd ready = {0, POLLIN, 0};
    ssize_t n;
    char *at;
    ready.fd = watch;
    if (poll(&ready, 1, milliseconds) <= 0) return;
    n = read(watch, room.bytes, sizeof room.bytes);
    for (at = room.bytes; n > 0 && at < room.bytes + n;) {
        struct inotify_event *event = (struct inotify_event *)(void *)at;
        const char *name = event->len > 0 ? event->name : "";
        if (strcmp(name, strrchr(lock, '/') + 1) == 0 && (event->mask & IN_OPEN) && run->locked == 0) run->locked = now();
        if (strcmp(name, strrchr(part, '/') + 1) == 0 && (event->mask & IN_CREATE) && run->made == 0) run->made = now();
        at += sizeof *event + event->len;
    }
}

static int has_ended(struct run *run) {
    if (!run->ended && waitpid(run->process, &run->status, WNOHANG) == run->process) run->ended = 1;
    return run->ended;
}

/* A whole run. */
static void whole(struct run *run, int number) {
    start(run, number);
    while (!has_ended(run)) look(run, 1);
    look(run, 0);
    finish(run);
}

static int accepted(const struct run *run, int number) {
    char wanted[32];
    sprintf(wanted, "arpc %s\n", cases[number].arpc);
    return WIFEXITED(run->status) && WEXITSTATUS(run->status) == 0 && strcmp(run->said, wanted) == 0;
}

static void must_be_refused(int number, int answered) {
    struct run run;
    whole(&run, number);
    if (WIFEXITED(run.status) && WEXITSTATUS(run.status) == 1 && strstr(run.refused, "refusal 23:") != NULL && run.said[0] == '\0') return;
    printf("kills: counter %d asked again: status %d: %s%s", number + 1, WIFEXITED(run.status) ? WEXITSTATUS(run.status) : -1, run.said, run.refused);
    fail(answered ? "a counter that was answered is not refused with 23" : "the table after a kill is neither the one of before nor one that has the counter");
}

static size_t bytes_of(const char *file, char *to) {
    FILE *from = fopen(file, "rb");
    size_t n;
    if (from == NULL) return 0;
    n = fread(to, 1, FILE_MOST, from);
    fclose(from);
    return n;
}

/* When a file was made or written last; 0 where there is none. */
static double changed(const char *file) {
    struct stat s;
    return stat(file, &s) != 0 ? 0 : (double)s.st_ctim.tv_sec + 1e-9 * (double)s.st_ctim.tv_nsec;
}

/* The longest time until a kill; of the two that close in, from the opening of the lock, nine tenths of it at least. */
static double length[KINDS];

static void measure(int number) {
    struct run run;
    whole(&run, number);
    if (!accepted(&run, number)) {
        printf("%s%s", run.said, run.refused);
        fail("a whole run is not accepted");
    }
    length[FROM_START] = run.end - run.begun;
    length[FROM_PART] = run.end - run.made;
    length[AT_RENAMING] = length[AT_ANSWER] = run.end - run.locked;
}

/* A machine has other work too, which makes runs longer and shorter, so the times follow what was hit, by great steps until they first turn: of those that
 * are spread one kill in five comes after the answer. */
static void follow(int kind, int moment) {
    static double step[KINDS] = {0.04, 0.04, 0.2, 0.2};
    static int before[KINDS];
    int sought = kind == AT_RENAMING ? BETWEEN : UNANSWERED, spread = kind == FROM_START || kind == FROM_PART;
    int longer = moment < sought || (spread && moment == sought), shorter = moment > sought, now = longer - shorter;
    if (!spread && now * before[kind] < 0 && step[kind] > 0.02) step[kind] /= 2;
    if (now != 0) before[kind] = now;
    length[kind] *= longer ? 1 + step[kind] : shorter ? 1 - step[kind] * (spread ? 4 : 1) : 1;
}

static void kill_one(struct run *run, int number, int kind) {
    double from, share = random_part();
    if (kind == AT_RENAMING || kind == AT_ANSWER) share = 0.9 + 0.1 * share;
    start(run, number);
    for (;;) {
        from = kind == FROM_START ? run->begun : kind == FROM_PART ? run->made : run->locked;
        if (from != 0 || has_ended(run)) break;
        look(run, 1);
    }
    if (!run->ended) wait_until(from + share * length[kind]);
    if (!has_ended(run)) kill(run->process, SIGKILL);
    finish(run);
    /* what the directory still has to tell is of this run, and not of the next */
    look(run, 0);
}

static void read_cases(const char *file) {
    FILE *from = fopen(file, "r");
    if (from == NULL) fail("no cases");
    while (case_count < CASES && fscanf(from, "%130s %16s %16s", cases[case_count].data, cases[case_count].arqc, cases[case_count].arpc) == 3) case_count++;
    fclose(from);
}

int main(int argc, char **argv) {
    static char before[FILE_MOST], after[FILE_MOST], directory[FILE_MOST];
    int kills, i, next = 0, hit[MOMENTS] = {0};
    double begun = now();
    if (argc < 6 || argc > WORDS - 4 || strchr(argv[3], '/') == NULL || strlen(argv[3]) > FILE_MOST / 2) fail("SEED KILLS TABLE CASES PROGRAM WORDS..");
    state = strtoull(argv[1], NULL, 10) * 6364136223846793005u + 1442695040888963407u;
    kills = atoi(argv[2]);
    table = argv[3];
    sprintf(part, "%s.part", table);
    sprintf(lock, "%s.lock", table);
    strcpy(directory, table);
    *strrchr(directory, '/') = '\0';
    read_cases(argv[4]);
    for (i = 5; i < argc; i++) words[word_count++] = argv[i];
    if (case_count < kills + 1) fail("not enough cases");
    refusals = tmpfile();
    watch = inotify_init1(IN_NONBLOCK | IN_CLOEXEC);
    if (refusals == NULL || watch < 0 || inotify_add_watch(watch, directory, IN_CREATE | IN_OPEN) < 0) fail("the directory cannot be watched");
    measure(next++);
    for (i = 0; i < kills; i++) {
        struct run run;
        double made = changed(part);
        size_t size = bytes_of(table, before);
        int old, moment;
        kill_one(&run, next, i % KINDS);
        old = bytes_of(table, after) == size && memcmp(before, after, size) == 0;
        moment = run.said[0] != '\0' ? ANSWERED : !old ? UNANSWERED : changed(part) != made ? BETWEEN : EARLIER;
        hit[moment]++;
        follow(i % KINDS, moment);
        if (moment >= UNANSWERED) must_be_refused(next++, moment == ANSWERED);
    }
    for (i = 0; i < AGAIN && i < next; i++) must_be_refused((int)(random_part() * next), 1);
    printf("seed %s, %d kills in %.1f s: %d ahead of the new table's file, %d ahead of its renaming, %d after it and unanswered, %d answered\n", argv[1],
           kills, now() - begun, hit[EARLIER], hit[BETWEEN], hit[UNANSWERED], hit[ANSWERED]);
    if (hit[EARLIER] + hit[BETWEEN] < SELDOM || hit[UNANSWERED] < SELDOM || hit[ANSWERED] < SELDOM) fail("one of these moments was hit too seldom");
    return 0;
}
