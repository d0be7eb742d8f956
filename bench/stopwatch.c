/* `stopwatch RUNS INPUT PROGRAM WORDS..` runs a program so many times on a file, its output dropped,
   and prints the user microseconds of one run and the largest peak of resident memory in KiB.

   Built for the machine itself; Linux with 64 bits. What it calls is declared here, as no header may be
   there. The kernel tells user from system time by sampling, so many short runs are added up. */
extern int fork(void), dup2(int, int), open(const char *, int, ...), printf(const char *, ...);
extern int execv(const char *, char *const *), wait4(int, int *, int, void *);
extern void _exit(int);

/* seconds and microseconds of user and of system time, the peak in KiB, and the rest */
struct usage {
    long user[2], system[2], peak, rest[13];
};

static void become(const char *input, char *const *program) {
    if (dup2(open(input, 0), 0) == 0 && dup2(open("/dev/null", 1), 1) == 1) execv(program[0], program);
    _exit(127);
}

int main(int words, char **word) {
    long runs = 0, user = 0, peak = 0;
    if (words < 4) return 2;
    for (const char *digit = word[1]; *digit; digit++) runs = runs * 10 + (*digit - '0');
    for (long run = 0; run < runs; run++) {
        struct usage used;
        int status, child = fork();
        if (child == 0) become(word[2], word + 3);
        if (child < 0 || wait4(child, &status, 0, &used) != child || status != 0) return 1;
        user += used.user[0] * 1000000 + used.user[1];
        if (used.peak > peak) peak = used.peak;
    }
    if (runs) printf("%ld %ld\n", user / runs, peak);
    return runs == 0;
}
