/* Takes the words of tigercanon, and answers them as the program does, by calls of the library. tests/test-library holds it to the
 * program's answers.
 *
 *     caller COMMAND [--stem] [--no-sources] [--no-reserved] [--] SET [SET]
 *
 * In front of these may stand
 *     --rounds N     makes the call N times; standard error gets the memory that the process has after 10 rounds and after the last
 *     --threads N    makes the call in N threads at once; each has to answer the same
 *     --parts N      cuts the file of each set into N parts between its lines, the last of which have no bytes if the lines run out
 */
#include <pthread.h>
#include <stdlib.h>
#include <string.h>
#include <unistd.h>

#include "tigercanon.h"

/* The files of a stem, and the most parts that a set is cut into. */
#define FILES 9
#define PARTS 1000
#define THREADS 16
/* How much stack is touched ahead: more than a call uses. */
#define STACK (256 << 10)
#define PAGE 4096

/* A set: the parts, and how many. */
struct set {
    struct tigercanon_part parts[PARTS];
    size_t count;
};

/* What is asked for. */
struct job {
    const char *command;
    bool no_sources;
    bool no_reserved;
    struct set sets[2];
};

/* What comes of it. */
struct outcome {
    uint8_t status;
    struct tigercanon_fault fault;
    struct tigercanon_hash hash;
    struct tigercanon_text text;
};

static void stop(const char *told, const char *word)
{
    fprintf(stderr, "caller: %s %s\n", told, word);
    exit(70);
}

/* The bytes of a file. Where there are none, an address all the same. */
static struct tigercanon_part part_of(const char *name, bool may_be_absent)
{
    struct tigercanon_part part = {TIGERCANON_EMPTY, 0};
    uint8_t *bytes = NULL;
    size_t room = 0, length = 0, count = 1;
    FILE *file = fopen(name, "rb");
    if (file == NULL) {
        if (!may_be_absent) {
            stop("can't read", name);
        }
        return part;
    }
    while (count > 0) {
        if (length == room) {
            room = room * 2 + 65536;
            bytes = realloc(bytes, room);
            if (bytes == NULL) {
                stop("no memory for", name);
            }
        }
        count = fread(bytes + length, 1, room - length, file);
        length += count;
    }
    if (ferror(file)) {
        stop("can't read", name);
    }
    fclose(file);
    if (length == 0) {
        free(bytes);
        return part;
    }
    /* No byte more than the part has, so that a checker of addresses sees each that is read behind it. */
    part.bytes = realloc(bytes, length);
    part.length = length;
    return part;
}

/* Cuts a set's only part into so many parts, between its lines. */
static void cut(struct set *set, size_t count)
{
    const struct tigercanon_part whole = set->parts[0];
    size_t i, begin = 0;
    for (i = 0; i < count; i++) {
        size_t end = i + 1 == count ? whole.length : begin + (whole.length - begin) / (count - i);
        struct tigercanon_part *part = &set->parts[i];
        while (end > begin && end < whole.length && whole.bytes[end - 1] != '\n') {
            end++;
        }
        part->length = end - begin;
        part->bytes = TIGERCANON_EMPTY;
        if (part->length > 0) {
            uint8_t *bytes = malloc(part->length);
            if (bytes == NULL) {
                stop("no memory for", "a part");
            }
            part->bytes = memcpy(bytes, whole.bytes + begin, part->length);
        }
        begin = end;
    }
    set->count = count;
    if (whole.length > 0) {
        free((void *)whole.bytes);
    }
}

static struct set set_of(const char *name, bool is_stem)
{
    static const char letters[] = "1245678IP";
    struct set set;
    char file[4096];
    size_t i;
    set.count = is_stem ? FILES : 1;
    if (!is_stem) {
        set.parts[0] = part_of(name, false);
        return set;
    }
    for (i = 0; i < FILES; i++) {
        snprintf(file, sizeof file, "%s.RT%c", name, letters[i]);
        set.parts[i] = part_of(file, i > 0);
    }
    return set;
}

static void free_set(struct set *set)
{
    size_t i;
    for (i = 0; i < set->count; i++) {
        if (set->parts[i].length > 0) {
            free((void *)set->parts[i].bytes);
        }
    }
}

static struct outcome outcome_of(const struct job *job)
{
    struct outcome outcome = {0, {0}, {{0}}, TIGERCANON_NO_TEXT};
    const struct set *first = &job->sets[0], *second = &job->sets[1];
    if (strcmp(job->command, "check") == 0) {
        outcome.status = tigercanon_check(first->parts, first->count, &outcome.fault);
    } else if (strcmp(job->command, "respell") == 0) {
        outcome.status = tigercanon_respell(first->parts, first->count, &outcome.text, &outcome.fault);
    } else if (strcmp(job->command, "normalise") == 0) {
        outcome.status = tigercanon_normalise(first->parts, first->count, job->no_sources, job->no_reserved, &outcome.text,
                                              &outcome.fault);
    } else if (strcmp(job->command, "fingerprint") == 0) {
        outcome.status = tigercanon_fingerprint(first->parts, first->count, job->no_sources, job->no_reserved, &outcome.hash,
                                                &outcome.fault);
    } else if (strcmp(job->command, "compare") == 0) {
        outcome.status = tigercanon_compare(first->parts, first->count, second->parts, second->count, job->no_sources,
                                            job->no_reserved, &outcome.fault);
    } else {
        stop("unknown command", job->command);
    }
    return outcome;
}

static bool are_alike(const struct outcome *a, const struct outcome *b)
{
    return a->status == b->status && memcmp(&a->fault, &b->fault, sizeof a->fault) == 0
        && memcmp(&a->hash, &b->hash, sizeof a->hash) == 0 && a->text.length == b->text.length
        && memcmp(a->text.bytes, b->text.bytes, a->text.length) == 0;
}

/* Prints what the program prints, and frees the text. */
static int print(const struct job *job, struct outcome *outcome)
{
    char line[TIGERCANON_LINE];
    size_t i;
    if (outcome->status > TIGERCANON_DIFFERENT) {
        tigercanon_line(&outcome->fault, line);
        fprintf(stderr, "%s\n", line);
    } else if (strcmp(job->command, "check") == 0) {
        printf("accepted\n");
    } else if (strcmp(job->command, "compare") == 0) {
        printf("%s\n", outcome->status == TIGERCANON_DONE ? "same" : "different");
    } else if (strcmp(job->command, "fingerprint") == 0) {
        for (i = 0; i < sizeof outcome->hash.bytes; i++) {
            printf("%02x", outcome->hash.bytes[i]);
        }
        printf("\n");
    } else {
        fwrite(outcome->text.bytes, 1, outcome->text.length, stdout);
    }
    if (outcome->status > TIGERCANON_DIFFERENT && outcome->text.length > 0) {
        stop("there is a text beside", line);
    }
    tigercanon_free(&outcome->text);
    return outcome->status;
}

/* The memory that the process has, in KiB. */
static long memory(void)
{
    long pages = 0;
    FILE *file = fopen("/proc/self/statm", "r");
    if (file == NULL || fscanf(file, "%*s %ld", &pages) != 1) {
        stop("can't read", "/proc/self/statm");
    }
    fclose(file);
    return pages * (sysconf(_SC_PAGESIZE) / 1024);
}

static void make_rounds(const struct job *job, long rounds)
{
    long round;
    for (round = 1; round <= rounds; round++) {
        struct outcome outcome = outcome_of(job);
        tigercanon_free(&outcome.text);
        if (round == 10 || round == rounds) {
            fprintf(stderr, "round %ld: %ld KiB\n", round, memory());
        }
    }
}

static void *run_thread(void *job)
{
    struct outcome *outcome = malloc(sizeof *outcome);
    if (outcome == NULL) {
        stop("no memory for", "a thread");
    }
    *outcome = outcome_of(job);
    return outcome;
}

static struct outcome outcome_of_threads(struct job *job, long count)
{
    pthread_t threads[THREADS];
    struct outcome first = {0, {0}, {{0}}, TIGERCANON_NO_TEXT};
    long i;
    for (i = 0; i < count; i++) {
        if (pthread_create(&threads[i], NULL, run_thread, job) != 0) {
            stop("can't start", "a thread");
        }
    }
    for (i = 0; i < count; i++) {
        void *told;
        struct outcome *outcome;
        pthread_join(threads[i], &told);
        outcome = told;
        if (i == 0) {
            first = *outcome;
        } else if (!are_alike(&first, outcome)) {
            stop("threads answer", "otherwise");
        } else {
            tigercanon_free(&outcome->text);
        }
        free(outcome);
    }
    return first;
}

/* What the words ask for. */
struct words {
    long rounds;
    long threads;
    long parts;
    bool is_stem;
    const char *names[2];
    int sets;
};

/* Reads what stands in front of the command, and answers where that stands. */
static int read_settings(struct words *asked, int count, char **words)
{
    int i = 1;
    while (i + 1 < count && strncmp(words[i], "--", 2) == 0) {
        if (strcmp(words[i], "--rounds") == 0) {
            asked->rounds = atol(words[i + 1]);
        } else if (strcmp(words[i], "--threads") == 0) {
            asked->threads = atol(words[i + 1]);
        } else if (strcmp(words[i], "--parts") == 0) {
            asked->parts = atol(words[i + 1]);
        } else {
            stop("unknown word", words[i]);
        }
        i += 2;
    }
    return i;
}

static void read_words(struct words *asked, struct job *job, int at, int count, char **words)
{
    bool are_names = false;
    if (at < count) {
        job->command = words[at];
    }
    for (at += 1; at < count; at++) {
        const char *word = words[at];
        if (are_names || word[0] != '-' || word[1] == '\0') {
            if (asked->sets == 2) {
                stop("one set too many:", word);
            }
            asked->names[asked->sets++] = word;
        } else if (strcmp(word, "--stem") == 0) {
            asked->is_stem = true;
        } else if (strcmp(word, "--no-sources") == 0) {
            job->no_sources = true;
        } else if (strcmp(word, "--no-reserved") == 0) {
            job->no_reserved = true;
        } else if (strcmp(word, "--") == 0) {
            are_names = true;
        } else {
            stop("unknown word", word);
        }
    }
}

/* Touches the stack ahead of all calls: under a limit of address space it can't grow later. Returns 0. */
static int touch_stack(void)
{
    volatile char room[STACK];
    int sum = 0;
    size_t i;
    for (i = 0; i < STACK; i += PAGE) {
        room[i] = 0;
        sum += room[i];
    }
    return sum;
}

int main(int count, char **words)
{
    static struct job job;
    struct words asked = {0, 0, 0, false, {NULL, NULL}, 0};
    struct outcome outcome;
    int i, status = touch_stack();
    read_words(&asked, &job, read_settings(&asked, count, words), count, words);
    if (asked.sets == 0 || asked.threads > THREADS || asked.parts > PARTS) {
        stop("words are missing", "");
    }
    for (i = 0; i < asked.sets; i++) {
        job.sets[i] = set_of(asked.names[i], asked.is_stem);
        if (asked.parts > 0) {
            cut(&job.sets[i], (size_t)asked.parts);
        }
    }
    make_rounds(&job, asked.rounds);
    outcome = asked.threads > 0 ? outcome_of_threads(&job, asked.threads) : outcome_of(&job);
    status = print(&job, &outcome);
    for (i = 0; i < asked.sets; i++) {
        free_set(&job.sets[i]);
    }
    return status;
}
