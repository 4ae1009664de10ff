/* A fake program, on which tests/test-refuse-growths tries tools/refuse-growths. It takes the same command lines,
   prints each set as it is, refuses a set whose name begins with "refused", and tells a device and want of memory as the
   program does. The environment variable MUTANT has it do one thing wrong:

     empty        a refused growth ends in status 0 with nothing printed
     different    a refused growth after the sets were read ends in 'different'
     memory       memory is told where no growth was refused
     half         half the answer is printed before the last growths
     on           a growth is refused while a set is read, and reading goes on without what was read before
     end          a read that fails is taken for the end of the file
     count        one byte more is told of a write that failed
     again        a read or write that was interrupted is tried again
     absent       a file that can't be opened is taken for one that isn't there
     other        while a set is read, want of memory is told of the other set
     second       while set 1 is judged, want of memory is told of set 2
     neither      while set 2 is judged, want of memory is told of no set
     open         while the files of a set are opened, want of memory is told of no set
     unheard      memory is taken without malloc or realloc */

typedef __SIZE_TYPE__ size_t;

void *malloc(size_t size);
void *realloc(void *old, size_t size);
long read(int file, void *to, size_t size);
long write(int file, const void *from, size_t size);
int open(const char *path, int flags, ...);
int *__errno_location(void);
char *getenv(const char *name);
size_t strlen(const char *text);
int strcmp(const char *one, const char *other);
int strncmp(const char *one, const char *other, size_t length);
int snprintf(char *to, size_t size, const char *form, ...);
_Noreturn void exit(int status);

enum { OUT = 1, ERR = 2, NOT_FOUND = 2, INTERRUPTED = 4, ROOM = 1 << 20, STEP = 1000 };

static const char *mutant;
static int is_compare, is_different, reading_is_done;
static char spare[4][ROOM];
static int spares;

/* A set that was read, which is set 1 or 2 of a comparison. */
struct set {
    const char *name;
    char *text;
    size_t length, room;
    int number;
};

static int is_mutant(const char *name) { return strcmp(mutant, name) == 0; }

static int was_interrupted(long moved) {
    return moved < 0 && *__errno_location() == INTERRUPTED && is_mutant("again");
}

/* Writes all bytes, and answers how many were written: fewer where a write failed. */
static size_t put(int file, const char *text, size_t length) {
    size_t done = 0;
    while (done < length) {
        long taken = write(file, text + done, length - done);
        if (was_interrupted(taken))
            continue;
        if (taken < 0)
            break;
        done += (size_t)taken;
    }
    return done;
}

/* Tells a refusal, of one of two sets or of none, and ends. */
static _Noreturn void end(int status, const char *refusal, int set) {
    char line[100];
    int length = snprintf(line, sizeof line, set ? "refused %s in set %d\n" : "refused %s\n", refusal, set);
    put(ERR, line, (size_t)length);
    exit(status);
}

static void print(const char *text, size_t length) {
    size_t done = put(OUT, text, length);
    char refusal[100];
    if (done == length)
        return;
    snprintf(refusal, sizeof refusal, "10 WriteFault %lu", (unsigned long)done + is_mutant("count"));
    end(4, refusal, 0);
}

/* The set of which want of memory is told. */
static int lacking(int set) {
    if (is_compare && set && !reading_is_done && is_mutant("other"))
        return 3 - set;
    if (is_compare && set == 1 && reading_is_done && is_mutant("second"))
        return 2;
    return set == 2 && reading_is_done && is_mutant("neither") ? 0 : set;
}

/* Memory of this size, in the place of the old one if there is any. */
static void *grow(void *old, size_t size, int set) {
    void *found;
    if (is_mutant("unheard"))
        return old ? old : spare[spares++];
    found = old ? realloc(old, size) : malloc(size);
    if (!found && is_mutant("empty"))
        exit(0);
    if (!found && old && is_mutant("on"))
        return 0;
    if (!found && is_mutant("different") && is_compare && reading_is_done) {
        print("different\n", 10);
        exit(1);
    }
    if (!found)
        end(5, "9 Memory", lacking(set));
    return found;
}

static void make_room(struct set *set) {
    char *text = grow(set->text, set->room + 2 * STEP, set->number);
    if (text) {
        set->text = text;
        set->room += 2 * STEP;
    } else {
        set->length = 0;
    }
}

static void read_file(struct set *set, const char *path, int is_needed) {
    int file = open(path, 0);
    long got = 1;
    if (file < 0 && (is_needed || (*__errno_location() != NOT_FOUND && !is_mutant("absent"))))
        end(4, "8 Device", set->number);
    while (file >= 0 && got != 0) {
        if (set->room - set->length < STEP)
            make_room(set);
        got = read(file, set->text + set->length, STEP);
        if (was_interrupted(got))
            continue;
        if (got < 0 && is_mutant("end"))
            return;
        if (got < 0)
            end(4, "8 Device", set->number);
        set->length += (size_t)got;
    }
}

static struct set read_set(const char *name, int is_stem, int number) {
    static const char *suffixes[] = {".RT1", ".RT2", ".RT4", ".RT5", ".RT6", ".RT7", ".RT8", ".RTI", ".RTP"};
    struct set set = {name, 0, 0, 0, number};
    char path[100];
    set.text = grow(0, set.room = STEP, is_mutant("open") ? 0 : number);
    if (!is_stem)
        read_file(&set, name, 1);
    for (int i = 0; is_stem && i < 9; i++) {
        snprintf(path, sizeof path, "%s%s", name, suffixes[i]);
        read_file(&set, path, i == 0);
    }
    return set;
}

static void judge(const struct set *set, const char *command) {
    grow(0, STEP, set->number);
    if (strncmp(set->name, "refused", 7) == 0 && strcmp(command, "respell") != 0)
        end(3, "23 PolygonWithoutChain 3036303031 2", set->number);
}

static void answer(const char *command, const struct set *set) {
    const char *text = set->text;
    size_t length = set->length;
    if (strcmp(command, "respell") != 0 && strcmp(command, "normalise") != 0) {
        text = is_different ? "different\n" : is_compare ? "same\n" : "accepted\n";
        length = strlen(text);
    }
    if (is_mutant("half")) {
        print(text, length / 2);
        grow(0, STEP, 0);
        print(text + length / 2, length - length / 2);
    } else {
        grow(0, STEP, 0);
        print(text, length);
    }
}

int main(int count, char **words) {
    int is_stem = 0, names = 2;
    struct set first, second;
    mutant = getenv("MUTANT") ? getenv("MUTANT") : "";
    grow(0, STEP, 0);
    is_compare = count > 1 && strcmp(words[1], "compare") == 0;
    for (; names < count && strncmp(words[names], "--", 2) == 0; names++)
        is_stem |= strcmp(words[names], "--stem") == 0;
    if (count != names + 1 + is_compare) {
        put(ERR, "usage\n", 6);
        return 2;
    }
    first = read_set(words[names], is_stem, is_compare);
    if (is_compare)
        second = read_set(words[names + 1], is_stem, 2);
    reading_is_done = 1;
    judge(&first, words[1]);
    if (is_compare)
        judge(&second, words[1]);
    if (is_mutant("memory"))
        end(5, "9 Memory", 0);
    is_different = is_compare && (first.length == 0) != (second.length == 0);
    answer(words[1], &first);
    return is_different;
}
