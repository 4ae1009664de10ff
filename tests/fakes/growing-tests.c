/* Fake proved tests, on which tests/test-refuse-growths tries tools/refuse-growths: this lists its tests and runs one
   by its name, as a program does that rt builds of tests. One of them takes memory three times, asks for the refusal of each
   of these growths, and tells how many were refused. The environment variable MUTANT has it do one thing wrong:

     unheard      no growth is asked for or made
     wrong        the test fails
     silent       it doesn't tell how many growths were refused */

typedef __SIZE_TYPE__ size_t;

void *malloc(size_t size);
char *getenv(const char *name);
int printf(const char *form, ...);
int strcmp(const char *one, const char *other);

static const char *mutant;

static int is_mutant(const char *name) { return strcmp(mutant, name) == 0; }

static int is_found(size_t size) { return is_mutant("unheard") || malloc(size) != 0; }

/* How many of three growths are refused one after another, where a growth of this size asks for the first of them. */
static int refused(size_t first) {
    int growths = 0, was_refused;
    do {
        is_found(first + (size_t)growths);
        for (int growth = 0; growth < 3; growth++)
            is_found(100);
        was_refused = !is_found(40961);
        growths += was_refused;
    } while (was_refused);
    return growths;
}

int main(int count, char **words) {
    mutant = getenv("MUTANT") ? getenv("MUTANT") : "";
    if (count < 2)
        return 2;
    if (strcmp(words[1], "--list") == 0) {
        printf("tests::refusals::takes_three: test\ntests::others::fails: test\ntests: 2\n");
        return 0;
    }
    if (strcmp(words[1], "tests::refusals::takes_three") != 0 || is_mutant("wrong"))
        return 1;
    if (!is_mutant("silent")) {
        printf("one: %d growths refused\n", refused(((size_t)1 << 46) + 1));
        printf("all from one on: %d growths refused\n", refused(((size_t)1 << 47) + 1));
    }
    printf("\ntest result: ok\n");
    return 0;
}
