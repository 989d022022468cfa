// Variables of all kinds: set, zero, constant, common (with -fcommon), weak, aligned, and pointers into others.

struct node { const struct node *next; const char *name; long weight; };

int zero;
int common_numbers[40];
static int hidden_zero[100];
int set = 5;
static short hidden_set[3] = {1, 2, 3};
const unsigned char constants[17] = {1, 2, 3, 4, 5, 6, 7, 8, 9, 10, 11, 12, 13, 14, 15, 16, 17};
const double fraction = 0.1;
_Alignas(64) char aligned[65] = "on a line of a cache";
_Alignas(4096) char page[1];

extern const struct node elsewhere;
static const struct node last = {&elsewhere, "same", -1};
static const struct node middle = {&last, "same", 1L << 40};
const struct node first = {&middle, "another", 0};

char *into = &aligned[7];
const unsigned char *before = constants - 3;
const unsigned char *after = &constants[17] + 100;
long distance = (long)&page[0];

__attribute__((weak)) int replaceable = 3;
extern int perhaps __attribute__((weak));
extern int other_name __attribute__((alias("set")));
__attribute__((visibility("hidden"))) int inner = 4;

double sum(int i) {
    hidden_zero[i] += hidden_set[i % 3];
    return (&perhaps ? perhaps : replaceable) + fraction * 2.5 + common_numbers[i] + zero + inner + hidden_zero[i + 1];
}
