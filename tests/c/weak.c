// Weak functions, aliases, functions whose address is taken, and what only an assembler makes: a comdat group, a section that is
// linked after another, and bytes of threads that nobody writes.

extern int maybe(int) __attribute__((weak));

__attribute__((weak)) int fallback(int x) { return x + 1; }

int strong(int x) { return x + 1; }
int also_strong(int x) __attribute__((alias("strong")));

__attribute__((visibility("hidden"))) int inside(int x) { return fallback(x) + strong(x); }

static int small_way(int x) { return x * 3; }
static int large_way(int x) { return x * 5; }

int call(int x) { return maybe ? maybe(x) : fallback(x); }
int (*either(int x))(int) { return x ? small_way : large_way; }

const char *word(int x) {
    static const char *const words[] = {"zero", "one", "two", "three", "two"};
    return words[x % 5];
}

float half(float x) { return x * 0.5f + 0.25f; }
double third(double x) { return x / 3.0; }

__asm__(".section .text.shared,\"axG\",@progbits,shared,comdat\n"
        ".weak shared\n"
        "shared:\n"
        ".quad shared - . + 5\n"
        ".quad shared + 3\n"
        ".byte 1, 2, 3\n"
        ".section linked_after,\"ao\",@progbits,shared\n"
        ".quad shared\n"
        ".section threads_alike,\"aT\",@progbits\n"
        ".byte 4, 5\n"
        ".text\n");
