// Functions that call one another and themselves, alike ones, and tables of functions.

extern int outside(int);
extern int counter;

static int odd(unsigned n);

__attribute__((noinline)) static int even(unsigned n) { return n == 0 ? 1 : odd(n - 1); }

__attribute__((noinline)) static int odd(unsigned n) { return n == 0 ? 0 : even(n - 1); }

__attribute__((noinline)) int weigh(int x) { return outside(x) + 1; }

__attribute__((noinline)) int scale(int x) { return outside(x) + 1; }

int fill(int *to, int n) {
    for (int i = 0; i < n; i++) to[i] = weigh(i) + scale(counter + i);
    return even((unsigned)n);
}

int forever(int x) { return x > 100 ? x : forever(x + outside(x)); }

static int (*const fixed[])(int) = {weigh, scale, outside, forever};
int (*table[3])(int) = {scale, weigh};

int through(int i) { return fixed[i & 3](i) + table[i & 1](i); }

int chosen(int x) {
    switch (x) {
    case 0: return outside(7);
    case 1: return counter;
    case 2: return weigh(3);
    case 3: return outside(9) - 1;
    case 4: return scale(5);
    case 5: return forever(2);
    case 6: return fill(&counter, 1);
    default: return 0;
    }
}
