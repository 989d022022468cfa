// A hundred functions and a table of fifty of them, so that the address-significance table of clang lists numbers of two bytes.

#define TEN(m, tens) m(tens##0) m(tens##1) m(tens##2) m(tens##3) m(tens##4) m(tens##5) m(tens##6) m(tens##7) m(tens##8) m(tens##9)
#define FIFTY(m, half) TEN(m, half##0) TEN(m, half##1) TEN(m, half##2) TEN(m, half##3) TEN(m, half##4)

#define DEFINED(n) int f##n(void) { return 1##n % 7; }
#define NAMED(n) f##n,

FIFTY(DEFINED, 1)
FIFTY(DEFINED, 2)

int (*const listed[])(void) = {FIFTY(NAMED, 2)};
