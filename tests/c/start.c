// What runs before and after the program, and sections with attributes.

extern void announce(const char *);
static int ready;

__attribute__((constructor)) static void prepare(void) { ready = 1; }

__attribute__((constructor(101))) static void prepare_first(void) { announce("first"); }

__attribute__((destructor)) static void tidy(void) { announce("tidy"); }

__attribute__((section(".preinit_array"), used)) static void (*const before_all)(void) = prepare;

__attribute__((section(".init"), used)) static void old_style(void) { announce("old"); }

__attribute__((section("registry"), used)) static const char *const registered = "registered";

__attribute__((section(".bss.kept_over_reset"))) int kept_over_reset;

__attribute__((cold)) int seldom(void) { return ready; }

#if defined(__has_attribute)
#if __has_attribute(retain)
__attribute__((retain, used)) int retained = 9;
__attribute__((retain, used, noinline)) static int retained_call(void) { return 9; }
int not_retained(void) { return retained_call() + retained; }
#endif
#endif
