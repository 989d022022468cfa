// Variables of threads, set and zero, of this file and of another.

_Thread_local int started = 1;
_Thread_local int finished;
static _Thread_local long own[4] = {1, 2};
static _Thread_local char buffer[100];
extern _Thread_local int far;
__attribute__((tls_model("initial-exec"))) extern _Thread_local int early;

int count(int i) { return started + finished + far + early + (int)own[i & 3]; }

char *room(void) { return buffer; }

void change(int i) {
    own[i & 3] = i;
    far = i;
    buffer[i] = (char)i;
}
