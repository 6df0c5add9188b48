// A host for the project's static library, for a machine that is not x86-64: an x86-64 program that
// the library is linked into, which an emulator runs. src/library_hosted.rs is its other end.
//
// It needs no C library and no header. It reads batches of questions from standard input until that
// ends, and writes the answers to standard output. All is words of 64 bits. A batch is the number of
// a function, the count of the questions, and for each of them its arguments, a word for each. An
// answer is a word for the function's result, and then one for each argument that it may write.

typedef int i32;
typedef long i64;
typedef unsigned long u64;

i32 signs_of_f64(double v);
i32 signs_orient2d_filter(double ax, double ay, double bx, double by, double cx, double cy);
_Bool signs_decomp(double v, i64 *m, i32 *e);
i32 signs_orient(i32 ax, i32 ay, i32 bx, i32 by, i32 cx, i32 cy);
i32 signs_circle(i32 ax, i32 ay, i32 bx, i32 by, i32 cx, i32 cy, i32 dx, i32 dy);
i32 signs_take_in(double v, i32 *whole);
double signs_incircle_det(double ax, double ay, double bx, double by, double cx, double cy,
                          double dx, double dy);

// A word as a float, bit for bit, and back.
typedef union {
    u64 word;
    double value;
} bits;

static double f(u64 word) { return (bits){.word = word}.value; }
static u64 w(double value) { return (bits){.value = value}.word; }

// The words of a question and of an answer, for each function.
enum { OF_F64, ORIENT2D_FILTER, DECOMP, ORIENT, CIRCLE, TAKE_IN, INCIRCLE_DET, FUNCTIONS };
static const u64 words_in[FUNCTIONS] = {1, 6, 3, 6, 8, 2, 8};
static const u64 words_out[FUNCTIONS] = {1, 1, 3, 1, 1, 2, 1};

static void answer(u64 function, const u64 *q, u64 *a) {
    switch (function) {
    case OF_F64:
        a[0] = (u64)signs_of_f64(f(q[0]));
        break;
    case ORIENT2D_FILTER:
        a[0] = (u64)signs_orient2d_filter(f(q[0]), f(q[1]), f(q[2]), f(q[3]), f(q[4]), f(q[5]));
        break;
    case DECOMP: {
        i64 m = (i64)q[1];
        i32 e = (i32)q[2];
        a[0] = signs_decomp(f(q[0]), &m, &e);
        a[1] = (u64)m;
        a[2] = (u64)e;
        break;
    }
    case ORIENT:
        a[0] = (u64)signs_orient((i32)q[0], (i32)q[1], (i32)q[2], (i32)q[3], (i32)q[4], (i32)q[5]);
        break;
    case CIRCLE:
        a[0] = (u64)signs_circle((i32)q[0], (i32)q[1], (i32)q[2], (i32)q[3], (i32)q[4], (i32)q[5],
                                 (i32)q[6], (i32)q[7]);
        break;
    case TAKE_IN: {
        i32 whole = (i32)q[1];
        a[0] = (u64)signs_take_in(f(q[0]), &whole);
        a[1] = (u64)whole;
        break;
    }
    case INCIRCLE_DET:
        a[0] = w(signs_incircle_det(f(q[0]), f(q[1]), f(q[2]), f(q[3]), f(q[4]), f(q[5]), f(q[6]),
                                    f(q[7])));
        break;
    }
}

// The system calls of x86-64 Linux.
enum { READ = 0, WRITE = 1, EXIT = 60 };

static i64 call(i64 number, i64 x, void *y, u64 z) {
    i64 result;
    __asm__ volatile("syscall"
                     : "=a"(result)
                     : "a"(number), "D"(x), "S"(y), "d"(z)
                     : "rcx", "r11", "memory");
    return result;
}

_Noreturn static void leave(i64 status) {
    for (;;)
        call(EXIT, status, 0, 0);
}

// Moves all the words, or ends the program: with 0 where the input ends, with 1 where a call fails.
static void move(i64 number, u64 *from, u64 count) {
    char *at = (char *)from;
    u64 left = 8 * count;
    while (left > 0) {
        i64 done = call(number, number, at, left);
        if (done <= 0)
            leave(done < 0);
        at += done;
        left -= (u64)done;
    }
}

// The greatest batch.
enum { BATCH = 1 << 14 };
static u64 questions[BATCH * 8], answers[BATCH * 3];

void _start(void) {
    for (;;) {
        u64 head[2];
        move(READ, head, 2);
        u64 function = head[0], count = head[1];
        if (function >= FUNCTIONS || count > BATCH)
            leave(2);
        u64 in = words_in[function], out = words_out[function];
        move(READ, questions, count * in);
        for (u64 i = 0; i < count; i++)
            answer(function, questions + i * in, answers + i * out);
        move(WRITE, answers, count * out);
    }
}
