// A host for the project's library libexports.a, for a machine that is not x86-64: an x86-64 program
// that the library is linked into, which an emulator runs. src/ours_hosted.rs is its other end.
//
// It needs no C library and no header. It reads questions from standard input until that ends, and
// writes an answer for each to standard output. A question is five words of 64 bits, which function and
// the lengths of four lists, and then the lists, in words of 32 bits. An answer is a word of 64 bits for
// the function's result, and then the lists that it may write.

typedef int i32;
typedef unsigned int u32;
typedef long i64;
typedef unsigned long u64;

u64 dergulam_cut(const i32 *points, u64 points_len, const u32 *pairs, u64 pairs_len, u32 *out, u64 out_len,
                 u32 *work, u64 work_len);
u64 dergulam_check(const i32 *points, u64 points_len, const u32 *pairs, u64 pairs_len, const u32 *list,
                   u64 list_len, u32 *work, u64 work_len);

// The system calls of x86-64 Linux.
enum { READ = 0, WRITE = 1, EXIT = 60 };

static i64 call(i64 number, i64 x, void *y, u64 z) {
    i64 result;
    __asm__ volatile("syscall"
                     : "=a"(result)
                     : "a"(number), "D"(x), "S"(y), "d"(z)
                     : "rcx", "r11", "memory");
    return result;
}

_Noreturn static void leave(i64 status) {
    for (;;)
        call(EXIT, status, 0, 0);
}

// Moves all the bytes, or ends the program: with 0 where the input ends, with 1 where a call fails.
static void move(i64 number, void *from, u64 left) {
    char *at = from;
    while (left > 0) {
        i64 done = call(number, number, at, left);
        if (done <= 0)
            leave(done < 0);
        at += done;
        left -= (u64)done;
    }
}

// What the library needs of a C library.
void *memset(void *to, int value, u64 count) {
    char *at = to;
    while (count-- > 0)
        *at++ = (char)value;
    return to;
}

void *memcpy(void *to, const void *from, u64 count) {
    char *at = to;
    const char *source = from;
    while (count-- > 0)
        *at++ = *source++;
    return to;
}

// The greatest lengths.
enum { POINTS = 1 << 14, PAIRS = 1 << 16, LIST = 1 << 16, WORK = 1 << 19 };
static i32 points[POINTS];
static u32 pairs[PAIRS], list[LIST], work[WORK];

__attribute__((force_align_arg_pointer)) void _start(void) {
    for (;;) {
        u64 head[5];
        move(READ, head, sizeof head);
        if (head[1] > POINTS || head[2] > PAIRS || head[3] > LIST || head[4] > WORK)
            leave(2);
        move(READ, points, 4 * head[1]);
        move(READ, pairs, 4 * head[2]);
        move(READ, list, 4 * head[3]);
        move(READ, work, 4 * head[4]);
        u64 answer;
        if (head[0] == 0) {
            answer = dergulam_cut(points, head[1], pairs, head[2], list, head[3], work, head[4]);
        } else {
            answer = dergulam_check(points, head[1], pairs, head[2], list, head[3], work, head[4]);
        }
        move(WRITE, &answer, sizeof answer);
        if (head[0] == 0)
            move(WRITE, list, 4 * head[3]);
        move(WRITE, work, 4 * head[4]);
    }
}
