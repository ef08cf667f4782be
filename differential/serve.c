/* Answers calls to the C boundary over standard input and output, so that the archive that ships is asked as a C program has it, linked by the kit's own
   linker to its C library. A call is the function's number, 8 scalars and the counts of 12 slices, as 64-bit words, then the
   slices; the answer is one word, then all slices as they stand afterwards. No header is needed. */
typedef unsigned char u8;
typedef unsigned short u16;
typedef unsigned long u64;

long read(int, void *, u64);
long write(int, const void *, u64);
void *malloc(u64);
void free(void *);
void exit(int);

#define S(t) const t *, u64
#define M(t) t *, u64
u64 scarfpylon_search(u64, u64, u64, u64, u8, S(u8), S(u8), S(u64), S(u8), S(u8), M(u8), M(u16), M(u16), M(u8), M(u64), M(u64));
u64 scarfpylon_unary(u8, u64, u64, M(u64));
u64 scarfpylon_binary(u8, u64, u64, u64, u64, M(u64));
u64 scarfpylon_check(u64, u64, S(u8), S(u8), S(u64), S(u8), S(u16), S(u16), S(u8), u8, u16, u16, u8, M(u64));
u64 scarfpylon_print(S(u8), S(u8), S(u16), S(u16), S(u8), u8, u16, u16, u8, M(u8), M(u64));
u64 scarfpylon_read(S(u8), M(u8), M(u8), M(u64), M(u8), M(u8), M(u64));
u64 scarfpylon_parse(S(u8), S(u8), M(u8), M(u16), M(u16), M(u8), M(u64));
u64 scarfpylon_fresh(M(u64));
u64 scarfpylon_resume(u64, u64, u64, u64, u8, S(u8), S(u8), S(u64), S(u8), S(u8), M(u8), M(u16), M(u16), M(u8), M(u64), u64, M(u64), M(u64));

/* Bytes of one number in each slice of each function. */
static const u8 widths[10][12] = {
    {0},
    {1, 1, 8, 1, 1, 1, 2, 2, 1, 8, 8},
    {8},
    {8},
    {1, 1, 8, 1, 2, 2, 1, 8},
    {1, 1, 2, 2, 1, 1, 8},
    {1, 1, 1, 8, 1, 1, 8},
    {1, 1, 1, 2, 2, 1, 8},
    {8},
    {1, 1, 8, 1, 1, 1, 2, 2, 1, 8, 8, 8},
};

/* Whether all of it came; none of it at the end of the calls. */
static int get(void *to, u64 bytes) {
    u64 done = 0;
    while (done < bytes) {
        long n = read(0, (u8 *)to + done, bytes - done);
        if (n <= 0) return 0;
        done += n;
    }
    return 1;
}

static void put(const void *from, u64 bytes) {
    u64 done = 0;
    while (done < bytes) {
        long n = write(1, (const u8 *)from + done, bytes - done);
        if (n <= 0) exit(1);
        done += n;
    }
}

int main(void) {
    u64 head[21];
    while (get(head, sizeof head)) {
        u64 f = head[0], *x = head + 1, *n = head + 9, answer = 0;
        void *s[12];
        if (f < 1 || f > 9) return 1;
        for (int i = 0; i < 12; i++) {
            /* One more, so that no slice is at no address. */
            s[i] = malloc(n[i] * widths[f][i] + 1);
            if (!s[i] || !get(s[i], n[i] * widths[f][i])) return 1;
        }
        switch (f) {
        case 1:
            answer = scarfpylon_search(x[0], x[1], x[2], x[3], x[4], s[0], n[0], s[1], n[1], s[2], n[2], s[3], n[3], s[4], n[4], s[5], n[5],
                                       s[6], n[6], s[7], n[7], s[8], n[8], s[9], n[9], s[10], n[10]);
            break;
        case 2: answer = scarfpylon_unary(x[0], x[1], x[2], s[0], n[0]); break;
        case 3: answer = scarfpylon_binary(x[0], x[1], x[2], x[3], x[4], s[0], n[0]); break;
        case 4:
            answer = scarfpylon_check(x[0], x[1], s[0], n[0], s[1], n[1], s[2], n[2], s[3], n[3], s[4], n[4], s[5], n[5], s[6], n[6], x[2], x[3],
                                      x[4], x[5], s[7], n[7]);
            break;
        case 5:
            answer = scarfpylon_print(s[0], n[0], s[1], n[1], s[2], n[2], s[3], n[3], s[4], n[4], x[0], x[1], x[2], x[3], s[5], n[5], s[6], n[6]);
            break;
        case 6: answer = scarfpylon_read(s[0], n[0], s[1], n[1], s[2], n[2], s[3], n[3], s[4], n[4], s[5], n[5], s[6], n[6]); break;
        case 7: answer = scarfpylon_parse(s[0], n[0], s[1], n[1], s[2], n[2], s[3], n[3], s[4], n[4], s[5], n[5], s[6], n[6]); break;
        case 8: answer = scarfpylon_fresh(s[0], n[0]); break;
        case 9:
            answer = scarfpylon_resume(x[0], x[1], x[2], x[3], x[4], s[0], n[0], s[1], n[1], s[2], n[2], s[3], n[3], s[4], n[4], s[5], n[5],
                                       s[6], n[6], s[7], n[7], s[8], n[8], s[9], n[9], x[5], s[10], n[10], s[11], n[11]);
            break;
        default: return 1;
        }
        put(&answer, sizeof answer);
        for (int i = 0; i < 12; i++) {
            put(s[i], n[i] * widths[f][i]);
            free(s[i]);
        }
    }
    return 0;
}
