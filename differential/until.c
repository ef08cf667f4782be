// `U` on two words in three forms, for the timing command `until`: as it was before it could stop early, with a test before each doubling, and with
// a loop over the distance. The kit's clang compiles them, as it compiles the library.
typedef unsigned long long word;

word straight(word x, word y) {
    y |= x & (y >> 1);
    x &= x >> 1;
    y |= x & (y >> 2);
    x &= x >> 2;
    y |= x & (y >> 4);
    x &= x >> 4;
    y |= x & (y >> 8);
    x &= x >> 8;
    y |= x & (y >> 16);
    x &= x >> 16;
    y |= x & (y >> 32);
    return y;
}

word tests(word x, word y) {
    if (x == 0) return y;
    y |= x & (y >> 1);
    x &= x >> 1;
    if (x == 0) return y;
    y |= x & (y >> 2);
    x &= x >> 2;
    if (x == 0) return y;
    y |= x & (y >> 4);
    x &= x >> 4;
    if (x == 0) return y;
    y |= x & (y >> 8);
    x &= x >> 8;
    if (x == 0) return y;
    y |= x & (y >> 16);
    x &= x >> 16;
    if (x == 0) return y;
    y |= x & (y >> 32);
    return y;
}

word loop(word x, word y) {
    unsigned d = 1;
    while (d < 64) {
        if (x == 0) return y;
        y |= x & (y >> d);
        x &= x >> d;
        d += d;
    }
    return y;
}
