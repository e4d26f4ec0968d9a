// The digits of -2147483648, written and read again, must give that number: 0x80000000.
// The compiler asks for this where there is no MUL.
unsigned __mulsi3(unsigned a, unsigned b)
{
    unsigned sum = 0;
    for (; b != 0; b >>= 1, a <<= 1)
        if (b & 1)
            sum += a;
    return sum;
}

static unsigned divided(unsigned n, unsigned d, unsigned *rest)
{
    unsigned q = 0, r = 0;
    for (int k = 31; k >= 0; k--) {
        r = r << 1 | (n >> k & 1);
        q <<= 1;
        if (r >= d) {
            r -= d;
            q |= 1;
        }
    }
    *rest = r;
    return q;
}

unsigned main(void)
{
    volatile char text[16];
    volatile int given = -2147483647 - 1;
    int n = given, at = 0;
    unsigned value = n < 0 ? -(unsigned)n : (unsigned)n, rest;
    do {
        value = divided(value, 10, &rest);
        text[at++] = (char)('0' + rest);
    } while (value != 0);
    if (n < 0)
        text[at++] = '-';
    unsigned back = 0;
    int sign = 1;
    while (at > 0) {
        char c = text[--at];
        if (c == '-')
            sign = -1;
        else
            back = back * 10 + (unsigned)(c - '0');
    }
    return sign < 0 ? -back : back;
}
