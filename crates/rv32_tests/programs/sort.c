// Sorts signed bytes, half words and words, and folds them in order.
// Bytes: -128 -1 0 127, half words: -32768 -2 5 32767, words: -2147483648 -3 9 2147483647.
static signed char bytes[] = {127, -1, 0, -128};
static short halves[] = {-2, 32767, -32768, 5};
static int words[] = {2147483647, 9, -3, -2147483647 - 1};

#define SORT(xs)                                            \
    for (int i = 1; i < 4; i++)                             \
        for (int j = i; j > 0 && xs[j - 1] > xs[j]; j--) {  \
            int x = xs[j];                                  \
            xs[j] = xs[j - 1];                              \
            xs[j - 1] = x;                                  \
        }

unsigned main(void)
{
    unsigned fold = 0;
    SORT(bytes)
    SORT(halves)
    SORT(words)
    for (int i = 0; i < 4; i++) {
        fold = (fold << 5) - fold + (unsigned)bytes[i];
        fold = (fold << 5) - fold + (unsigned char)bytes[i];
        fold = (fold << 5) - fold + (unsigned)halves[i];
        fold = (fold << 5) - fold + (unsigned short)halves[i];
        fold = (fold << 5) - fold + (unsigned)words[i];
    }
    return fold;
}
