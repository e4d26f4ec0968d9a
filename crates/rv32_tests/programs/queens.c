// In how many ways six queens stand on a board of 6 x 6 and none attacks another: 4.
static unsigned place(unsigned row, unsigned columns, unsigned left, unsigned right)
{
    if (row == 6)
        return 1;
    unsigned count = 0;
    for (unsigned bit = 1; bit < 64; bit <<= 1)
        if (!(bit & (columns | left | right)))
            count += place(row + 1, columns | bit, (left | bit) << 1, (right | bit) >> 1);
    return count;
}

unsigned main(void)
{
    return place(0, 0, 0, 0);
}
