// CRC-32 of "123456789": the check value of that code is 0xcbf43926.
static const char text[] = "123456789";

unsigned main(void)
{
    unsigned crc = 0xffffffff;
    for (const char *p = text; *p; p++) {
        crc ^= (unsigned char)*p;
        for (int k = 0; k < 8; k++)
            crc = crc & 1 ? crc >> 1 ^ 0xedb88320 : crc >> 1;
    }
    return ~crc;
}
