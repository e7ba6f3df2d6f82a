/* The sum of n bytes. */
unsigned total(const unsigned char *bytes, unsigned n) {
    unsigned sum = 0;
    for (unsigned i = 0; i < n; i++)
        sum += bytes[i];
    return sum;
}
