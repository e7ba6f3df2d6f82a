/* Functions of the kinds that the reader is tried on: searches, parsers, state machines, string loops over memory, locks
   around calls, and arithmetic with early exits. `remake` translates them into IR and runs passes over it. */

typedef unsigned char byte;
typedef unsigned int word;
typedef unsigned long size;

extern void lock(void *);
extern void unlock(void *);
extern int step(void *, int);
extern int ready(void *);
extern void report(int);
extern int weight(int) __attribute__((const));
extern int lookup(const char *) __attribute__((pure));

/* Searches */

long find_byte(const byte *p, long n, int c) {
    for (long i = 0; i < n; i++)
        if (p[i] == c)
            return i;
    return -1;
}

long find_last(const byte *p, long n, int c) {
    long found = -1;
    for (long i = 0; i < n; i++)
        if (p[i] == c)
            found = i;
    return found;
}

size binary_search(const word *a, size n, word x) {
    size low = 0, high = n;
    while (low < high) {
        size middle = low + (high - low) / 2;
        if (a[middle] == x)
            return middle;
        if (a[middle] < x)
            low = middle + 1;
        else
            high = middle;
    }
    return n;
}

int find_pair(const int *a, int n, int sum) {
    for (int i = 0; i < n; i++)
        for (int j = 0; j < i; j++)
            if (a[i] + a[j] == sum)
                return i * n + j;
    return -1;
}

/* Strings */

size length(const char *s) {
    const char *p = s;
    while (*p)
        p++;
    return p - s;
}

int compare(const byte *s, const byte *t) {
    while (*s && *s == *t) {
        s++;
        t++;
    }
    return *s - *t;
}

int is_prefix(const char *s, const char *t) {
    for (; *s; s++, t++)
        if (*s != *t)
            return 0;
    return 1;
}

word count_words(const char *s) {
    word words = 0;
    int inside = 0;
    for (; *s; s++) {
        if (*s == ' ' || *s == '\n')
            inside = 0;
        else if (!inside) {
            inside = 1;
            words++;
        }
    }
    return words;
}

char *copy_until(char *to, const char *from, char end) {
    while (*from && *from != end)
        *to++ = *from++;
    *to = 0;
    return to;
}

void fill(byte *p, size n, byte c, int twice) {
    for (size i = 0; i < n; i++) {
        p[i] = c;
        if (twice)
            p[i + n] = c;
    }
}

/* Parsers */

int parse_number(const char *s, word *value) {
    word v = 0;
    if (!*s)
        return -1;
    for (; *s; s++) {
        if (*s < '0' || *s > '9')
            return -1;
        if (v > 100000000)
            return -2;
        v = v * 10 + (word)(*s - '0');
    }
    *value = v;
    return 0;
}

int hex_digit(int c) {
    if (c >= '0' && c <= '9')
        return c - '0';
    if (c >= 'a' && c <= 'f')
        return c - 'a' + 10;
    if (c >= 'A' && c <= 'F')
        return c - 'A' + 10;
    return -1;
}

int read_varint(const byte *p, const byte *end, size *value) {
    size v = 0;
    int shift = 0;
    while (p != end) {
        byte b = *p++;
        v |= (size)(b & 127) << shift;
        if (!(b & 128)) {
            *value = v;
            return 1;
        }
        shift += 7;
        if (shift >= 64)
            return 0;
    }
    return 0;
}

int sequence_length(byte lead) {
    if (lead < 0x80)
        return 1;
    if (lead < 0xc2)
        return 0;
    if (lead < 0xe0)
        return 2;
    return lead < 0xf0 ? 3 : lead < 0xf5 ? 4 : 0;
}

/* State machines */

int comment_depth(const char *s) {
    int state = 0, depth = 0;
    for (; *s; s++)
        switch (state) {
        case 0:
            state = *s == '/' ? 1 : *s == '*' ? 2 : 0;
            break;
        case 1:
            if (*s == '*')
                depth++;
            state = 0;
            break;
        case 2:
            if (*s == '/' && depth)
                depth--;
            state = 0;
            break;
        }
    return depth;
}

int run_machine(void *m, int limit) {
    int state = 1;
    while (state != 0) {
        if (limit-- == 0)
            return -1;
        if (state == 1)
            state = ready(m) ? 2 : 3;
        else if (state == 2)
            state = step(m, state) < 0 ? 3 : 1;
        else
            state = 0;
    }
    return limit;
}

/* Locks around calls */

int locked_steps(void *m, int n) {
    int bad = 0;
    lock(m);
    for (int i = 0; i < n && !bad; i++)
        if (step(m, i) < 0)
            bad = 1;
    unlock(m);
    return bad;
}

int locked_unless(void *m, int n, int alone) {
    int sum = 0;
    for (int i = 0; i < n; i++) {
        if (!alone)
            lock(m);
        sum += step(m, i);
        if (!alone)
            unlock(m);
    }
    return sum;
}

int retry(void *m, int tries) {
    int r;
    do {
        lock(m);
        r = ready(m);
        if (r)
            r = step(m, tries);
        unlock(m);
        if (r > 0)
            return r;
    } while (--tries > 0);
    return 0;
}

int weigh(const char *s, int n, int loud) {
    int sum = 0;
    for (int i = 0; i < n; i++) {
        int w = weight(n) + lookup(s);
        if (loud)
            report(w);
        sum += w;
    }
    return sum;
}

/* Arithmetic with early exits */

word gcd(word a, word b) {
    while (b) {
        word r = a % b;
        a = b;
        b = r;
    }
    return a;
}

int clamp(int x, int low, int high) {
    if (x < low)
        return low;
    if (x > high)
        return high;
    return x;
}

word collatz(word n, word most) {
    word turns = 0;
    while (n != 1) {
        if (turns == most || n == 0)
            return most + 1;
        n = n & 1 ? 3 * n + 1 : n / 2;
        turns++;
    }
    return turns;
}

word checksum(const byte *p, size n) {
    word a = 1, b = 0;
    for (size i = 0; i < n; i++) {
        a = (a + p[i]) % 65521;
        b = (b + a) % 65521;
    }
    return b << 16 | a;
}

int sum_until(const int *a, int n, int most) {
    int sum = 0;
    for (int i = 0; i != n; i++) {
        if (a[i] < 0)
            break;
        sum += a[i];
        if (sum > most)
            return most;
    }
    return sum < 0 ? 0 : sum;
}

word raise(word base, word exponent) {
    word result = 1;
    if (base == 0)
        return exponent == 0;
    while (exponent) {
        if (exponent & 1)
            result *= base;
        base *= base;
        exponent >>= 1;
    }
    return result;
}
