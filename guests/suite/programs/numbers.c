/* Numbers of 64 bits and floating point, by the functions of libgcc: long code that a compiler made, with multiplications,
 * divisions, shifts by any count and many branches. */

static unsigned *put(unsigned *out, unsigned long long value)
{
    *out++ = (unsigned)value;
    *out++ = (unsigned)(value >> 32);
    return out;
}

static unsigned *put_double(unsigned *out, double value)
{
    union {
        double number;
        unsigned long long bits;
    } both = {.number = value};

    return put(out, both.bits);
}

static const unsigned long long edges[] = {
    0, 1, 2, 10, 0x7fffffff, 0x80000000, 0xffffffff, 0x100000000, 0x7fffffffffffffff, 0x8000000000000000, ~0ull,
    0x0123456789abcdef, 0xfedcba9876543210,
};
enum { EDGES = sizeof edges / sizeof *edges };

static unsigned *put_whole(unsigned *out, unsigned long long a, unsigned long long b)
{
    long long signed_a = (long long)a;
    long long signed_b = (long long)b;

    out = put(out, a * b);
    out = put(out, a << (b & 63));
    out = put(out, (unsigned long long)(signed_a >> (b & 63)));
    if (b == 0)
        return out;
    out = put(out, a / b);
    out = put(out, a % b);
    if (signed_b == -1)
        return out;
    out = put(out, (unsigned long long)(signed_a / signed_b));
    return put(out, (unsigned long long)(signed_a % signed_b));
}

/* The square root by Newton's method. */
static double root(double value)
{
    double guess = value;

    for (int i = 0; i < 40; i++)
        guess = (guess + value / guess) / 2;
    return guess;
}

unsigned *program(unsigned *out)
{
    double sum = 0;
    float product = 1;

    for (int i = 0; i < EDGES; i++)
        for (int k = 0; k < EDGES; k++)
            out = put_whole(out, edges[i], edges[k]);
    for (int i = 1; i <= 20; i++) {
        sum += 1.0 / i;
        product *= 1.0f + (float)i / 7;
        out = put_double(out, sum);
        out = put_double(out, product);
        out = put_double(out, root(i));
        *out++ = (unsigned)(int)(sum * 1000000);
    }
    return out;
}
