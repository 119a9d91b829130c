/* A calculator: it reads sums in decimal, makes them words of a small machine with a stack, and runs these. A switch that
 * becomes a table of jumps, recursion, and strings. */

enum code { END, NUMBER, ADD, SUBTRACT, MULTIPLY, DIVIDE, REMAINDER, NEGATE, SHIFT_LEFT, SHIFT_RIGHT, AND, OR, XOR };

static const char *const sums[] = {
    "1+2*3", "(1+2)*3", "-7/2", "-7%2", "7/-2", "7%-2", "2147483647+1", "1<<31", "-1>>28", "-1>>4&255",
    "65535*65537", "12345678%1000/10", "((((5))))-((3-(2-1)))", "1/0", "-2147483647%0", "6^3|8&12", "9-8-7-6",
    "100000*100000", "-(-(-5))", "1+2*3<<4-1",
};

static int code[64];
static int length;
static const char *next;

static void emit(int word)
{
    code[length++] = word;
}

static void expression(int least);

static void operand(void)
{
    int value = 0;

    if (*next == '-') {
        next++;
        operand();
        emit(NEGATE);
    } else if (*next == '(') {
        next++;
        expression(0);
        next++;
    } else {
        while (*next >= '0' && *next <= '9')
            value = value * 10 + (*next++ - '0');
        emit(NUMBER);
        emit(value);
    }
}

/* How tightly an operator binds, and its code; 0 for what is none. */
static int binding(char c, int *operation)
{
    switch (c) {
    case '*': *operation = MULTIPLY; return 6;
    case '/': *operation = DIVIDE; return 6;
    case '%': *operation = REMAINDER; return 6;
    case '+': *operation = ADD; return 5;
    case '-': *operation = SUBTRACT; return 5;
    case '<': *operation = SHIFT_LEFT; return 4;
    case '>': *operation = SHIFT_RIGHT; return 4;
    case '&': *operation = AND; return 3;
    case '^': *operation = XOR; return 2;
    case '|': *operation = OR; return 1;
    default: return 0;
    }
}

static void expression(int least)
{
    int operation = END;
    int tightness;

    operand();
    while ((tightness = binding(*next, &operation)) > least) {
        next += operation == SHIFT_LEFT || operation == SHIFT_RIGHT ? 2 : 1;
        expression(tightness);
        emit(operation);
    }
}

static int run(void)
{
    unsigned stack[16] = {0};
    unsigned *top = stack; /* a word that is none of the sum's stands lowest */

    for (const int *at = code;; at++) {
        unsigned right = *top;

        switch ((enum code)*at) {
        case END: return (int)right;
        case NUMBER: *++top = (unsigned)*++at; break;
        case NEGATE: *top = -right; break;
        case ADD: *--top += right; break;
        case SUBTRACT: *--top -= right; break;
        case MULTIPLY: *--top *= right; break;
        case DIVIDE: --top; *top = right == 0 ? 0xdead : (unsigned)((int)*top / (int)right); break;
        case REMAINDER: --top; *top = right == 0 ? 0xdead : (unsigned)((int)*top % (int)right); break;
        case SHIFT_LEFT: *--top <<= right & 31; break;
        case SHIFT_RIGHT: --top; *top = (unsigned)((int)*top >> (right & 31)); break;
        case AND: *--top &= right; break;
        case OR: *--top |= right; break;
        case XOR: *--top ^= right; break;
        }
    }
}

unsigned *program(unsigned *out)
{
    for (unsigned i = 0; i < sizeof sums / sizeof *sums; i++) {
        next = sums[i];
        length = 0;
        expression(0);
        emit(END);
        *out++ = (unsigned)run();
    }
    return out;
}
