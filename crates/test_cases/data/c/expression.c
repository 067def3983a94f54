/* Evaluates an expression of whole numbers by descent, and prints it with brackets. */

extern int printf(const char *format, ...);
extern int getchar(void);

enum kind { NUMBER = 1, SUM = '+', DIFFERENCE = '-', PRODUCT = '*', QUOTIENT = '/', NEGATION = '~' };

union content {
    long number;
    struct {
        short left, right;
    } operands;
};

struct node {
    enum kind kind;
    union content content;
};

struct flags {
    unsigned int failed : 1, at_end : 1;
    unsigned int : 0;
    signed int depth : 6;
};

static struct node nodes[256];
static short used;
static struct flags flags;
static volatile int next = ' ';

static int skip(void)
{
    while (next == ' ' || next == '\t')
        next = getchar();
    return next;
}

static short new_node(enum kind kind)
{
    if (used >= (short) (sizeof nodes / sizeof(struct node))) {
        flags.failed = 1;
        return 0;
    }
    nodes[used].kind = kind;
    return used++;
}

static short sum(void);

static short primary(void)
{
    short node;

    switch (skip()) {
    case '(':
        next = getchar();
        node = sum();
        if (skip() != ')')
            goto wrong;
        next = getchar();
        return node;
    case '-':
        next = getchar();
        node = new_node(NEGATION);
        nodes[node].content.operands.left = primary();
        return node;
    case '0': case '1': case '2': case '3': case '4':
    case '5': case '6': case '7': case '8': case '9':
        node = new_node(NUMBER);
        nodes[node].content.number = 0L;
        do {
            nodes[node].content.number = nodes[node].content.number * 10 + (next - '0');
            next = getchar();
        } while (next >= '0' && next <= '9');
        return node;
    default:
        break;
    }
wrong:
    flags.failed = 1;
    return 0;
}

static short chain(short (*operand)(void), int first, int second)
{
    short left = operand();

    for (;;) {
        int kind = skip();
        short node;

        if (kind != first && kind != second)
            return left;
        next = getchar();
        node = new_node(kind);
        nodes[node].content.operands.left = left;
        nodes[node].content.operands.right = operand();
        left = node;
        if (flags.failed)
            return left;
        else
            continue;
    }
}

static short product(void) { return chain(primary, '*', '/'); }

static short sum(void) { return chain(product, '+', '-'); }

static double value(register const struct node *node)
{
    const struct node *left = nodes + node->content.operands.left;
    const struct node *right = nodes + node->content.operands.right;

    if (node->kind == NUMBER)
        return (double) node->content.number;
    else if (node->kind == SUM)
        return value(left) + value(right);
    else if (node->kind == DIFFERENCE)
        return value(left) - value(right);
    else if (node->kind == PRODUCT)
        return value(left) * value(right);
    else if (node->kind == NEGATION)
        return -value(left);
    return value(left) / value(right);
}

void show(node)
    short node;
{
    struct node *which = &nodes[node];

    if (which->kind == NUMBER) {
        printf("%ld", which->content.number);
        return;
    }
    printf("(");
    if (which->kind != NEGATION)
        show(which->content.operands.left);
    printf("%c", which->kind == NEGATION ? '-' : (int) which->kind);
    show(which->kind == NEGATION ? which->content.operands.left : which->content.operands.right);
    printf(")");
}

int main()
{
    short whole = sum();

    flags.at_end = skip() == '\n' || next == -1;
    if (flags.failed || !flags.at_end) {
        printf("not an expression\n");
        return 2;
    }
    show(whole);
    printf(" = %g\n", value(&nodes[whole]));
    return 0;
}
