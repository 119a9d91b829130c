/* A server that computes what a line says in Polish notation, over a C library: `+ 1 * 2 3` is 7. An operator is + - or *, and a
 * number has at most nine digits. The reply is the value and how deep the tree is, or `bad`.
 *
 * It has a fault of a kind that is often made: a leaf's second pointer isn't set, and the walk that frees a tree looks at it. In
 * memory that nobody had it is 0. With -DMENDED it is set.
 */
#include <assert.h>
#include <ctype.h>
#include <stdlib.h>
#include "serve.h"

enum { SIGN = 0x7ee, MOST_DEEP = 40 };

struct node {
    struct node *left;
    struct node *right;
    unsigned sign;
    char operator; /* or 0: a number */
    long value;
};

static void release(struct node *node)
{
    if (node == NULL)
        return;
    assert(node->sign == SIGN);
    release(node->left);
    release(node->right);
    free(node);
}

/* The tree of the text from a place on, which goes behind it; or NULL. */
static struct node *parse(const char **at, unsigned deep)
{
    struct node *node;

    while (**at == ' ')
        ++*at;
    if (deep == 0 || **at == '\0')
        return NULL;
    node = malloc(sizeof *node);
    if (node == NULL)
        return NULL;
    node->sign = SIGN;
    if (isdigit((unsigned char)**at)) {
        char *end;

        node->operator = 0;
        node->left = NULL;
#ifdef MENDED
        node->right = NULL;
#endif
        node->value = strtol(*at, &end, 10);
        *at = end;
        return node;
    }
    node->operator = *(*at)++;
    node->left = NULL;
    node->right = NULL;
    if (strchr("+-*", node->operator) != NULL)
        node->left = parse(at, deep - 1);
    if (node->left != NULL)
        node->right = parse(at, deep - 1);
    if (node->right == NULL) {
        release(node);
        return NULL;
    }
    return node;
}

static long value_of(const struct node *node)
{
    unsigned long left, right;

    if (node->operator == 0)
        return node->value;
    left = value_of(node->left);
    right = value_of(node->right);
    return node->operator == '+' ? left + right : node->operator == '-' ? left - right : left * right;
}

static unsigned depth_of(const struct node *node)
{
    unsigned left, right;

    if (node->operator == 0)
        return 1;
    left = depth_of(node->left);
    right = depth_of(node->right);
    return 1 + (left > right ? left : right);
}

int main(void)
{
    for (;;) {
        unsigned connection = next_line();
        const char *at = line;
        struct node *tree = parse(&at, MOST_DEEP);

        if (tree == NULL || *at != '\0')
            say("bad\n");
        else
            say("%ld, %u deep\n", value_of(tree), depth_of(tree));
        send_reply(connection);
        release(tree);
    }
}
