/* Quicksort, a heap and a binary search over records of seven bytes that aren't aligned, through pointers to functions. */
#include <stddef.h>

enum { COUNT = 200 };

struct __attribute__((packed)) record {
    unsigned char tag;
    int key;
    unsigned short number;
};

typedef int comparison(const struct record *, const struct record *);

static struct record records[COUNT];
static int heap[COUNT];

static int by_key(const struct record *a, const struct record *b)
{
    return (a->key > b->key) - (a->key < b->key);
}

static int by_tag(const struct record *a, const struct record *b)
{
    return a->tag != b->tag ? a->tag - b->tag : a->number - b->number;
}

static comparison *const comparisons[] = {by_key, by_tag};

static void swap(struct record *a, struct record *b)
{
    struct record kept = *a;

    *a = *b;
    *b = kept;
}

static void quicksort(struct record *from, ptrdiff_t count, comparison *compare)
{
    ptrdiff_t last = 0;

    if (count < 2)
        return;
    swap(&from[0], &from[count / 2]);
    for (ptrdiff_t i = 1; i < count; i++)
        if (compare(&from[i], &from[0]) < 0)
            swap(&from[++last], &from[i]);
    swap(&from[0], &from[last]);
    quicksort(from, last, compare);
    quicksort(from + last + 1, count - last - 1, compare);
}

static void fill(void)
{
    unsigned x = 1;

    for (unsigned i = 0; i < COUNT; i++) {
        x = 1664525 * x + 1013904223;
        records[i].tag = (unsigned char)(x >> 24);
        x = 1664525 * x + 1013904223;
        records[i].key = (int)x;
        records[i].number = (unsigned short)i;
    }
}

/* The keys in a heap, the least on top, and out of it again. */
static unsigned *heapsort(unsigned *out)
{
    int count = 0;

    for (int i = 0; i < COUNT; i++) {
        int at = count++;

        for (; at > 0 && heap[(at - 1) / 2] > records[i].key; at = (at - 1) / 2)
            heap[at] = heap[(at - 1) / 2];
        heap[at] = records[i].key;
    }
    while (count > 0) {
        int last = heap[--count];
        int at = 0;

        *out++ = (unsigned)heap[0];
        for (;;) {
            int child = 2 * at + 1;

            if (child + 1 < count && heap[child + 1] < heap[child])
                child++;
            if (child >= count || heap[child] >= last)
                break;
            heap[at] = heap[child];
            at = child;
        }
        heap[at] = last;
    }
    return out;
}

static int place_of(int key)
{
    int low = 0, high = COUNT;

    while (low < high) {
        int middle = (low + high) / 2;

        if (records[middle].key < key)
            low = middle + 1;
        else
            high = middle;
    }
    return low;
}

unsigned *program(unsigned *out)
{
    fill();
    for (size_t k = 0; k < sizeof comparisons / sizeof *comparisons; k++) {
        quicksort(records, COUNT, comparisons[k]);
        for (int i = 0; i < COUNT; i++)
            *out++ = (unsigned)records[i].number | (unsigned)records[i].tag << 16;
    }
    quicksort(records, COUNT, by_key);
    out = heapsort(out);
    for (int i = -8; i <= 8; i++)
        *out++ = (unsigned)place_of(i * 0x0f000000);
    return out;
}
