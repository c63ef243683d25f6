/* The listing program in plain C: what tools/caps_bench.sh times caps against. It is written straight from the statement ("The listing
   program", "Power rules") and shares nothing with the proved source. */

/* The kit's compiler has no headers. */
long read(int from, void *to, unsigned long size);
long write(int to, const void *from, unsigned long size);
void *memmove(void *to, const void *from, unsigned long size);

enum { RECORD = 8, BLOCK = 65536, LONGEST = 71 };

static unsigned char input[BLOCK];
static char output[BLOCK];
static unsigned long filled;

/* The cable in 10 mA. */
struct profile {
    unsigned max, present, cable, rounding, pps, flags;
};

struct list {
    unsigned words[7];
    unsigned count;
};

static int fault(const struct profile *p)
{
    if (p->max < 1 || p->max > 200) return 1;
    if (p->present < 1 || p->present > p->max) return 2;
    if (p->cable < 100 || p->cable > 500) return 3;
    if (p->rounding > 1 || p->pps > 1) return 4;
    if (p->flags > 63) return 5;
    if (p->pps == 1 && p->present < p->max) return 6;
    return 0;
}

static unsigned least(unsigned a, unsigned b)
{
    return a < b ? a : b;
}

/* In 10 mA. */
static unsigned current(const struct profile *p, unsigned volts)
{
    unsigned up = p->rounding ? volts - 1 : 0;
    return least((50 * p->present + up) / volts, volts == 20 ? p->cable : least(300, p->cable));
}

/* In 50 mA, 5 V up to `top` in 100 mV, power limited. */
static unsigned prog(const struct profile *p, unsigned volts, unsigned top)
{
    unsigned cable = p->cable / 5;
    unsigned figure = least(10 * p->max / volts, volts == 20 ? cable : least(60, cable));
    return 0xC8000000u | top << 17 | 50 << 8 | figure;
}

static void push(struct list *l, unsigned word)
{
    l->words[l->count++] = word;
}

static void build(const struct profile *p, struct list *l)
{
    static const unsigned rails[4][2] = {{5, 0}, {9, 30}, {15, 54}, {20, 90}};
    unsigned max = p->max;
    for (int i = 0; i < 4; i++)
        if (max > rails[i][1]) push(l, rails[i][0] * 20 << 10 | current(p, rails[i][0]));
    l->words[0] |= p->flags << 24;
    if (max > 54) push(l, 0xE0000000u | current(p, 15) << 10 | (max > 90 ? current(p, 20) : 0));
    if (!p->pps) return;
    if (max > 30 && max < 90) push(l, prog(p, 9, 110));
    if (max > 54 && max < 120) push(l, prog(p, 15, 160));
    if (max > 90) push(l, prog(p, 20, 210));
}

static int flush(void)
{
    unsigned long done = 0;
    while (done < filled) {
        long n = write(1, output + done, filled - done);
        if (n <= 0) return 0;
        done += n;
    }
    filled = 0;
    return 1;
}

static void put_word(unsigned word)
{
    output[filled++] = ' ';
    for (int shift = 28; shift >= 0; shift -= 4) output[filled++] = "0123456789ABCDEF"[word >> shift & 15];
}

/* No refusal of a record and no count has two digits. */
static int put_line(int number, const struct list *l)
{
    if (filled + LONGEST > BLOCK && !flush()) return 0;
    output[filled++] = '0' + number;
    output[filled++] = ' ';
    output[filled++] = '0' + l->count;
    for (unsigned i = 0; i < l->count; i++) put_word(l->words[i]);
    output[filled++] = '\n';
    return 1;
}

static int put_record(const unsigned char *r)
{
    struct profile p = {r[0] | r[1] << 8, r[2] | r[3] << 8, 10u * r[4], r[5], r[6], r[7]};
    struct list l = {{0}, 0};
    int number = fault(&p);
    if (number == 0) build(&p, &l);
    return put_line(number, &l);
}

int main(void)
{
    static const struct list none;
    unsigned long held = 0;
    for (;;) {
        long n = read(0, input + held, BLOCK - held);
        if (n <= 0) break;
        held += n;
        unsigned long at = 0;
        for (; at + RECORD <= held; at += RECORD)
            if (!put_record(input + at)) return 1;
        memmove(input, input + at, held - at);
        held -= at;
    }
    if (held > 0 && !put_line(9, &none)) return 1;
    return flush() ? 0 : 1;
}
