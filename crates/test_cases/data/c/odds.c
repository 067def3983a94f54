/* What the others don't use. */

unsigned long long_mask = ~0x0FuL << 3 >> 1 | 07 & 0xffL ^ 'a', *pointer = &long_mask;
float a = 1.f, b = .5, c = 1e-3, d = 2.E+4L;
const char *const volatile names[2][3] = { { "a", "b" "c", }, { L"d" } };
int (*functions[4])(int, char *[], ...), (*(*returned(void))[3])(int x);
extern struct later *forward, **(*table_of[])(struct later *, int [], int (*)(void));
union number { int i; double d; } numbers[] = { 1, 2, 3 };
auto int odd(register int n, ...) { return n & 1 ? 1 : n < 0 ? odd(-n, "x", 'y') : 0; }

void loops(void)
{
    int i = 0, j, k;

    for (i = 0, j = 10; i < j; i++, --j)
        if (i % 2)
            if (j % 2) k = i; else k = j;
        else
            k = i + j, k <<= 1, k >>= 2, k |= 4, k &= ~1, k ^= 3, k %= 7, k /= 2, k -= 1;
    while (1) { if (!i--) break; else continue; }
    do ; while (+i > -1);
    {
        {
        }
    }
again:
    switch (i) case 1: case 2: default: i = (int) (long) (char) sizeof(int (*)[2]) * sizeof i * *(int *) 0;
    if (i == j && k || i != k)
        goto again;
}
