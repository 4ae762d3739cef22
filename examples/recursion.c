/* Recursion: queens on a board, the towers of Hanoi, Ackermann's function, and two functions that call each other. */
#include <stdio.h>

static unsigned long moves;

static void hanoi(int discs, int from, int to, int by)
{
    if (discs == 0)
        return;
    hanoi(discs - 1, from, by, to);
    moves++;
    hanoi(discs - 1, by, to, from);
}

static int queens(int size, int row, unsigned columns, unsigned left, unsigned right)
{
    if (row == size)
        return 1;
    int found = 0;
    for (int column = 0; column < size; column++) {
        unsigned place = 1u << column;
        if (!((columns | left | right) & place))
            found += queens(size, row + 1, columns | place, (left | place) << 1, (right | place) >> 1);
    }
    return found;
}

static unsigned ackermann(unsigned m, unsigned n)
{
    if (m == 0)
        return n + 1;
    return ackermann(m - 1, n == 0 ? 1 : ackermann(m, n - 1));
}

static int is_odd(unsigned n);

static int is_even(unsigned n)
{
    return n == 0 ? 1 : is_odd(n - 1);
}

static int is_odd(unsigned n)
{
    return n == 0 ? 0 : is_even(n - 1);
}

int main(void)
{
    hanoi(12, 0, 2, 1);
    int boards = queens(8, 0, 0, 0, 0);
    unsigned a = ackermann(2, 9);
    printf("%lu moves, %d boards, ackermann %u, 1001 is %s\n", moves, boards, a, is_odd(1001) ? "odd" : "even");
    int good = moves == 4095 && boards == 92 && a == 21 && is_even(1000) && is_odd(1001);
    puts(good ? "recursion: ok" : "recursion: wrong");
    return !good;
}
