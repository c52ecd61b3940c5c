/* Taskloops of several loops in one, with bounds that are known when the program runs, and a triangle. */
#include "working.h"

static int cells[6][7], triangle;

int main(int count, char **words) {
    (void)words;
    int rows = 5 + count, columns = 6 + count;
#pragma omp parallel
#pragma omp single
    {
#pragma omp taskloop collapse(2) grainsize(5)
        for (int row = 0; row < rows; row++)
            for (int column = 0; column < columns; column++) cells[row][column] = row * columns + column;
#pragma omp taskloop collapse(2) num_tasks(4)
        for (int row = 0; row < rows; row++)
            for (int column = 0; column < columns; column += 2) {
#pragma omp atomic
                triangle += row * column;
            }
    }
    int sum = 0;
    for (int row = 0; row < 6; row++)
        for (int column = 0; column < 7; column++) sum += cells[row][column];
    printf("taskloop_collapse: %d, %d\n", sum, triangle);
    return 0;
}
