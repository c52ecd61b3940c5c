/* A program that is linked to OpenMP and uses none. */
int main(int count, char **words) {
    (void)words;
    if (count > 1) {
#pragma omp parallel
    {
#pragma omp barrier
    }
    }
}
