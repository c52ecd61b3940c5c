/* A doacross loop: its dependences name iterations and not tasks. */
int main(void) {
    int values[16] = {0};
#pragma omp parallel num_threads(4)
#pragma omp for ordered(1)
    for (int i = 1; i < 16; i++) {
#pragma omp ordered depend(sink : i - 1)
        values[i] = values[i - 1] + 1;
#pragma omp ordered depend(source)
    }
    return values[15] != 15;
}
