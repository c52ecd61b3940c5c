/* A list of 70 dependences, of which a file takes 64. */
int main(void) {
    static int values[70];
#pragma omp parallel num_threads(2)
#pragma omp single
    {
#pragma omp task depend(iterator(i = 0 : 70), out : values[i])
        values[0] = 1;
#pragma omp task depend(in : values[0])
        values[1] = values[0];
#pragma omp taskwait
    }
    return values[1] != 1;
}
