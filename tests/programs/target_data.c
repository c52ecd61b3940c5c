/* Moves data to a device, and uses no other OpenMP: there is nothing to record. */
#include <stdio.h>

int main(void) {
    int number = 1;
#pragma omp target data map(tofrom : number)
    number++;
    printf("%d\n", number);
}
