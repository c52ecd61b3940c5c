/* A target region, for which gcc needs a function that LLVM's runtime lacks. */
#include <stdio.h>

int main(int count, char **words) {
#pragma omp target
    if (count > 100) puts(words[0]);
}
