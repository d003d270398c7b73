/* Runs the fuzzer's function on each file named, without libFuzzer: inputs that were found stay in tests/fuzz/cases, and every check runs them. */
#include <stdint.h>
#include <stdio.h>
#include <stdlib.h>

int LLVMFuzzerTestOneInput(const uint8_t *data, size_t size);

int main(int count, char **names) {
    static uint8_t input[1 << 16];
    int i;
    for (i = 1; i < count; i++) {
        FILE *file = fopen(names[i], "rb");
        size_t size;
        if (!file) {
            perror(names[i]);
            return 1;
        }
        size = fread(input, 1, sizeof input, file);
        fclose(file);
        LLVMFuzzerTestOneInput(input, size);
    }
    printf("%d fuzz cases replayed\n", count - 1);
    return count > 1 ? 0 : 1;
}
