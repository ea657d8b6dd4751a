/* Reads rows of one word of 8 bits, adds one and writes them: what `silc sim` and `silc eval` do for y = x + 1, with none
   of their checks of the samples but that a line is a number. bench/sim compares their times with its own.

   usage: add_one SAMPLES OUT */
#include <stdio.h>
#include <stdlib.h>

int main(int count, char **words)
{
    FILE *samples = count == 3 ? fopen(words[1], "r") : NULL;
    FILE *out = samples ? fopen(words[2], "w") : NULL;
    char line[64];
    if (!out)
        return 1;
    while (fgets(line, sizeof line, samples)) {
        char *end;
        long word = strtol(line, &end, 10);
        if (end == line || (*end != '\n' && *end != '\r' && *end != 0))
            return 1;
        fprintf(out, "%d\n", (signed char)(word + 1));
    }
    return ferror(samples) || fclose(out) ? 1 : 0;
}
