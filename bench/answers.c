/* Reads lines, and makes one write for each: `refused LINE 2`. */
#include <stdio.h>
#include <unistd.h>

int main(void)
{
    static char line[70000], answer[60];
    unsigned long number = 0;
    while (fgets(line, sizeof line, stdin)) {
        int length = snprintf(answer, sizeof answer, "refused %lu 2\n", ++number);
        if (write(1, answer, (size_t)length) != length)
            return 1;
    }
    return 0;
}
