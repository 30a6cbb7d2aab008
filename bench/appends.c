/* The writes and syncs of a journal that takes the report of each line of its input, and nothing else: appends FILE.
   Each line gives a body (length, entry, closed gate), a sync of the data, an open gate, a sync of the data, and one
   answer. */
#include <fcntl.h>
#include <stdio.h>
#include <string.h>
#include <unistd.h>

int main(int argc, char **argv)
{
    static char line[70000], body[70000], answer[40];
    int file = open(argc > 1 ? argv[1] : "journal", O_RDWR | O_CREAT | O_TRUNC, 0600);
    off_t end = 16;
    unsigned long number = 0;
    if (file < 0 || pwrite(file, "FMAJRNL1\0\0\0\0\0\0\0\0", 17, 0) != 17 || fsync(file) != 0)
        return 1;
    while (fgets(line, sizeof line, stdin)) {
        char *class = strchr(line, ' ');
        char *path = class ? strchr(class + 1, ' ') : NULL;
        char *moment = path ? strchr(path + 1, ' ') : NULL;
        if (!moment)
            return 1;
        size_t size = 1 + 2 + (size_t)(path - class - 1) + 2 + (size_t)(moment - path - 1) + 8 + 2;
        memset(body, 0, size + 5);
        memcpy(body + 5, class + 1, (size_t)(moment - class - 1));
        if (pwrite(file, body, size + 5, end + 1) != (ssize_t)(size + 5) || fdatasync(file) != 0)
            return 1;
        if (pwrite(file, "\1", 1, end) != 1 || fdatasync(file) != 0)
            return 1;
        end += (off_t)(size + 5);
        int length = snprintf(answer, sizeof answer, "ok %lu\n", number++);
        if (write(1, answer, (size_t)length) != length)
            return 1;
    }
    return 0;
}
