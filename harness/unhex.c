/* Turns hex digits on standard input into bytes on standard output. Blanks between digits do not
 * matter, and # starts a comment to the line's end. */
#include <stdbool.h>
#include <stdio.h>
#include <string.h>

/* The next character outside comments. */
static int next_character(void)
{
    int c = getchar();
    if (c == '#') {
        while (c != '\n' && c != EOF) {
            c = getchar();
        }
    }
    return c;
}

/* The next digit's value, -1 at the end, -2 for any other character. */
static int next_digit(void)
{
    static const char digits[] = "0123456789abcdefABCDEF";
    int c = next_character();
    while (c == ' ' || c == '\t' || c == '\r' || c == '\n') {
        c = next_character();
    }
    if (c == EOF) {
        return -1;
    }
    const char *digit = c == '\0' ? NULL : strchr(digits, c);
    if (digit == NULL) {
        return -2;
    }
    int value = (int)(digit - digits);
    return value < 16 ? value : value - 6;
}

/* Whether all digits came in pairs. */
static bool convert(void)
{
    int high = next_digit();
    while (high >= 0) {
        int low = next_digit();
        if (low < 0) {
            return false;
        }
        putchar(16 * high + low);
        high = next_digit();
    }
    return high == -1;
}

/* --help says how it is used; there are no other words. */
static int say_usage(bool asked)
{
    fputs("usage: unhex < HEX > BYTES\n"
          "Makes bytes of hex digits: blanks between them do not matter, and # starts a comment.\n",
          asked ? stdout : stderr);
    return asked ? 0 : 2;
}

int main(int argc, char **argv)
{
    if (argc > 1) {
        return say_usage(argc == 2 && (strcmp(argv[1], "--help") == 0 || strcmp(argv[1], "-h") == 0));
    }
    bool done = convert();
    if (!done) {
        fputs("unhex: not pairs of hex digits\n", stderr);
        return 1;
    }
    if (ferror(stdin) || fflush(stdout) != 0 || ferror(stdout)) {
        perror("unhex");
        return 1;
    }
    return 0;
}
