/* Reads its whole input and prints how many lines, words and bytes it has, as `wc` does. */
#include "machine.h"

static char buffer[16384];

int main(void)
{
    unsigned lines = 0, words = 0, bytes = 0;
    int in_word = 0, count;
    char line[64], *end = line;

    /* A call gives at most 4,096 bytes, however large the buffer; only 0 is the end. */
    while ((count = read_bytes(buffer, sizeof buffer)) > 0) {
        for (int i = 0; i < count; i++) {
            char c = buffer[i];
            int space = c == ' ' || (c >= '\t' && c <= '\r');
            lines += c == '\n';
            words += !space && !in_word;
            in_word = !space;
        }
        bytes += count;
    }
    if (count < 0)
        return 1;
    end = put_number(end, lines);
    end = put_text(end, " ");
    end = put_number(end, words);
    end = put_text(end, " ");
    end = put_number(end, bytes);
    end = put_text(end, "\n");
    return write_all(STREAM_OUT, line, end - line) < 0;
}
