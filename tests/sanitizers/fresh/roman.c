/* Years are written in Roman numerals, and the longest one of each century is printed. */
#include <stdio.h>
#include <string.h>

struct sign {
    int value;
    const char *letters;
};

static const struct sign signs[] = {
    {1000, "M"}, {900, "CM"}, {500, "D"}, {400, "CD"}, {100, "C"}, {90, "XC"}, {50, "L"},
    {40, "XL"}, {10, "X"}, {9, "IX"}, {5, "V"}, {4, "IV"}, {1, "I"},
};

static unsigned longest;
static int year_of_longest;

static void append(char *text, int *left)
{
    for (const struct sign *sign = signs; *left; sign++)
        while (*left >= sign->value) {
            strcat(text, sign->letters);
            *left -= sign->value;
        }
}

static unsigned write_year(int year)
{
    char text[12] = "";
    int left = year;

    append(text, &left);
    if (strlen(text) > longest) {
        longest = strlen(text);
        year_of_longest = year;
    }
    return longest;
}

int main(void)
{
    for (int year = 1501; year < 1900; year++) {
        if (year % 100 == 1) {
            printf("%d: %u letters\n", year_of_longest, longest);
            longest = 0;
        }
        write_year(year);
    }
    return 0;
}
