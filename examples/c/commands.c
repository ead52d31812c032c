/* Does a command over a file by the library, as the program does it over standard input: writes the text, or the line that says why there is none,
   and ends with the status.

     commands rate|tree|trace|trace-met|trace-wrap|table|check|follow FILE
     commands draw FILE [FROM UNITS] */
#include "furnacelime.h"

#include <stdio.h>
#include <stdlib.h>
#include <string.h>

typedef int command(const void *bytes, size_t length, struct fl_text *text);

static const struct {
    const char *name;
    command *call; /* none for draw, which is asked for units */
} commands[] = {
    {"rate", fl_rate}, {"tree", fl_tree}, {"trace", fl_trace}, {"trace-met", fl_trace_met}, {"trace-wrap", fl_trace_wrap},
    {"table", fl_table}, {"check", fl_check}, {"follow", fl_follow}, {"draw", NULL},
};

#define COMMANDS (sizeof commands / sizeof *commands)

/* Reads all of a file into a block that grows with it. Whether that could be done. */
static int read_all(FILE *file, unsigned char **bytes, size_t *length)
{
    size_t room = 0;
    for (;;) {
        size_t got;
        if (*length == room) {
            unsigned char *more = realloc(*bytes, room ? room * 2 : 65536);
            if (!more)
                return 0;
            *bytes = more;
            room = room ? room * 2 : 65536;
        }
        got = fread(*bytes + *length, 1, room - *length, file);
        *length += got;
        if (got == 0)
            return !ferror(file);
    }
}

/* A number in decimal digits and nothing else. Whether the word is one. */
static int read_number(const char *word, uint64_t *number)
{
    *number = 0;
    if (!*word)
        return 0;
    for (; *word; word++) {
        uint64_t digit = (uint64_t)(*word - '0');
        if (*word < '0' || *word > '9' || *number > (UINT64_MAX - digit) / 10)
            return 0;
        *number = *number * 10 + digit;
    }
    return 1;
}

/* Writes what was answered where the program would. */
static int tell(int status, const struct fl_text *text)
{
    FILE *to = status == FL_DONE || status == FL_INVALID ? stdout : stderr;
    if (text->length > 0)
        fwrite(text->bytes, 1, text->length, to);
    if (fflush(to) == 0 && !ferror(to))
        return status;
    fprintf(stderr, "commands: the text could not be written\n");
    return to == stdout ? 4 : status;
}

static int usage(void)
{
    fprintf(stderr, "commands rate|tree|trace|trace-met|trace-wrap|table|check|follow FILE\ncommands draw FILE [FROM UNITS]\n");
    return 2;
}

int main(int count, char **words)
{
    size_t length = 0, i = 0;
    struct fl_text text = {NULL, 0};
    unsigned char *bytes = NULL;
    uint64_t from = 0, units = 0;
    FILE *file;
    int status;
    while (count > 1 && i < COMMANDS && strcmp(words[1], commands[i].name) != 0)
        i++;
    if (count < 3 || i == COMMANDS || (count > 3 && (commands[i].call || count != 5)))
        return usage();
    if (count == 5 && (!read_number(words[3], &from) || !read_number(words[4], &units)))
        return usage();
    file = fopen(words[2], "rb");
    if (!file || !read_all(file, &bytes, &length)) {
        perror(words[2]);
        if (file)
            fclose(file);
        free(bytes);
        return 3;
    }
    fclose(file);
    status = commands[i].call ? commands[i].call(bytes, length, &text) : fl_draw(bytes, length, from, units, &text);
    status = tell(status, &text);
    fl_free(&text);
    free(bytes);
    return status;
}
