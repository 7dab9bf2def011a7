/* The console's screen as a picture: letters and colours of each place, saved as SVG for --screen. */
#include "host.h"

#include <unistd.h>

#define CELL_WIDTH 9
#define CELL_HEIGHT 18
#define BASELINE 14

struct cell {
    CHAR16 letter;
    uint8_t attribute;
};
static struct cell cells[SCREEN_ROWS][SCREEN_COLUMNS];
static FILE *file;

void open_screen(const char *name)
{
    if (name == NULL)
        return;
    file = fopen(name, "w");
    if (file == NULL)
        refuse("cannot write %s", name);
    screen_clear(7);
}

void screen_put(int row, int column, CHAR16 letter, int attribute)
{
    cells[row][column] = (struct cell){letter, (uint8_t)attribute};
}

static void clear_row(int row, int attribute)
{
    for (int column = 0; column < SCREEN_COLUMNS; column++)
        screen_put(row, column, ' ', attribute);
}

void screen_clear(int attribute)
{
    for (int row = 0; row < SCREEN_ROWS; row++)
        clear_row(row, attribute);
}

void screen_scroll(int attribute)
{
    for (int row = 0; row + 1 < SCREEN_ROWS; row++)
        for (int column = 0; column < SCREEN_COLUMNS; column++)
            cells[row][column] = cells[row + 1][column];
    clear_row(SCREEN_ROWS - 1, attribute);
}

/* A colour of the standard, of which only the first eight can be a background. */
static const char *colour(int number)
{
    static const char *const colours[16] = {
        "#000", "#00a", "#0a0", "#0aa", "#a00", "#a0a", "#a50", "#aaa",
        "#555", "#55f", "#5f5", "#5ff", "#f55", "#f5f", "#ff5", "#fff"};

    return colours[number & 15];
}

/* A blank is one that joins, since viewers of SVG drop others. */
static void write_letter(CHAR16 letter)
{
    char bytes[4];

    if (letter == ' ')
        letter = 0xa0;
    if (letter == '<')
        fputs("&lt;", file);
    else if (letter == '&')
        fputs("&amp;", file);
    else
        fwrite(bytes, 1, utf8_of(letter, bytes), file);
}

/* Letters from one column up to another, which have the same colours. */
static void write_run(int row, int from, int to)
{
    int attribute = cells[row][from].attribute, x = from * CELL_WIDTH, y = row * CELL_HEIGHT;
    bool blank = true;

    if ((attribute >> 4 & 7) != 0)
        fprintf(file, "<rect x=\"%d\" y=\"%d\" width=\"%d\" height=\"%d\" fill=\"%s\"/>\n", x, y,
                (to - from) * CELL_WIDTH, CELL_HEIGHT, colour(attribute >> 4 & 7));
    for (int i = from; i < to; i++)
        blank &= cells[row][i].letter == ' ';
    if (blank)
        return;
    fprintf(file, "<text x=\"%d\" y=\"%d\" textLength=\"%d\" fill=\"%s\">", x, y + BASELINE,
            (to - from) * CELL_WIDTH, colour(attribute));
    for (int i = from; i < to; i++)
        write_letter(cells[row][i].letter);
    fputs("</text>\n", file);
}

/* The column behind the last one of a row that is not a blank on black. */
static int row_end(int row)
{
    int end = SCREEN_COLUMNS;

    while (end > 0 && cells[row][end - 1].letter == ' ' && cells[row][end - 1].attribute >> 4 == 0)
        end--;
    return end;
}

static void write_row(int row)
{
    int end = row_end(row), from = 0;

    while (from < end) {
        int to = from + 1;

        while (to < end && cells[row][to].attribute == cells[row][from].attribute)
            to++;
        write_run(row, from, to);
        from = to;
    }
}

void save_screen(void)
{
    if (file == NULL || ftruncate(fileno(file), 0) != 0)
        return;
    rewind(file);
    fprintf(file,
            "<svg xmlns=\"http://www.w3.org/2000/svg\" viewBox=\"-8 -8 %d %d\" width=\"%d\" "
            "font-family=\"DejaVu Sans Mono, Consolas, monospace\" font-size=\"15\">\n"
            "<rect x=\"-8\" y=\"-8\" width=\"100%%\" height=\"100%%\" fill=\"#000\"/>\n",
            SCREEN_COLUMNS * CELL_WIDTH + 16, SCREEN_ROWS * CELL_HEIGHT + 16,
            SCREEN_COLUMNS * CELL_WIDTH + 16);
    for (int row = 0; row < SCREEN_ROWS; row++)
        write_row(row);
    fputs("</svg>\n", file);
    fflush(file);
}
