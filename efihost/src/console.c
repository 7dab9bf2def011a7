/* The console's text: on a terminal with colours and the cursor, else as plain text, in which a
 * position to the right becomes blanks and any other a new line. */
#include "host.h"

#include <string.h>
#include <unistd.h>

#define COLUMNS SCREEN_COLUMNS
#define ROWS SCREEN_ROWS

static const EFI_GUID text_out_guid = {
    0x387477c2, 0x69c7, 0x11d2, {0x8e, 0x39, 0x00, 0xa0, 0xc9, 0x69, 0x72, 0x3b}};

static EFI_SIMPLE_TEXT_OUTPUT_MODE mode = {1, 0, 7, 0, 0, 1};
static EFI_SIMPLE_TEXT_OUTPUT_MODE *shown; /* what images see of it */
static int row_of_text; /* the row in which plain text is */

bool terminal_out(void)
{
    return !host.options.plain && isatty(STDOUT_FILENO);
}

static void put(const char *text, size_t length)
{
    if (!host.options.quiet)
        fwrite(text, 1, length, stdout);
}

static void put_text(const char *text)
{
    put(text, strlen(text));
}

static void new_row(void)
{
    if (mode.CursorRow == ROWS - 1)
        screen_scroll(mode.Attribute);
    else
        mode.CursorRow++;
    row_of_text = mode.CursorRow;
}

/* A letter that is seen. One above U+FFFF comes in two halves, and the picture of the screen has
 * none such. False for the first half, which waits. */
static bool put_visible(CHAR16 letter)
{
    static uint32_t first_half;
    uint32_t whole = letter;
    char bytes[4];

    if ((letter & 0xfc00) == 0xd800) {
        first_half = letter;
        return false;
    }
    if ((letter & 0xfc00) == 0xdc00)
        whole = 0x10000 + ((first_half & 0x3ff) << 10 | (letter & 0x3ffU));
    put(bytes, utf8_of(whole, bytes));
    screen_put(mode.CursorRow, mode.CursorColumn, whole == letter ? letter : 0xfffd,
               mode.Attribute);
    return true;
}

/* Puts a letter and moves the cursor; behind the last column the next row begins, which a terminal
 * does by itself only where it is as wide. */
static void put_letter(CHAR16 letter, CHAR16 next)
{
    if (letter == '\r') {
        mode.CursorColumn = 0;
        if (terminal_out())
            put_text("\r");
    } else if (letter == '\n') {
        put_text("\n");
        new_row();
    } else if (letter == 8) {
        mode.CursorColumn -= mode.CursorColumn > 0;
        put_text("\b");
    } else if (letter >= 32 && put_visible(letter) && ++mode.CursorColumn == COLUMNS) {
        mode.CursorColumn = 0;
        new_row();
        if (next != '\r' && next != '\n')
            put_text(terminal_out() ? "\r\n" : "\n");
    }
}

static EFI_STATUS show_mode(void)
{
    set_structure(shown, &mode, sizeof mode);
    return EFI_SUCCESS;
}

static EFI_STATUS EFIAPI output_string(EFI_SIMPLE_TEXT_OUTPUT_PROTOCOL *this, const CHAR16 *text)
{
    SERVICE("OutputString", NUMBER(this), NUMBER(text));

    if (text == NULL)
        ANSWER(EFI_INVALID_PARAMETER);
    for (; *text != 0; text++)
        put_letter(text[0], text[1]);
    if (terminal_out())
        fflush(stdout);
    ANSWER(show_mode());
}

static EFI_STATUS EFIAPI test_string(EFI_SIMPLE_TEXT_OUTPUT_PROTOCOL *this, const CHAR16 *text)
{
    SERVICE("TestString", NUMBER(this), NUMBER(text));
    ANSWER(EFI_SUCCESS);
}

static EFI_STATUS EFIAPI query_mode(EFI_SIMPLE_TEXT_OUTPUT_PROTOCOL *this, UINTN number,
                                    UINTN *columns, UINTN *rows)
{
    SERVICE("QueryMode", NUMBER(this), number, NUMBER(columns), NUMBER(rows));

    if (number != 0)
        ANSWER(EFI_UNSUPPORTED);
    *columns = COLUMNS;
    *rows = ROWS;
    ANSWER(EFI_SUCCESS);
}

/* The standard's colours are numbered blue first, a terminal's red first. */
static EFI_STATUS EFIAPI set_attribute(EFI_SIMPLE_TEXT_OUTPUT_PROTOCOL *this, UINTN attribute)
{
    static const int colours[] = {0, 4, 2, 6, 1, 5, 3, 7};
    SERVICE("SetAttribute", NUMBER(this), attribute);
    char text[32];

    if (attribute > 0x7f)
        ANSWER(EFI_UNSUPPORTED);
    mode.Attribute = (int32_t)attribute;
    if (terminal_out()) {
        snprintf(text, sizeof text, "\033[%d;%d;%dm", (attribute & 8) != 0 ? 1 : 22,
                 30 + colours[attribute & 7], 40 + colours[attribute >> 4 & 7]);
        put_text(text);
    }
    ANSWER(show_mode());
}

static EFI_STATUS clear(void)
{
    screen_clear(mode.Attribute);
    if (terminal_out())
        put_text("\033[2J\033[H");
    else if (mode.CursorColumn != 0)
        put_text("\n");
    mode.CursorColumn = mode.CursorRow = row_of_text = 0;
    return show_mode();
}

static EFI_STATUS EFIAPI clear_screen(EFI_SIMPLE_TEXT_OUTPUT_PROTOCOL *this)
{
    SERVICE("ClearScreen", NUMBER(this));
    ANSWER(clear());
}

static EFI_STATUS EFIAPI reset_out(EFI_SIMPLE_TEXT_OUTPUT_PROTOCOL *this, BOOLEAN extended)
{
    SERVICE("SimpleTextOutput.Reset", NUMBER(this), extended);
    ANSWER(clear());
}

static EFI_STATUS EFIAPI set_mode(EFI_SIMPLE_TEXT_OUTPUT_PROTOCOL *this, UINTN number)
{
    SERVICE("SimpleTextOutput.SetMode", NUMBER(this), number);
    ANSWER(number != 0 ? EFI_UNSUPPORTED : clear());
}

static EFI_STATUS EFIAPI set_cursor(EFI_SIMPLE_TEXT_OUTPUT_PROTOCOL *this, UINTN column, UINTN row)
{
    SERVICE("SetCursorPosition", NUMBER(this), column, row);
    char text[32];

    if (column >= COLUMNS || row >= ROWS)
        ANSWER(EFI_UNSUPPORTED);
    if (terminal_out()) {
        snprintf(text, sizeof text, "\033[%u;%uH", (unsigned)row + 1, (unsigned)column + 1);
        put_text(text);
    } else {
        if ((int)row != row_of_text || (int)column < mode.CursorColumn) {
            put_text("\n");
            mode.CursorColumn = 0;
        }
        for (int i = mode.CursorColumn; i < (int)column; i++)
            put_text(" ");
    }
    mode.CursorColumn = (int32_t)column;
    mode.CursorRow = row_of_text = (int)row;
    ANSWER(show_mode());
}

static EFI_STATUS EFIAPI enable_cursor(EFI_SIMPLE_TEXT_OUTPUT_PROTOCOL *this, BOOLEAN visible)
{
    SERVICE("EnableCursor", NUMBER(this), visible);

    mode.CursorVisible = visible != 0;
    if (terminal_out())
        put_text(visible ? "\033[?25h" : "\033[?25l");
    ANSWER(show_mode());
}

void make_console(void)
{
    EFI_SIMPLE_TEXT_OUTPUT_PROTOCOL functions = {
        reset_out,     output_string, test_string, query_mode,    set_mode,
        set_attribute, clear_screen,  set_cursor,  enable_cursor, NULL};
    uint64_t out = 0;
    void *text_out;

    open_screen(host.options.screen);
    make_text_in();
    shown = need_structure("SimpleTextOutput.Mode", &mode, sizeof mode);
    functions.Mode = shown;
    text_out = need_structure("SimpleTextOutput", &functions, sizeof functions);
    install_one(&out, &text_out_guid, 0, NUMBER(text_out));
    host.table->ConsoleOutHandle = host.table->StandardErrorHandle = HANDLE(out);
    host.table->ConOut = host.table->StdErr = text_out;
    show_tables();
}
