/* Runs a program on a 24 by 80 pseudo-terminal with TERM=wy50, feeds what it writes to the terminal, writes the replies back, and prints the
 * page at the end.
 *
 *     host_pty [-6] [-w] [-l] [-s KEYS].. [-q MILLISECONDS] [-o FILE] PROGRAM [ARGUMENT]..
 *
 *     -6               a WY-60, with TERM=wy60; what has an attribute is listed below the page
 *     -w               132 columns from the start, with TERM=wy50-w or wy60-w
 *     -l               follow live on this ANSI display, attributes as they are, guarded cells dim; what is typed goes to the program, Ctrl-] ends
 *     -s KEYS          once the program is quiet, send it these keys; may come more than once. \r \e \b \t \\ and \xHH are read as in C
 *     -q MILLISECONDS  how long quiet is (300)
 *     -o FILE          write there what the program writes, a host stream, with a 00h where it went quiet
 *
 * Without an option it follows live if it stands on a display itself. With -s or -q it kills the program when it has been quiet for a while
 * after the last keys.
 *
 * A program that wishes for the other width (ESC ` ; for 132 columns, ESC ` : for 80, as tput init sends them) is given it, and the pseudo-terminal
 * its size. Where narrowing would lose a cell beyond column 80 the page stays wide, and that is said at the end.
 *
 * The status is the program's, 128 and the signal's number if a signal ended it, 0 if host_pty did; 127 if the program cannot be started.
 *
 * Real programs choose a character set to draw lines with, which these rules leave out, and letters would stand for lines: examples/terminfo
 * writes entries wy50, wy60, wy50-w and wy60-w without it, so that they draw + - |. TERMINFO=DIR host_pty PROGRAM uses those.
 */
#define _DEFAULT_SOURCE
#include "wy50.h"

#include <errno.h>
#include <fcntl.h>
#include <poll.h>
#include <pty.h>
#include <signal.h>
#include <stdio.h>
#include <stdlib.h>
#include <string.h>
#include <sys/ioctl.h>
#include <sys/wait.h>
#include <termios.h>
#include <unistd.h>

enum { END_KEY = 0x1d };

/* A page for each width; the state says which of them is the terminal's. */
static uint16_t pages[2][WY50_WIDE_CELLS], shown[WY50_WIDE_CELLS];
static wy50_state state;
static size_t fed, refused, kept_wide;
static FILE *record;

static uint16_t *page(void)
{
    return pages[state.screen.wide];
}

static unsigned columns(int wide)
{
    return wide ? WY50_WIDE_COLUMNS : WY50_COLUMNS;
}

static unsigned width(void)
{
    return columns(state.screen.wide);
}

static void put(int to, const uint8_t *bytes, size_t n)
{
    while (n > 0) {
        ssize_t k = write(to, bytes, n);
        if (k < 0 && errno != EINTR && errno != EAGAIN)
            return;
        if (k > 0) {
            bytes += k;
            n -= (size_t)k;
        }
    }
}

static struct winsize size(void)
{
    struct winsize s = {WY50_ROWS, 0, 0, 0};
    s.ws_col = (unsigned short)width();
    return s;
}

/* Takes the other width if it is wished for and nothing is lost; whether it did. */
static int follow_wish(void)
{
    int to = state.wish;
    wy50_convert_result r;
    if (to == state.screen.wide)
        return 0;
    r = wy50_convert(page(), WY50_ROWS * width(), state, pages[to], WY50_ROWS * columns(to));
    if (r.answer == WY50_BAD_CALL)
        abort();
    kept_wide += r.answer == WY50_BARRED;
    state = r.state;
    return r.answer == WY50_DONE;
}

/* The code after ESC ` comes alone, so that a wish is followed at once: what comes after it is meant for that width. */
static size_t some(const uint8_t *bytes, size_t n)
{
    const uint8_t *feature = memchr(bytes, '`', n);
    if (state.sequence.kind == WY50_SET_FEATURE)
        return n > 0;
    return feature ? (size_t)(feature - bytes) + 1 : n;
}

/* Host bytes; replies go back to the program, 64 bytes at a time. */
static void feed(int program, const uint8_t *bytes, size_t n)
{
    uint8_t reply[64];
    while (n > 0 || state.sending.command != 0) {
        size_t count = some(bytes, n);
        int wishes = state.sequence.kind == WY50_SET_FEATURE && count > 0 && (*bytes == ':' || *bytes == ';');
        wy50_run_result r = wy50_run(page(), WY50_ROWS * width(), state, bytes, count, reply, sizeof reply);
        if (r.answer == WY50_BAD_CALL)
            abort();
        state = r.state;
        fed += r.taken;
        refused += r.refused;
        put(program, reply, r.replied);
        bytes += r.taken;
        n -= r.taken;
        if (wishes && follow_wish()) {
            struct winsize s = size();
            ioctl(program, TIOCSWINSZ, &s);
        }
    }
}

static unsigned cursor(void)
{
    return state.screen.active ? state.screen.cursor1 : state.screen.cursor0;
}

/* The flags of an attribute, their names, and the numbers that an ANSI display has for them. */
static const struct {
    uint8_t flag;
    const char *name;
    int ansi;
} looks[] = {{WY50_DIM, "dim", 2}, {WY50_UNDERSCORE, "underscore", 4}, {WY50_REVERSE, "reverse", 7}, {WY50_BLINK, "blink", 5}, {WY50_BLANK, "blank", 8}};
enum { LOOKS = sizeof looks / sizeof *looks };

/* One cell on an ANSI display. Graphics 30h to 3Fh are line drawing. */
static void show_cell(uint16_t v, int guarded)
{
    int i, look = wy50_cell_attribute(v) | (guarded ? WY50_DIM : 0);
    static const char *const lines[16] = {"┬", "└", "┌", "┐", "├", "┘", "│", "█", "┼", "┤", "─", "▒", "═", "┴", "║", "░"};
    for (i = 0; i < LOOKS; i++)
        if (look & looks[i].flag)
            printf("\033[%dm", looks[i].ansi);
    if (wy50_cell_kind(v) == WY50_GRAPHIC)
        fputs(lines[wy50_cell_code(v) % 16], stdout);
    else
        putchar(wy50_cell_sent(v));
    if (look)
        fputs("\033[0m", stdout);
}

/* Draws the cells that have changed, all of them after a change of width. A cell's bit 15 in `shown` says that it is guarded; no written cell has it.
 * What is beyond a display of fewer columns is not drawn. */
static void show(void)
{
    static unsigned shown_width;
    const uint16_t *cells = page();
    unsigned i, at = cursor(), w = width(), most = w;
    struct winsize display;
    if (ioctl(1, TIOCGWINSZ, &display) == 0 && display.ws_col > 0 && display.ws_col < w)
        most = display.ws_col;
    if (w != shown_width) {
        fputs("\033[0m\033[2J", stdout);
        memset(shown, 0, sizeof shown);
        shown_width = w;
    }
    for (i = 0; i < WY50_ROWS * w; i++) {
        int guarded = state.modes.protect && wy50_cell_protected(cells[i]);
        uint16_t now = (uint16_t)(cells[i] | (guarded ? 32768 : 0));
        if (now != shown[i] && i % w < most) {
            printf("\033[%u;%uH", i / w + 1, i % w + 1);
            show_cell(cells[i], guarded);
            shown[i] = now;
        }
    }
    printf("\033[%u;%uH\033[?25%c", at / w + 1, at % w + 1, state.features[WY50_CURSOR_SHOWN] == '1' ? 'h' : 'l');
    fflush(stdout);
}

static void print_page(void)
{
    unsigned row, column;
    for (row = 0; row < WY50_ROWS; row++) {
        unsigned end = width();
        const uint16_t *cells = page() + row * width();
        while (end > 0 && wy50_cell_sent(cells[end - 1]) == ' ')
            end--;
        for (column = 0; column < end; column++)
            putchar(wy50_cell_sent(cells[column]));
        putchar('\n');
    }
    fflush(stdout);
}

/* A line for each run of cells of a row that have the same attribute, if it is not normal. */
static void print_attributes(void)
{
    unsigned row, from, to;
    for (row = 0; row < WY50_ROWS; row++)
        for (from = 0; from < width(); from = to) {
            const uint16_t *cells = page() + row * width();
            int i, look = wy50_cell_attribute(cells[from]), told = 0;
            for (to = from + 1; to < width() && wy50_cell_attribute(cells[to]) == look; to++)
                ;
            if (look == 0)
                continue;
            printf("row %u, columns %u to %u:", row + 1, from + 1, to);
            for (i = 0; i < LOOKS; i++)
                if (look & looks[i].flag)
                    printf("%s %s", told++ ? "," : "", looks[i].name);
            putchar('\n');
        }
    fflush(stdout);
}

/* Reads the escapes of -s in place; how many bytes they make. */
static size_t keys(char *s)
{
    char *to = s, *from = s;
    while (*from) {
        if (*from != '\\') {
            *to++ = *from++;
            continue;
        }
        switch (*++from) {
        case 'r': *to++ = '\r'; from++; break;
        case 'n': *to++ = '\n'; from++; break;
        case 'e': *to++ = 27; from++; break;
        case 'b': *to++ = 8; from++; break;
        case 't': *to++ = 9; from++; break;
        case 'x': *to++ = (char)strtol(from + 1, &from, 16); break;
        case 0: break;
        default: *to++ = *from++;
        }
    }
    return (size_t)(to - s);
}

static void usage(void)
{
    fputs("usage: host_pty [-6] [-w] [-l] [-s KEYS].. [-q MILLISECONDS] [-o FILE] PROGRAM [ARGUMENT]..\n", stderr);
    exit(2);
}

/* The file that the host stream goes to; the program does not have it open. */
static void open_record(const char *name)
{
    record = fopen(name, "wb");
    if (!record || fcntl(fileno(record), F_SETFD, FD_CLOEXEC) < 0) {
        fprintf(stderr, "host_pty: %s: %s\n", name, strerror(errno));
        exit(1);
    }
}

/* Starts the program on a pseudo-terminal; -1 if it cannot be started. The pipe closes at its start, or says why there is none. */
static pid_t start(int *program, const char *term, char **words)
{
    struct winsize s = size();
    int said[2], why = 0;
    pid_t child;
    if (pipe(said) < 0 || (child = forkpty(program, NULL, NULL, &s)) < 0) {
        perror("host_pty: no pseudo-terminal");
        exit(1);
    }
    if (child == 0) {
        close(said[0]);
        fcntl(said[1], F_SETFD, FD_CLOEXEC);
        setenv("TERM", term, 1);
        unsetenv("LINES");
        unsetenv("COLUMNS");
        execvp(*words, words);
        why = errno;
        put(said[1], (const uint8_t *)&why, sizeof why);
        _exit(127);
    }
    close(said[1]);
    if (read(said[0], &why, sizeof why) == sizeof why) {
        fprintf(stderr, "host_pty: %s: %s\n", *words, strerror(why));
        waitpid(child, NULL, 0);
        child = -1;
    }
    close(said[0]);
    return child;
}

/* Bytes to and from the program until it ends (then 1), or goes quiet after the last keys, or Ctrl-] is typed. */
static int play(int program, int live, char **scripts, int count, int quiet)
{
    uint8_t bytes[4096];
    int sent = 0;
    for (;;) {
        struct pollfd fds[2] = {{0, POLLIN, 0}, {0, POLLIN, 0}};
        int ready;
        fds[0].fd = program;
        fds[1].fd = live ? 0 : -1;
        ready = poll(fds, 2, quiet);
        if (ready < 0) {
            if (errno != EINTR)
                return 0;
            continue;
        }
        if (ready == 0) {
            if (record)
                fputc(0, record);
            if (sent == count)
                return 0;
            put(program, (const uint8_t *)scripts[sent], keys(scripts[sent]));
            sent++;
            continue;
        }
        if (fds[1].revents & POLLIN) {
            ssize_t n = read(0, bytes, sizeof bytes);
            if (n <= 0 || memchr(bytes, END_KEY, (size_t)n))
                return 0;
            put(program, bytes, (size_t)n);
        }
        if (fds[0].revents) {
            ssize_t n = read(program, bytes, sizeof bytes);
            if (n <= 0)
                return 1;
            if (record)
                fwrite(bytes, 1, (size_t)n, record);
            feed(program, bytes, (size_t)n);
            if (live)
                show();
        }
    }
}

int main(int argc, char **argv)
{
    static const char *const terms[2][2] = {{"wy50", "wy50-w"}, {"wy60", "wy60-w"}};
    struct termios before;
    char *scripts[64];
    int option, program, ended, status = 0, personality = WY50_PERSONALITY_50, wide = 0, live = 0, count = 0, quiet = -1, raw = 0;
    pid_t child;

    while ((option = getopt(argc, argv, "+6wls:q:o:")) != -1) {
        if (option == '6')
            personality = WY50_PERSONALITY_60;
        else if (option == 'w')
            wide = 1;
        else if (option == 'l')
            live = 1;
        else if (option == 's' && count < 64)
            scripts[count++] = optarg;
        else if (option == 'q')
            quiet = atoi(optarg);
        else if (option == 'o')
            open_record(optarg);
        else
            usage();
    }
    if (optind == argc)
        usage();
    if (count > 0 && quiet < 0)
        quiet = 300;
    if (quiet < 0 && isatty(0) && isatty(1))
        live = 1;

    state = wy50_power_on(pages[0], WY50_CELLS, (uint8_t)personality).state;
    state.wish = (uint16_t)wide;
    follow_wish();
    child = start(&program, terms[personality == WY50_PERSONALITY_60][wide], argv + optind);
    if (child < 0)
        return 127;
    if (live) {
        if (tcgetattr(0, &before) == 0) {
            struct termios now = before;
            cfmakeraw(&now);
            raw = tcsetattr(0, TCSANOW, &now) == 0;
        }
        show();
    }
    ended = play(program, live, scripts, count, quiet);
    if (raw)
        tcsetattr(0, TCSANOW, &before);
    if (live)
        fputs("\033[?25h\033[2J\033[H", stdout);
    print_page();
    print_attributes();
    fprintf(stderr, "host_pty: %zu bytes, %zu refused, cursor at row %u column %u\n", fed, refused, cursor() / width() + 1, cursor() % width() + 1);
    if (kept_wide > 0)
        fprintf(stderr, "host_pty: wishes for 80 columns refused, since cells beyond them would be lost: %zu\n", kept_wide);
    if (!ended)
        kill(-child, SIGKILL);
    waitpid(child, &status, 0);
    close(program);
    if (record && fclose(record) != 0)
        perror("host_pty: -o");
    if (!ended)
        return 0;
    return WIFSIGNALED(status) ? 128 + WTERMSIG(status) : WEXITSTATUS(status);
}
