/* A gateway: plays the terminal to an order host and writes one JSON line for each alert that is to be sent.
 *
 *     gateway [-6] [-f FIRST] [-l LAST] [-w MILLISECONDS] HOST PORT
 *
 *     -6               plays a WY-60
 *     -f, -l           the pieces of the reply to ESC 5 that members are sent, from 1 (all)
 *     -w MILLISECONDS  how long to wait before it connects again the first time (1000); each time in vain twice as long, up to 64 times
 *
 * An alert is asked for by ESC 5. Its line on standard output, for whatever sends texts:
 *
 *     {"fields":["Ethiopia Guji, washed","24"],"text":"Ethiopia Guji, washed   24","units":26,"parts":1,"refused":0}
 *
 * What is not to be sent is never written there. An alert is held back, and told on standard error with the reason, if a byte was refused since
 * the form was drawn, if its count is refused, or if its text is empty. A form begins where the host clears all cells: ESC *, ESC + or ESC ,.
 *
 * Each line to the host starts with a terminal just powered on. While the host leaves its replies unread, no more is read from it. If a line
 * breaks, the host may ask again for what it asked before: that is not written twice.
 */
#define _GNU_SOURCE
#include <errno.h>
#include <netdb.h>
#include <netinet/in.h>
#include <netinet/tcp.h>
#include <poll.h>
#include <stdio.h>
#include <stdlib.h>
#include <string.h>
#include <sys/socket.h>
#include <unistd.h>
#include <wy50.h>
#include <wy50_counter.h>

enum { ESC = 0x1b, FS = 0x1c, US = 0x1f }; /* FS and US part the pieces of a reply to ESC 5 */

/* ---- the terminal */

static uint16_t page[WY50_CELLS];
static wy50_state state;
static uint8_t personality = WY50_PERSONALITY_50;

/* Takes host bytes up to and including the first that replies or is refused, and tells which. A form begins with ESC *, ESC + or ESC , which reply
 * nothing: so it stops behind each ESC too, and the byte after ESC comes alone. The room holds any reply. */
static wy50_next_result take(const uint8_t *bytes, size_t count, uint8_t room[WY50_LONGEST_REPLY], int *form_begins)
{
    const uint8_t *escape = memchr(bytes, ESC, count);
    int after_escape = state.sequence.kind == WY50_ESCAPE;
    size_t some = after_escape ? 1 : escape ? (size_t)(escape - bytes) + 1 : count;
    wy50_next_result r = wy50_next(page, WY50_CELLS, NULL, 0, state, bytes, some, room, WY50_LONGEST_REPLY);
    if (r.answer == WY50_BAD_CALL)
        abort(); /* page and state are the library's own */
    state = r.state;
    *form_begins = after_escape && (*bytes == '*' || *bytes == '+' || *bytes == ',');
    return r;
}

/* ---- refusals since the form was drawn */

enum { REMEMBERED = 8 };

static struct refusal {
    uint8_t byte, answer;
    unsigned row, column;
} refusals[REMEMBERED];
static size_t refused;

static void remember_refusal(uint8_t byte, uint8_t answer)
{
    unsigned at = state.screen.active ? state.screen.cursor1 : state.screen.cursor0;
    if (refused < REMEMBERED) {
        struct refusal *r = refusals + refused;
        r->byte = byte;
        r->answer = answer;
        r->row = at / WY50_COLUMNS + 1;
        r->column = at % WY50_COLUMNS + 1;
    }
    refused++;
}

/* ---- alerts */

static size_t first_piece = 1, last_piece; /* last_piece 0: all */

struct alert {
    wy50_count count;
    uint8_t text[WY50_LONGEST_REPLY]; /* the pieces joined, without trailing spaces */
    size_t length;
    size_t fields;                         /* the pieces that are not empty */
    size_t starts[WY50_LONGEST_REPLY + 1]; /* where each begins in the text, and where the last one ends */
};

static int is_mark(uint8_t byte)
{
    return byte == FS || byte == US;
}

static size_t without_spaces(const uint8_t *text, size_t from, size_t to)
{
    while (to > from && text[to - 1] == ' ')
        to--;
    return to;
}

/* The alert in a reply to ESC 5: its pieces first_piece to last_piece, and their count. */
static void read_alert(struct alert *alert, const uint8_t *reply, size_t count)
{
    size_t i, piece = 1, begun = 0, last = last_piece;
    if (last == 0)
        for (last = 1, i = 0; i < count; i++)
            last += is_mark(reply[i]);
    alert->count = wy50_count_reply(reply, count, first_piece, last);
    alert->length = alert->fields = 0;
    for (i = 0; i + 1 < count; i++) { /* the last byte is CR */
        if (is_mark(reply[i])) {
            piece++;
        } else if (first_piece <= piece && piece <= last) {
            if (begun != piece)
                alert->starts[alert->fields++] = alert->length;
            begun = piece;
            alert->text[alert->length++] = reply[i];
        }
    }
    alert->starts[alert->fields] = alert->length;
    alert->length = without_spaces(alert->text, 0, alert->length);
}

/* Why it is not to be sent, or NULL. */
static const char *held(const struct alert *alert)
{
    static const char *const why[] = {NULL, "the reply has no final CR", "the first piece is 0 or above the last", "the last piece is beyond those of the reply",
                                      "a byte is outside the alphabet"};
    if (refused > 0)
        return "bytes were refused since the form was drawn";
    if (alert->count.refusal != WY50_COUNTED)
        return why[alert->count.refusal];
    return alert->count.parts == 0 ? "the text is empty" : NULL;
}

/* Text of 20h to 7Eh as a JSON string. */
static void put_string(FILE *to, const uint8_t *text, size_t from, size_t end)
{
    putc('"', to);
    for (; from < end; from++) {
        if (text[from] == '"' || text[from] == '\\')
            putc('\\', to);
        putc(text[from], to);
    }
    putc('"', to);
}

static void put_alert(FILE *to, const struct alert *alert, const char *why)
{
    size_t i, told = 0;
    fputs("{\"fields\":[", to);
    for (i = 0; i < alert->fields; i++) {
        size_t end = without_spaces(alert->text, alert->starts[i], alert->starts[i + 1]);
        if (end == alert->starts[i])
            continue;
        if (told++ > 0)
            putc(',', to);
        put_string(to, alert->text, alert->starts[i], end);
    }
    fputs("],\"text\":", to);
    put_string(to, alert->text, 0, alert->length);
    fprintf(to, ",\"units\":%llu,\"parts\":%llu,\"refused\":%zu", (unsigned long long)alert->count.units, (unsigned long long)alert->count.parts, refused);
    if (why) {
        fprintf(to, ",\"held\":\"%s\"", why);
        if (alert->count.refusal == WY50_BAD_BYTE)
            fprintf(to, ",\"place\":%llu", (unsigned long long)alert->count.place);
        fputs(",\"refusals\":[", to);
        for (i = 0; i < refused && i < REMEMBERED; i++)
            fprintf(to, "%s{\"byte\":%u,\"answer\":%u,\"row\":%u,\"column\":%u}", i ? "," : "", refusals[i].byte, refusals[i].answer, refusals[i].row, refusals[i].column);
        putc(']', to);
    }
    fputs("}\n", to);
}

/* The texts written on this line to the host, and on the one before if it broke, by a number for each: those may be asked for again, in their
 * order. */
enum { KEPT = 256 };
static uint64_t now[KEPT], before[KEPT];
static size_t now_count, before_count, before_at;

static uint64_t number_of(const struct alert *alert)
{
    uint64_t number = 14695981039346656037u; /* FNV-1a */
    size_t i;
    for (i = 0; i < alert->length; i++)
        number = (number ^ alert->text[i]) * 1099511628211u;
    return number;
}

static int was_written_before(uint64_t number)
{
    while (before_at < before_count)
        if (before[before_at++] == number)
            return 1;
    return 0;
}

static void line_ended(int broken)
{
    before_count = broken ? now_count : 0;
    memcpy(before, now, before_count * sizeof *now);
    before_at = now_count = 0;
}

/* A reply to ESC 5: written once, or held back. */
static void tell(const uint8_t *reply, size_t count)
{
    static struct alert alert;
    const char *why;
    uint64_t number;
    read_alert(&alert, reply, count);
    why = held(&alert);
    if (why) {
        fputs("gateway: held ", stderr);
        put_alert(stderr, &alert, why);
        return;
    }
    number = number_of(&alert);
    if (now_count == KEPT)
        memmove(now, now + 1, --now_count * sizeof *now);
    now[now_count++] = number;
    if (was_written_before(number)) {
        fputs("gateway: asked again after the line broke, and written before\n", stderr);
        return;
    }
    put_alert(stdout, &alert, NULL);
    if (fflush(stdout) != 0) {
        perror("gateway: standard output");
        exit(1);
    }
}

/* ---- the line to the host */

enum { QUEUE = 2 * WY50_LONGEST_REPLY, PATIENCE = 10000 /* milliseconds */ };

/* A socket that is connected within PATIENCE, or -1. */
static int reach(const struct addrinfo *to)
{
    int line = socket(to->ai_family, to->ai_socktype | SOCK_NONBLOCK | SOCK_CLOEXEC, to->ai_protocol), error = 0, on = 1, idle = 60, every = 10;
    struct pollfd wait = {line, POLLOUT, 0};
    socklen_t size = sizeof error;
    if (line < 0)
        return -1;
    if (connect(line, to->ai_addr, to->ai_addrlen) < 0) {
        error = errno;
        if (error == EINPROGRESS && poll(&wait, 1, PATIENCE) == 1)
            getsockopt(line, SOL_SOCKET, SO_ERROR, &error, &size);
    }
    if (error != 0) {
        close(line);
        errno = error == EINPROGRESS ? ETIMEDOUT : error;
        return -1;
    }
    /* a host that is gone without a word is noticed, one that is only silent is left in peace */
    setsockopt(line, SOL_SOCKET, SO_KEEPALIVE, &on, sizeof on);
    setsockopt(line, IPPROTO_TCP, TCP_KEEPIDLE, &idle, sizeof idle);
    setsockopt(line, IPPROTO_TCP, TCP_KEEPINTVL, &every, sizeof every);
    return line;
}

static int connect_to(const char *host, const char *port)
{
    struct addrinfo wanted, *found, *each;
    int line = -1, error;
    memset(&wanted, 0, sizeof wanted);
    wanted.ai_socktype = SOCK_STREAM;
    error = getaddrinfo(host, port, &wanted, &found);
    if (error != 0) {
        fprintf(stderr, "gateway: %s port %s: %s\n", host, port, gai_strerror(error));
        return -1;
    }
    for (each = found; each && line < 0; each = each->ai_next)
        line = reach(each);
    if (line < 0)
        fprintf(stderr, "gateway: %s port %s: %s\n", host, port, strerror(errno));
    freeaddrinfo(found);
    return line;
}

/* Plays the terminal to the host until the line ends; whether the host sent a byte. Bytes are taken only while the queue has room for the longest
 * reply, so a host that reads nothing is read no more until it does. When no reply can go out any more, the host's last bytes are still taken. */
static int play(int line)
{
    static uint8_t in[4096], queue[QUEUE];
    size_t at = 0, end = 0, queued = 0;
    int open = 1, deaf = 0, broken = 0, heard = 0;
    state = wy50_power_on(page, WY50_CELLS, personality).state;
    refused = 0;
    for (;;) {
        struct pollfd wait = {line, 0, 0};
        while (at < end && QUEUE - queued >= WY50_LONGEST_REPLY) {
            int form_begins;
            wy50_next_result r = take(in + at, end - at, queue + queued, &form_begins);
            at += r.taken;
            if (r.refused)
                remember_refusal(in[at - 1], r.answer);
            else if (form_begins)
                refused = 0;
            else if (r.command == WY50_ASKS_OPEN_SEGMENT)
                tell(queue + queued, r.replied);
            queued += deaf ? 0 : r.replied;
        }
        wait.events = (short)((open && at == end ? POLLIN : 0) | (queued > 0 ? POLLOUT : 0));
        if (wait.events == 0)
            break;
        if (poll(&wait, 1, open ? -1 : PATIENCE) == 0) {
            broken = 1; /* it ended its side and does not read the rest */
            break;
        }
        if (queued > 0 && (wait.revents & (POLLOUT | POLLERR | POLLHUP))) {
            ssize_t n = send(line, queue, queued, MSG_NOSIGNAL);
            if (n > 0) {
                queued -= (size_t)n;
                memmove(queue, queue + n, queued);
            } else if (errno != EAGAIN && errno != EINTR) {
                deaf = broken = 1;
                queued = 0;
            }
        }
        if (open && at == end && (wait.revents & (POLLIN | POLLERR | POLLHUP))) {
            ssize_t n = recv(line, in, sizeof in, 0);
            at = 0;
            end = n > 0 ? (size_t)n : 0;
            if (n > 0) {
                heard = 1;
            } else if (n == 0 || (errno != EAGAIN && errno != EINTR)) {
                open = 0;
                broken |= n < 0;
            }
        }
    }
    line_ended(broken);
    fprintf(stderr, "gateway: the line %s\n", broken ? "broke" : "ended");
    return heard;
}

static void usage(void)
{
    fputs("usage: gateway [-6] [-f FIRST] [-l LAST] [-w MILLISECONDS] HOST PORT\n", stderr);
    exit(2);
}

int main(int argc, char **argv)
{
    int option, first_wait = 1000, wait;
    if (wy50_version() != WY50_VERSION_NUMBER || wy50_counter_version() != WY50_COUNTER_VERSION_NUMBER) {
        fputs("gateway: a library is of another version than its header\n", stderr);
        return 1;
    }
    while ((option = getopt(argc, argv, "6f:l:w:")) != -1) {
        if (option == '6')
            personality = WY50_PERSONALITY_60;
        else if (option == 'f')
            first_piece = strtoul(optarg, NULL, 10);
        else if (option == 'l')
            last_piece = strtoul(optarg, NULL, 10);
        else if (option == 'w' && atoi(optarg) > 0)
            first_wait = atoi(optarg);
        else
            usage();
    }
    if (argc - optind != 2)
        usage();
    for (wait = first_wait;;) {
        int heard = 0, line = connect_to(argv[optind], argv[optind + 1]);
        if (line >= 0) {
            fputs("gateway: connected\n", stderr);
            heard = play(line);
            close(line);
        }
        if (heard)
            wait = first_wait;
        poll(NULL, 0, wait);
        if (!heard && wait < 64 * first_wait)
            wait *= 2;
    }
}
