/* wy50.h: the alert terminal, a WY-50 or a WY-60, for C99 and C++. Link with libwy50.a.
 *
 * The caller lends the page and the reply room at each call and keeps the state: it goes in by value and comes back by value. The page is 24 rows of
 * 80 columns, 1,920 cells, or of 132, 3,168 cells: the state says which.
 * The library keeps nothing between calls, allocates nothing and calls nothing but memcpy, memmove and memset, so different terminals may run in
 * different threads.
 *
 * Every call returns, whatever numbers it is handed. It relies on this much of its caller: a pointer goes with a count of elements and points to
 * that many, so where the count is 0 it may be NULL; and the page, the target of a conversion, the row list, the list of a mending, the rooms of a
 * proposal, the input and the reply room do not overlap. What is only read may be lent twice.
 *
 * Start from wy50_power_on: a page and a state of one's own making may well be no terminal, and answer 7.
 *
 * A run sends what is left of a reply first, and stops where its room is used up. With an empty room it never gets on while a reply is due; with any
 * other it takes a byte or sends one. Hand it the rest while there is some, and call again while a send is under way: loop while
 * (left > 0 || state.sending.command != 0).
 *
 * A run counts refusals and joins replies. Who must know of each which byte it answers calls wy50_next instead, in the same loop.
 *
 * What ESC 4 to ESC 7 send ends at the cursor. A program that wants a whole form has the host go to its last cell first, or reads the page itself.
 *
 * A terminal starts narrow, and no byte changes its width: a host only wishes for one (ESC ` 3Bh wide, 3Ah narrow). A program that follows the wish
 * compares state.wish with state.screen.wide after each run and calls wy50_convert where they differ. One that does not may leave it at that.
 *
 * Threads: a terminal is its page and its state. Different terminals may be used at the same time, one terminal by one thread at a time.
 *
 * Header and library are of one version, or structs that cross may differ: at its start a program compares wy50_version() with WY50_VERSION_NUMBER.
 */
#ifndef WY50_H
#define WY50_H

#include <stddef.h>
#include <stdint.h>

/* The version of this header. Its number is for #if, and to be compared with that of the library. */
#define WY50_VERSION "0.13.0"
#define WY50_VERSION_MAJOR 0
#define WY50_VERSION_MINOR 13
#define WY50_VERSION_PATCH 0
#define WY50_VERSION_NUMBER (1000000 * WY50_VERSION_MAJOR + 1000 * WY50_VERSION_MINOR + WY50_VERSION_PATCH)

#ifdef __cplusplus
extern "C" {
#endif

/* The version of the library that is linked: the WY50_VERSION_NUMBER of its header. In every version this call is as it is here. */
uint32_t wy50_version(void);

enum {
    WY50_ROWS = 24,
    WY50_COLUMNS = 80,
    WY50_CELLS = 1920,         /* a narrow page, in reading order: as power-on gives it */
    WY50_WIDE_COLUMNS = 132,
    WY50_WIDE_CELLS = 3168,    /* a wide page: as only wy50_convert gives it */
    WY50_ROW_NUMBERS = 48,     /* a row list: two numbers for each row, at either width */
    WY50_LONGEST_REPLY = 3192, /* no reply is longer; on a narrow page none is longer than 1,944 */
    WY50_LONGEST_TEXT = 132,   /* no text of a field or a row is longer */
    WY50_KEYS = 32,
    WY50_KEY_BYTES = 8,
    WY50_LABELS = 16,
    WY50_LABEL_BYTES = 8,
    WY50_MESSAGE_BYTES = 46,
    WY50_STORE_BYTES = 8714,     /* saved set-ups: the last number and eight places */
    WY50_ENTRY_NUMBERS = 4,      /* an entry in the list of a mending: row, column, old number, new number */
    WY50_SPAN_NUMBERS = 3,       /* a span of a repainting: row, column, length */
    WY50_MOST_SPANS = 960,       /* no proposal has more spans */
    WY50_MOST_PAINT_BYTES = 7772 /* and none has more bytes */
};

/* What a call answers. */
enum {
    WY50_DONE = 0,         /* done, or more bytes are awaited */
    WY50_HIGH_BYTE = 1,    /* a byte 80h to FFh; nothing changed */
    WY50_UNKNOWN = 2,      /* no such byte after ESC; the sequence is cleared */
    WY50_BAD_ARGUMENT = 3, /* an argument outside its range, a text too long or with a bad byte, no such key or segment; the sequence is cleared. Of
                              a judge: not accepted. Of a proposal: pages that it does not serve; nothing written */
    WY50_BARRED = 4,       /* a guarded cell or protect mode bars it; the sequence is cleared. Of a conversion: a cell would be lost; nothing changed */
                           /* 5 is unused: 32 keys of 8 bytes are never over 256 */
    WY50_NO_ROOM = 6,      /* the room is zero while a reply is due; of a key press also where its bytes do not fit, and during a send, as of a
                              conversion; nothing changed, the byte may come again. Of a mending: the list is too short; nothing changed. Of a
                              proposal: its spans or its bytes do not fit; nothing written */
    WY50_BAD_CALL = 7,     /* the page is not as long as the state's width has it, the state is not possible, or the row list is not the page's;
                              nothing changed. Of a mending: the page has neither width's length, or there is no such personality; so of a
                              judge and a proposal, and where the two pages are of unlike lengths */
    WY50_LOCKED = 8,       /* a key is pressed while the keyboard is locked; nothing changed */
    WY50_BAD_STORE = 9,    /* no saves could have left the store so; nothing changed */
    WY50_BAD_NUMBER = 10,  /* a number never saved, or overwritten since; nothing changed */
    WY50_FULL = 11         /* number 65,535 is used; nothing changed */
};

/* An answer in a few words, for a log. A number that is no answer has some too. Those of a conversion, a mending, a judge or a proposal mean what is
 * said there. */
static inline const char *wy50_answer_name(uint8_t answer)
{
    switch (answer) {
    case WY50_DONE:
        return "done";
    case WY50_HIGH_BYTE:
        return "a byte of 80h or above";
    case WY50_UNKNOWN:
        return "no such byte after ESC";
    case WY50_BAD_ARGUMENT:
        return "an argument outside its range";
    case WY50_BARRED:
        return "barred by protection";
    case WY50_NO_ROOM:
        return "no room for the reply";
    case WY50_BAD_CALL:
        return "a page, state or row list that is not possible";
    case WY50_LOCKED:
        return "the keyboard is locked";
    case WY50_BAD_STORE:
        return "no saves could have left the store so";
    case WY50_BAD_NUMBER:
        return "no set-up is kept under that number";
    case WY50_FULL:
        return "all numbers are used";
    default:
        return "no answer";
    }
}

/* Whose rules the terminal follows: chosen at power-on, changed by no byte. */
enum {
    WY50_PERSONALITY_50 = 50, /* an attribute of ESC G takes a cell */
    WY50_PERSONALITY_60 = 60  /* it takes none: it is remembered, and kept with each cell stored later */
};

/* The kind of a cell. */
enum {
    WY50_TEXT = 0,
    WY50_ATTRIBUTE = 1,
    WY50_GRAPHIC = 2
};

/* The flags of a cell's attribute. None is set in a cell that a WY-50 wrote. */
enum {
    WY50_BLANK = 1,
    WY50_BLINK = 2,
    WY50_REVERSE = 4,
    WY50_UNDERSCORE = 8,
    WY50_DIM = 16
};

/* A function key: the first len of bytes, each below 7Fh. len is at most 8; 0 is a key that is not programmed. A key label likewise: its bytes
 * are 20h to 7Eh, and 0 is an empty label. What the library writes has zeros behind the text. */
typedef struct wy50_key {
    uint8_t len;
    uint8_t bytes[WY50_KEY_BYTES];
} wy50_key;

/* The host message: the first len of bytes, each 20h to 7Eh. len is at most 46; 0 is no message. */
typedef struct wy50_message {
    uint8_t len;
    uint8_t bytes[WY50_MESSAGE_BYTES];
} wy50_message;

/* The page has 80 columns or 132, and is one segment, or split into two at a row. */
typedef struct wy50_screen {
    uint16_t wide;    /* 1: 132 columns, a page of 3,168 cells; 0: 80 columns, 1,920 cells */
    uint8_t active;   /* the active segment, 0 or 1 */
    uint8_t split;    /* the first row of segment 1, 2 to 24, counted from 1; 0: not split */
    uint16_t cursor0; /* the cursor of segment 0, as a cell of the page, counted from 0 */
    uint16_t cursor1; /* the cursor of segment 1 */
} wy50_screen;

/* Each mode is 0 (off) or 1 (on). */
typedef struct wy50_modes {
    uint8_t protect;       /* protected cells are guarded: not written, and no place for the cursor */
    uint8_t write_protect; /* what is written is protected */
    uint8_t insert;        /* what is written shifts the rest of the field */
    uint8_t autoscroll;    /* the last row scrolls */
    uint8_t locked;        /* the keyboard is locked */
    uint8_t local_edit;    /* remembered */
} wy50_modes;

/* Which sequence is under way, in wy50_sequence.kind, with its numbers. */
enum {
    WY50_IDLE = 0,             /* none */
    WY50_ESCAPE = 1,           /* ESC */
    WY50_ADDRESS = 2,          /* ESC = */
    WY50_ADDRESS_ROW = 3,      /* ESC = r: first is the row code */
    WY50_SEGMENT = 4,          /* ESC - */
    WY50_SEGMENT_NUMBER = 5,   /* ESC - n: first is the segment code */
    WY50_SEGMENT_ROW = 6,      /* ESC - n r: first is the segment code, second the row code */
    WY50_DECIMAL_ROW = 7,      /* ESC a: first counts the digits so far, second is their number */
    WY50_DECIMAL_COLUMN = 8,   /* ESC a row R: first is the row, second counts the column's digits so far, third is their number */
    WY50_SPLIT = 9,            /* ESC x */
    WY50_SPLIT_ROW = 10,       /* ESC x 1 */
    WY50_SET_ATTRIBUTE = 11,   /* ESC G */
    WY50_SET_GRAPHIC = 12,     /* ESC H */
    WY50_FILL_ATTRIBUTE = 13,  /* ESC ! */
    WY50_FILL_CODE = 14,       /* ESC . */
    WY50_SET_FEATURE = 15,     /* ESC ` */
    WY50_FIELD_ATTRIBUTE = 16, /* ESC A */
    WY50_FIELD_NUMBER = 17,    /* ESC A n: first is the field code */
    WY50_KEY_VALUE = 18,       /* ESC z */
    WY50_KEY_TEXT = 19,        /* ESC z value, a key's: first is the value, second counts the bytes of wy50_state.gathered, the text so far */
    WY50_KEY_OVER = 20,        /* ESC z value and more than 8 bytes: first is the value */
    WY50_LABEL_TEXT = 21,      /* ESC z value, a label's: first is the value, second counts the bytes gathered */
    WY50_LABEL_SPOILT = 22,    /* ESC z value and more than 8 bytes, or a bad one: first is the value */
    WY50_MESSAGE_TEXT = 23,    /* ESC F: second counts the bytes gathered */
    WY50_MESSAGE_SPOILT = 24   /* ESC F and more than 46 bytes, or a bad one */
};

/* The sequence under way. A number that its kind does not have is 0. */
typedef struct wy50_sequence {
    uint16_t kind;
    uint8_t first;
    uint8_t second;
    uint16_t third;
} wy50_sequence;

/* What stands at the place of a send, in wy50_sending.kind. */
enum {
    WY50_SENT_BYTES = 0, /* of a short reply: place bytes of it went */
    WY50_SENT_CELL = 1,  /* of a text: the cell place is next */
    WY50_SENT_BREAK = 2, /* the US before the cell place, which begins a row */
    WY50_SENT_RETURN = 3 /* the CR; place is 0 */
};

/* The commands that reply, each by its number: ENQ by its own byte, the others by the byte after ESC. */
enum {
    WY50_ASKS_ACKNOWLEDGE = 5,      /* ENQ: replies 06h */
    WY50_ASKS_IDENTITY = ' ',       /* 50 or 60, and CR */
    WY50_ASKS_SEGMENT_CURSOR = '/', /* the segment, row and column of the cursor, and CR */
    WY50_ASKS_OPEN_ROW = '4',       /* the row's cells that are not protected */
    WY50_ASKS_OPEN_SEGMENT = '5',   /* the segment's cells that are not protected: an alert */
    WY50_ASKS_ROW = '6',            /* the row, protected cells too */
    WY50_ASKS_SEGMENT = '7',        /* the segment, protected cells too */
    WY50_ASKS_CURSOR = '?',         /* the row and column of the cursor, and CR */
    WY50_ASKS_CELL = 'M',           /* the cell under the cursor */
    WY50_ASKS_DECIMAL_CURSOR = 'b'  /* the row and column of the cursor in digits */
};

/* The send under way: a reply that has begun and is not over. It goes on at the next call, before any byte is taken. */
typedef struct wy50_sending {
    uint8_t command; /* the byte after ESC of the command that asked for it: ' ' '/' '4' '5' '6' '7' '?' 'b'; 0: no send is under way */
    uint8_t kind;
    uint16_t place;
} wy50_sending;

/* The places of wy50_state.features, each holding the code that ESC ` last set it to. Its codes ':' and ';' set wy50_state.wish. */
enum {
    WY50_CURSOR_SHOWN = 0,   /* '0' hidden, '1' shown */
    WY50_CURSOR_STYLE = 1,   /* '2' steady block, '3' blinking line, '4' steady line, '5' blinking block */
    WY50_PROTECTED_LOOK = 2, /* '6' reverse, '7' dim, 'A' normal */
    WY50_SCREEN_SHOWN = 3,   /* '8' dark, '9' shown */
    WY50_SCROLLING = 4       /* '<' '=' '>' '?' smooth at 1, 2, 4, 8 rows a second, '@' jump */
};

/* These codes by name. Each is of one place alone. */
enum {
    WY50_CURSOR_OFF = '0',
    WY50_CURSOR_ON = '1',
    WY50_STEADY_BLOCK = '2',
    WY50_BLINKING_LINE = '3',
    WY50_STEADY_LINE = '4',
    WY50_BLINKING_BLOCK = '5',
    WY50_PROTECTED_REVERSE = '6',
    WY50_PROTECTED_DIM = '7',
    WY50_PROTECTED_NORMAL = 'A',
    WY50_SCREEN_OFF = '8',
    WY50_SCREEN_ON = '9',
    WY50_SMOOTH_1 = '<', /* rows a second */
    WY50_SMOOTH_2 = '=',
    WY50_SMOOTH_4 = '>',
    WY50_SMOOTH_8 = '?',
    WY50_JUMP = '@'
};

/* The state: numbers alone, without padding, so that memcmp compares two states and a state can be saved as its 698 bytes.
 *
 * A program may read it and may fill it in. Numbers that are no possible state do no harm: a call that is handed them answers 7, replies
 * nothing and gives them back as they came. A width, a wish, a mode, a tab stop or a shifted line that is neither 0 nor 1, a personality that is
 * neither 50 nor 60, a sequence of no kind above, a send of no command or kind above, and a number other than 0 that its kind does not have are such
 * numbers too. So is a send while a sequence is under way, a tab stop beyond the width, and a send of ESC ? or ESC / on a wide page.
 *
 * The bytes of a key, a label or the message beyond its len are not looked at, and no more are the bytes gathered beyond those that the sequence
 * counts: they mean nothing, and come back as they came. So a call that changes nothing, with the answers 1, 6, 7 and 8 too, gives every number as it
 * came. What a call writes has zeros behind it: a text that it stores, and bytes gathered that it counts no longer are 0. From power-on on there are
 * zeros everywhere, and two states that mean the same are the same bytes.
 */
typedef struct wy50_state {
    wy50_screen screen;
    wy50_modes modes;
    uint16_t bells;      /* 07h counted modulo 256: below 256 */
    uint8_t personality; /* 50 or 60 */
    uint8_t remembered;  /* the attribute that ESC G sets in a WY-60, by its flags: 0 to 30; 0 in a WY-50 */
    wy50_sequence sequence;
    wy50_sending sending;
    uint8_t gathered[WY50_MESSAGE_BYTES]; /* the bytes of a text under way; the sequence counts them */
    uint8_t tabs[WY50_WIDE_COLUMNS];      /* by column: 1 a tab stop, 0 none; none beyond the width */
    uint8_t attributes[4];                /* of ESC A: 20h, 30h to 3Fh or 70h to 7Eh */
    uint8_t features[5];                  /* of ESC `, by the places above */
    wy50_key keys[WY50_KEYS];             /* 40h to 4Fh, then 60h to 6Fh */
    wy50_key labels[WY50_LABELS];         /* fields 30h to 37h, then 50h to 57h, which are the shifted line's */
    wy50_message message;                 /* of ESC F */
    uint16_t shifted;                     /* the shifted line: 0 off, 1 on */
    uint16_t wish;                        /* of ESC ` 3Bh and 3Ah: 1 a wide page is wished for, 0 a narrow one */
} wy50_state;

typedef struct wy50_power_on_result {
    uint8_t answer; /* 0 or 7 */
    wy50_state state;
} wy50_power_on_result;

typedef struct wy50_step_result {
    uint8_t answer; /* 0 to 4, 6 or 7 */
    uint8_t taken;  /* 1 if the byte was taken, 0 if it is to come again: during a send, and with answers 6 and 7 */
    size_t replied; /* reply bytes */
    wy50_state state;
} wy50_step_result;

typedef struct wy50_run_result {
    uint8_t answer; /* 0, 6 or 7 */
    size_t taken;   /* bytes taken; the rest of the input starts at input + taken */
    size_t replied; /* reply bytes */
    size_t refused; /* how many of the bytes taken answered 1 to 4 */
    wy50_state state;
} wy50_run_result;

typedef struct wy50_next_result {
    uint8_t answer;  /* 0 to 4, 6 or 7 */
    uint8_t command; /* the command that the reply answers, by its number; 0 without a reply */
    size_t taken;    /* bytes taken; the rest of the input starts at input + taken */
    size_t replied;  /* reply bytes */
    size_t refused;  /* 1 if the last byte taken answered 1 to 4, else 0 */
    wy50_state state;
} wy50_next_result;

typedef struct wy50_press_result {
    uint8_t answer; /* 0, 3, 6, 7 or 8 */
    size_t replied; /* reply bytes */
} wy50_press_result;

typedef struct wy50_save_result {
    uint8_t answer;  /* 0, 7, 9 or 11 */
    uint16_t number; /* the number saved, from 1; 0 where it was refused */
} wy50_save_result;

typedef struct wy50_restore_result {
    uint8_t answer; /* 0, 7, 9 or 10 */
    wy50_state state;
} wy50_restore_result;

typedef struct wy50_convert_result {
    uint8_t answer; /* 0, 4, 6 or 7 */
    wy50_state state;
} wy50_convert_result;

typedef struct wy50_mend_result {
    uint8_t answer;  /* 0, 6 or 7 */
    uint16_t needed; /* how many entries the list needs: the cells that are damaged; 0 with 7 */
} wy50_mend_result;

/* Cells of one row: three numbers, without padding. */
typedef struct wy50_span {
    uint16_t row;    /* from 1 */
    uint16_t column; /* of the first cell, from 1 */
    uint16_t length; /* how many cells it has */
} wy50_span;

typedef struct wy50_propose_result {
    uint8_t answer; /* 0, 3, 6 or 7 */
    uint16_t spans; /* how many spans and how many bytes are at the front of their rooms; 0 with any answer but 0 */
    uint16_t bytes;
} wy50_propose_result;

/* Power-on: every cell 0, and the power-on state of that personality; page and wish are narrow. A page of another length than 1,920, a wide one too,
 * answers 7 and is left as it was; the state is given. So does a number that is no personality; the state is that of a WY-50. */
wy50_power_on_result wy50_power_on(uint16_t *page, size_t page_len, uint8_t personality);

/* One byte from the host. The page is as long as the state's width has it, here and in every call that takes both. The reply is put at the front of the
 * room; what lies beyond it is not touched. A reply that does not fit begins and is the send under way. During a send the step sends as much of it as
 * fits and leaves the byte for the next call. */
wy50_step_result wy50_step(uint16_t *page, size_t page_len, wy50_state state, uint8_t byte, uint8_t *reply, size_t reply_len);

/* Bytes from the host: a send under way goes on, and then the single step repeated, replies joined. It stops with 6 before the first byte whose
 * reply is due while no room is left, and with 0 where the room ends inside a send; then room is used up. Other answers do not stop it; it counts them.
 *
 * So a caller with a small room looks at taken and at replied: it passes the replied bytes on, and calls again with the rest of the input as long as
 * bytes are left or the room came back full. With any room but 0 each call on a possible state takes a byte or sends one; with none it may do neither,
 * for ever. Over no bytes a run sends what is left of a send. The joined replies, the page and the state do not depend on the rooms. */
wy50_run_result wy50_run(uint16_t *page, size_t page_len, wy50_state state, const uint8_t *input, size_t input_len, uint8_t *reply,
                         size_t reply_len);

/* A run up to the first event: it takes bytes up to and including the first that replies or is refused, and tells which. That byte is
 * input[taken - 1].
 *
 *     answer 0, replied > 0   it replied, and command says what was asked
 *     answer 0, replied == 0  there was no event: all bytes are taken
 *     answer 1 to 4           it was refused, and refused is 1
 *     answer 6                a reply is due and there is no room; the byte at input[taken] waits
 *     answer 7                nothing changed
 *
 * While a send is under way no byte is taken, not even where the send is then over: it sends as much as fits, and command is that send's. So a
 * reply begins where a byte is taken, and it is whole where state.sending.command is 0 afterwards.
 *
 * A row list, as below, may be lent or not: NULL with 0 is none. One that is lent and not the page's answers 7.
 *
 * A loop of it, through rooms of any sizes, comes to what one run with room enough gives, and over one byte it is the step:
 *
 *     while (left > 0 || state.sending.command != 0) {
 *         wy50_next_result r = wy50_next(page, WY50_CELLS, NULL, 0, state, bytes, left, room, sizeof room);
 *         if (r.answer == WY50_BAD_CALL)
 *             abort();
 *         if (r.refused)
 *             refusal(bytes[r.taken - 1], r.answer);
 *         if (r.replied > 0)
 *             reply(r.command, room, r.replied, r.state.sending.command == 0);
 *         state = r.state;
 *         bytes += r.taken;
 *         left -= r.taken;
 *     }
 */
wy50_next_result wy50_next(uint16_t *page, size_t page_len, uint16_t *rows, size_t rows_len, wy50_state state, const uint8_t *input,
                           size_t input_len, uint8_t *reply, size_t reply_len);

/* A function key is pressed: 40h to 4Fh or 60h to 6Fh. The reply is its bytes; 01h key 0Dh if it is not programmed. The page is only
 * measured, and neither it nor the state changes. A key's bytes are never cut: they fit, or the answer is 6, and so it is during a send. */
wy50_press_result wy50_press(const uint16_t *page, size_t page_len, wy50_state state, uint8_t key, uint8_t *reply, size_t reply_len);

/* The step and the run with a row list, which says what room each row has, so that settling skips the rows that have none. It has two numbers
 * for each row from the top: how many of its cells are open, and the column of the first one, counted from 1, or 0. While protect mode is off
 * each row has 80, 1, on a wide page 132, 1. The list belongs to the page and protect mode and is kept in step with them: answer, page, state, reply
 * and counts are those that wy50_step and wy50_run give. Power-on, the key press and the conversion take none.
 *
 * A list that is not 48 numbers long, or that disagrees with the page or protect mode, answers 7, and it too is left as it was. After every
 * other answer it agrees. Rebuild it after power-on, after a conversion, after a step or run without it, and where the program itself changes page or
 * state.
 *
 * Each call checks the whole list. A single step seldom earns that back: a list pays in runs, on forms with rows of labels alone. */
wy50_step_result wy50_step_rows(uint16_t *page, size_t page_len, uint16_t *rows, size_t rows_len, wy50_state state, uint8_t byte, uint8_t *reply,
                                size_t reply_len);
wy50_run_result wy50_run_rows(uint16_t *page, size_t page_len, uint16_t *rows, size_t rows_len, wy50_state state, const uint8_t *input,
                              size_t input_len, uint8_t *reply, size_t reply_len);

/* The row list made anew, whatever it held. Answers 0, or 7 for a list that is not 48 numbers long, a page of another length than the state's and a
 * state that is not possible; then the list is left as it was. The page is only read. */
uint8_t wy50_rebuild_rows(const uint16_t *page, size_t page_len, uint16_t *rows, size_t rows_len, wy50_state state);

/* The page and the state at the other width: 132 columns from 80, 80 from 132. The converted page is put into the target, which has the other width's
 * length; the old page stays as it is. A cell keeps its row and column. Widening puts unprotected nulls at each row's end; narrowing leaves out what is
 * beyond column 80, which must be 0.
 *
 *     answer 0   page and state are at the other width: go on with the target and the state
 *     answer 4   narrowing would lose a cell: some cell beyond column 80 is not 0
 *     answer 6   a send is under way: let it go on to its end first
 *     answer 7   the page is not as long as the state's width has it, the state is not possible, or the target is not as long as the other width has it
 *
 * In this order: 7, 6, 4. What is refused changes nothing, the target neither, and gives the numbers of the state back as they came.
 *
 * The page is then one segment, as after ESC x 0: both cursors go to cell 0, and the active one settles on the new page. Tab stops beyond the new width
 * are cleared. The rest of the state is as it was: modes, settings, texts, the sequence under way, and the wish, which the call does not look at. A row
 * list is to be rebuilt.
 *
 * A program that follows the wish, with two pages:
 *
 *     if (state.wish != state.screen.wide) {
 *         wy50_convert_result c = state.screen.wide ? wy50_convert(wide, WY50_WIDE_CELLS, state, narrow, WY50_CELLS)
 *                                                   : wy50_convert(narrow, WY50_CELLS, state, wide, WY50_WIDE_CELLS);
 *         state = c.state;
 *     }
 *
 * Where that is refused it stays at its width, and may try again after the next run. */
wy50_convert_result wy50_convert(const uint16_t *page, size_t page_len, wy50_state state, uint16_t *target, size_t target_len);

/* Saved set-ups: tab stops of columns 1 to 80, features, field attributes, keys and labels, the last eight by number, from 1. The lent store is 8,714
 * bytes, all 0 at first, and a file of these bytes keeps it. A set-up is kept as the terminal's own commands: fed to a terminal of the same personality
 * just powered on they give those settings.
 *
 * A save writes its own place and the last number, nothing else. A restore gives the state those settings; width and wish, tab stops beyond column 80,
 * cursors, segments, modes, bells, the sequence or the send under way, the host message and the shifted line stay as they are, and so does the store.
 * Either is refused with 7 for a state that is not possible, then with 9 for a store that no saves could have left, also one of another length; then a
 * save with 11 after number 65,535, and a restore with 10 for a number that is not one of the last eight saved. What is refused changes nothing, and a
 * refused restore gives the state back as it came. Each call runs all eight set-ups through a terminal to be sure of the store. */
wy50_save_result wy50_save(wy50_state state, uint8_t *store, size_t store_len);
wy50_restore_result wy50_restore(wy50_state state, const uint8_t *store, size_t store_len, uint16_t number);

/* Mends a saved page that may be damaged: each cell that a terminal of this personality could not have written becomes 0, an unprotected null, and no
 * other cell changes. The page's length says its width; no state is looked at.
 *
 * A WY-50 writes 0; text of 20h to 7Eh, graphics of 30h to 3Fh and attribute cells of 30h to 3Fh and 70h to 7Eh, protected or not and without flags. A
 * WY-60 writes 0; text and graphics, protected or not, with any flags but all five; attribute cells that are not protected, without flags.
 *
 * Each cell changed is an entry of WY50_ENTRY_NUMBERS numbers: its row and its column, both from 1, its old number and its new one, which is 0. The
 * entries stand at the list's front in reading order, and what lies beyond them is not touched. list_len counts numbers: there is room for
 * list_len / WY50_ENTRY_NUMBERS entries.
 *
 *     answer 0   mended, and needed entries are listed; 0 means that the page was not damaged
 *     answer 6   the list has no room for needed entries
 *     answer 7   the page is neither 1,920 nor 3,168 cells long, or the personality is neither 50 nor 60
 *
 * What is refused changes neither page nor list. NULL with 0 asks how many entries are needed, and a list of page_len entries is always long enough. A
 * mended page needs no entries, and no more does one that a terminal of this personality left. A row list is to be rebuilt. */
wy50_mend_result wy50_mend(uint16_t *page, size_t page_len, uint8_t personality, uint16_t *list, size_t list_len);

/* Repainting a distant display. It shows one page, before, and should show another, after, and what is sent to it is to be short: spans are the cells
 * to paint, and bytes, as any host's, paint them. Whoever makes spans or bytes has them judged; wy50_propose makes some of its own. None of these calls
 * looks at a state or changes a page. Both pages have 80 columns or both 132, by their lengths; they may be one page.
 *
 * The judge of spans accepts a list exactly if its spans are in reading order, do not overlap, lie within their rows, are not empty and cover every cell
 * that differs. They may touch and may cover cells that are equal; two equal pages need none. Any numbers may be handed in.
 *
 *     answer 0   accepted
 *     answer 3   not accepted
 *     answer 7   the pages are of unlike lengths, or neither 1,920 nor 3,168 cells long */
uint8_t wy50_judge_spans(const uint16_t *before, size_t before_len, const uint16_t *after, size_t after_len, const wy50_span *spans, size_t spans_len);

/* The judge of bytes accepts them exactly if a terminal of this personality, just powered on at the pages' width, that shows the page before and has no
 * reply room, answers 0 to each of them and then shows the page after. Answers as above, and 7 for a personality that is neither 50 nor 60. It feeds such
 * a terminal all of the bytes, on a page of its own. */
uint8_t wy50_judge_bytes(const uint16_t *before, size_t before_len, const uint16_t *after, size_t after_len, uint8_t personality, const uint8_t *bytes,
                         size_t bytes_len);

/* The proposal as numbers: a span is WY50_SPAN_NUMBERS of them, and there is room for numbers_len / WY50_SPAN_NUMBERS spans. */
wy50_propose_result wy50_propose_numbers(const uint16_t *before, size_t before_len, const uint16_t *after, size_t after_len, uint8_t personality,
                                         uint16_t *numbers, size_t numbers_len, uint8_t *bytes, size_t bytes_len);

/* Proposes spans, the longest stretches of cells in a row that differ, and the bytes that paint them: ESC = to each start, then its cells, and ESC G before
 * each cell whose attribute is not the one remembered. Both judges accept them. They are put at the front of their rooms, and what lies beyond is not
 * touched. Rooms of WY50_MOST_SPANS and WY50_MOST_PAINT_BYTES are always enough. The call takes less than 32 KB of stack.
 *
 *     answer 0   proposed; equal pages need no spans and no bytes
 *     answer 3   a page that it does not serve: of 132 columns, with a cell other than unprotected text of 20h to 7Eh as this personality writes it, or
 *                with a last cell that differs, since writing there scrolls
 *     answer 6   there is no room for the spans or for the bytes
 *     answer 7   the pages are of unlike lengths or of no page's, or the personality is neither 50 nor 60
 *
 * In this order: 7, 3, 6. What is refused writes nothing. A null is no text: a display just powered on shows nulls, and 1Ah makes them spaces.
 *
 * The bytes are for a display as at power-on but for its page: 80 columns, not split, no sequence under way, insert mode, write-protect and protect mode
 * off. They move its cursor, and leave a WY-60 with the attribute of the last cell painted. So a display that goes on is told ESC G 30h before the next
 * ones if it is a WY-60; a WY-50 remembers none, and would take it as a cell. With shown for what the display shows, 1Ah sent and all spaces at first:
 *
 *     r = wy50_propose(shown, WY50_CELLS, page, WY50_CELLS, WY50_PERSONALITY_60, spans, WY50_MOST_SPANS, bytes, sizeof bytes);
 *     if (r.answer == WY50_DONE && r.spans > 0) {
 *         send_to_display("\033G0", 3);
 *         send_to_display(bytes, r.bytes);
 *         memcpy(shown, page, sizeof shown);
 *     }
 *
 * examples/repaint.c does it, and has something for the pages that are not served. */
static inline wy50_propose_result wy50_propose(const uint16_t *before, size_t before_len, const uint16_t *after, size_t after_len, uint8_t personality,
                                               wy50_span *spans, size_t spans_len, uint8_t *bytes, size_t bytes_len)
{
    if (spans_len > WY50_MOST_SPANS)
        spans_len = WY50_MOST_SPANS;
    return wy50_propose_numbers(before, before_len, after, after_len, personality, (uint16_t *)spans, WY50_SPAN_NUMBERS * spans_len, bytes, bytes_len);
}

/* What a cell's number says: its code, 0 to 127; whether it is protected, 0 or 1; its kind; its attribute, by its flags, 0 to 31; and the byte that
 * a send gives for it, which is the code of a text cell from 20h to 7Eh and 20h for any other cell. */
uint8_t wy50_cell_code(uint16_t cell);
uint8_t wy50_cell_protected(uint16_t cell);
uint8_t wy50_cell_kind(uint16_t cell);
uint8_t wy50_cell_attribute(uint16_t cell);
uint8_t wy50_cell_sent(uint16_t cell);

/* Reading a page. Its length says how wide it is: 1,920 cells have 80 columns and 3,168 have 132; both have 24 rows. Cells, rows and columns count
 * from 0, as the cursors of a state do. No call below looks at a state or changes a page, but wy50_cursor, which reads the state.
 *
 * A field is a longest stretch of cells within one row that are not marked protected, whatever protect mode says: what ESC 5 sends between its FS, US
 * and CR. So no byte of a label is ever in a field's text. */
typedef struct wy50_field {
    size_t start;  /* its first cell */
    size_t length; /* how many cells it has; 0: there is no field */
    size_t row;    /* where it starts */
    size_t column;
} wy50_field;

typedef struct wy50_text_result {
    uint8_t answer; /* 0, 3, 6 or 7 */
    size_t length;  /* how many bytes were put at the front of the room; 0 with any answer but 0 */
} wy50_text_result;

typedef struct wy50_position {
    uint8_t answer; /* 0, 3 or 7; row and column are 0 with any answer but 0 */
    size_t row;
    size_t column;
} wy50_position;

/* The first field that starts at the cell from or behind it; one with length 0, all numbers 0, where there is none. A page of another length has
 * none. All fields:
 *
 *     for (f = wy50_next_field(page, n, 0); f.length > 0; f = wy50_next_field(page, n, f.start + f.length)) */
wy50_field wy50_next_field(const uint16_t *page, size_t page_len, size_t from);

/* The text of the field that starts at the cell start: the bytes that a send gives for its cells, 20h to 7Eh. With trim other than 0 its trailing spaces
 * are dropped. It is put at the front of the room; what lies beyond it is not touched. Answers 7 for a page of another length, 3 where no field starts,
 * 6 where the text does not fit; then nothing is put there. WY50_LONGEST_TEXT bytes are always enough. */
wy50_text_result wy50_field_text(const uint16_t *page, size_t page_len, size_t start, uint8_t trim, uint8_t *text, size_t text_len);

/* The text of a row, labels too, likewise; 3 for a row from 24 on. */
wy50_text_result wy50_row_text(const uint16_t *page, size_t page_len, size_t row, uint8_t trim, uint8_t *text, size_t text_len);

/* The row and column of a cell in a page of page_len cells; 3 for a cell outside it, 7 for another length. And back: the cell at a row and column, or
 * page_len where there is none. */
wy50_position wy50_position_of(size_t page_len, size_t cell);
size_t wy50_cell_at(size_t page_len, size_t row, size_t column);

/* The row and column of the active segment's cursor, in a page of the state's width; 7 for numbers that are no possible state. */
wy50_position wy50_cursor(wy50_state state);

#ifdef __cplusplus
}
#endif

#endif
