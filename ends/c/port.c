/* A machine that answers requests, for firmware: words are worked off as their bytes come, and no line is kept.
 *
 * The board gives these:
 *   get, put, flush              the next byte, or -1 at the end; a byte of a reply; the reply is whole
 *   clear                        all crosspoints open, all tables off, one tick
 *   cross, table, off, ticks     what is set
 *   load                         a session begins with what is set
 *   cycle                        drives the pins, ticks, reads them and clocks; bit k of byte k / 8 is pin k
 *   finish                       there are no more requests
 * and the numbers PINS, CROSSES, TABLES and MOST_TICKS (4096; 65535 where the machine isn't small), and COUNTS, the twelve counts of
 * the machine as a text.
 *
 * A line that has to be refused may have set something before that showed. So behind a refusal, and at first, nothing but an `a` is
 * answered: then a machine that lost a word, or its power, gives no readings that the tool takes for those of another one.
 */
#include "board.h"

enum { PIN_BYTES = (PINS + 7) / 8, ONE_READING = 2 * PIN_BYTES + 1, MOST_DIGITS = 10, CELL_DIGITS = 16, CHECK_DIGITS = 4 };
enum { ROOM = ONE_READING > 4096 ? ONE_READING : 4096 }; /* for a reply */
enum { END = '\n' };
typedef unsigned long long number;

/* How far a request is: which words may come, and whether it may end. */
enum place { BEGINS, EDITS, LOADS, DRIVES, ATTACHES, ENDS };

/* The running check of all bodies since the last `a`: the sum of their bytes, and of what that sum was behind each. */
static unsigned char sum, sum_of_sums;

/* Of the request so far: its place, and whether it has to be refused. */
static enum place place;
static int is_wrong;

static int is_attached, is_loaded;
static char reply[ROOM];
static unsigned length;

static void count(unsigned char byte)
{
    sum += byte;
    sum_of_sums += sum;
}

static void begin_check(void)
{
    sum = 1;
    sum_of_sums = 0;
}

/* The next byte of a request; those of its body are counted. */
static int next(void)
{
    int byte = get();
    if (byte != '*' && byte != END && place != ENDS)
        count(byte);
    return byte;
}

/* Refuses the request, if this isn't so. */
static void want(int is_so)
{
    if (!is_so)
        is_wrong = 1;
}

/* From these places the next word goes on to that one. */
static void go(int is_right, enum place then)
{
    want(is_right);
    place = then;
}

static int digit(int byte)
{
    return byte >= '0' && byte <= '9' ? byte - '0' : byte >= 'a' && byte <= 'f' ? byte - 'a' + 10 : -1;
}

/* Reads a number in hex of so many digits, and gives the byte behind it. */
static int read_hex(unsigned digits, number *value)
{
    int byte = next();
    for (*value = 0; digit(byte) >= 0 && digits; digits--, byte = next())
        *value = *value * 16 + digit(byte);
    want(digits == 0);
    return byte;
}

/* Reads a decimal number that is below a limit and has no zeros in front, and gives the byte behind it. */
static int read_below(number limit, number *value)
{
    int digits = 0, byte = next(), first = byte;
    for (*value = 0; byte >= '0' && byte <= '9' && digits < MOST_DIGITS; digits++, byte = next())
        *value = *value * 10 + digit(byte);
    want(digits > 0 && (digits == 1 || first != '0') && *value < limit);
    return byte;
}

static void say(char byte)
{
    want(length < ROOM);
    if (!is_wrong)
        reply[length++] = byte;
}

static void say_text(const char *text)
{
    for (; *text; text++)
        say(*text);
}

static void say_number(number value)
{
    if (value >= 10)
        say_number(value / 10);
    say('0' + value % 10);
}

static char hex(unsigned value)
{
    return "0123456789abcdef"[value & 15];
}

static int read_cross(int is_closed)
{
    number at;
    int byte = read_below(CROSSES, &at);
    if (!is_wrong)
        cross(at, is_closed);
    return byte;
}

static int read_table(void)
{
    number at, cells, flags;
    int byte = read_below(TABLES, &at);
    want(byte == ',');
    if (is_wrong)
        return byte;
    byte = read_hex(CELL_DIGITS, &cells);
    want(byte == ',');
    if (is_wrong)
        return byte;
    byte = read_below(4, &flags);
    if (!is_wrong)
        table(at, cells, flags);
    return byte;
}

static int read_off(void)
{
    number at;
    int byte = read_below(TABLES, &at);
    if (!is_wrong)
        off(at);
    return byte;
}

static int read_ticks(void)
{
    number many;
    int byte = read_below(MOST_TICKS + 1, &many);
    want(many > 0);
    if (!is_wrong)
        ticks(many);
    return byte;
}

static void say_pins(const unsigned char *pins)
{
    say(length ? ' ' : '=');
    for (unsigned k = PIN_BYTES; k--;) {
        say(hex(pins[k] >> 4));
        say(hex(pins[k]));
    }
}

/* Drives the pins, and says what they read. */
static int read_drive(void)
{
    unsigned char pins[PIN_BYTES] = {0};
    int byte = next();
    for (unsigned k = 2 * PIN_BYTES; k--; byte = next()) {
        want(digit(byte) >= 0);
        if (is_wrong)
            return byte;
        pins[k / 2] |= digit(byte) << k % 2 * 4;
    }
    want(PINS % 8 == 0 || pins[PIN_BYTES - 1] >> PINS % 8 == 0);
    if (!is_wrong) {
        cycle(pins);
        say_pins(pins);
    }
    return byte;
}

static int read_check(void)
{
    number given;
    int byte = read_hex(CHECK_DIGITS, &given);
    want(given == (number)(sum_of_sums << 8 | sum));
    return byte;
}

static int read_clear(void)
{
    clear();
    is_loaded = 0;
    return next();
}

/* Clears all, and says the number of this request and the counts. */
static int read_attach(void)
{
    number own;
    int byte = read_clear();
    want(byte == ' ');
    if (is_wrong)
        return byte;
    byte = read_below(1ULL << 32, &own);
    is_attached = 1;
    say_text("=2 ");
    say_number(own);
    say_text(" " COUNTS);
    return byte;
}

static int read_load(void)
{
    load();
    is_loaded = 1;
    return next();
}

/* Whether a word that begins with this byte may come here; then the place goes on behind it. */
static void take_place(int byte)
{
    switch (byte) {
    case 'a': go(place == BEGINS, ATTACHES); break;
    case 'z': go(place == BEGINS, EDITS); break;
    case 'l': go(place == BEGINS || place == EDITS, LOADS); break;
    case 'd': go(place == LOADS || place == DRIVES || (place == BEGINS && is_loaded), DRIVES); break;
    case '*': go(place == LOADS || place == DRIVES || place == ATTACHES, ENDS); break;
    default: go(place == BEGINS || place == EDITS, EDITS);
    }
    want(is_attached || byte == 'a');
}

/* Works off the word that begins with this byte, and gives the byte behind it. */
static int read_word(int byte)
{
    switch (byte) {
    case 'a': return read_attach();
    case 'z': return read_clear();
    case 'c': return read_cross(1);
    case 'o': return read_cross(0);
    case 't': return read_table();
    case 'x': return read_off();
    case 'k': return read_ticks();
    case 'l': return read_load();
    case 'd': return read_drive();
    case '*': return read_check();
    }
    is_wrong = 1;
    return byte;
}

/* Behind a word there is one blank and another word, or the check, or the line ends. */
static int step_over(int byte)
{
    want(byte == END || (place != ENDS && (byte == ' ' || byte == '*')));
    if (byte != ' ' || is_wrong)
        return byte;
    byte = next();
    want(byte != END && byte != '*');
    return byte;
}

static void put_refusal(void)
{
    for (const char *text = "!wrong"; *text; text++)
        put(*text);
}

static void put_hex(unsigned char byte)
{
    put(hex(byte >> 4));
    put(hex(byte));
}

static void put_reply(void)
{
    for (unsigned k = 0; k < length; k++) {
        count(reply[k]);
        put(reply[k]);
    }
    put('*');
    put_hex(sum_of_sums);
    put_hex(sum);
}

static void answer(void)
{
    want(place == LOADS || place == DRIVES || place == ATTACHES || place == ENDS);
    if (length == 0)
        say('='); /* a load without drives */
    if (is_wrong) {
        is_attached = 0;
        put_refusal();
    } else
        put_reply();
    put(END);
    flush();
}

/* Answers one line; 0 at the end. An empty line asks nothing. Of one that is wrong the rest isn't looked at. */
static int serve(void)
{
    is_wrong = 0;
    place = BEGINS;
    length = 0;
    int byte = next(), is_empty = byte == END;
    if (byte == 'a') {
        begin_check();
        count(byte);
    }
    while (byte != END && byte >= 0) {
        take_place(byte);
        byte = is_wrong ? next() : step_over(read_word(byte));
    }
    if (byte >= 0 && !is_empty)
        answer();
    return byte >= 0;
}

int main(void)
{
    clear();
    while (serve()) {
    }
    finish();
    return 0;
}
