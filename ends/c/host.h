/* A computer as a board for port.c: standard input and output, and a machine whose wires are joined in groups.
 *
 * Before it stand, made from a machine and a fault file: PINS, CROSSES, TABLES, WIRES, NODES, MOST_TICKS, MOST_LOADS and
 * COUNTS; the taps of all crossbars, of each crossbar where its taps end, its first line and where its lines end; of each table
 * seven legs, of each pin its wire; of each wire what it is stuck at (2: nothing), of each crosspoint whether it is stuck OPEN or
 * CLOSED or not (0); bridges by pairs up to -1; of each table the wrong cells, their values, and what its register is stuck at (-1:
 * nothing).
 */
#include <stdio.h>
#include <time.h>

enum { INPUTS = 6, LEGS = 7, LATCHED = 1, FREE = 2 };
typedef unsigned long long cells;

static unsigned char is_closed[CROSSES], is_on[TABLES], flags_of[TABLES], out[TABLES];
static cells cells_of[TABLES];
static int ticks_of_cycle;
static int above[WIRES], is_zero[WIRES], is_one[WIRES], is_low[WIRES];
static unsigned long loads;
static time_t shown;

static int get(void) { return getchar(); }
static void put(int byte) { putchar(byte); }
static void flush(void) { fflush(stdout); }

/* How far a diagnosis is: the tool shows nothing. */
static void show(const char *end)
{
    fprintf(stderr, "\rloads %lu of at most %lu without faults%s", loads, (unsigned long)MOST_LOADS, end);
}

static void finish(void) { show("\n"); }

static void clear(void)
{
    for (int k = 0; k < CROSSES; k++)
        is_closed[k] = 0;
    for (int t = 0; t < TABLES; t++)
        is_on[t] = 0;
    ticks_of_cycle = 1;
}

static void cross(int at, int is_set) { is_closed[at] = is_set; }
static void off(int at) { is_on[at] = 0; }
static void ticks(int many) { ticks_of_cycle = many; }

static void table(int at, cells mask, int flags)
{
    is_on[at] = 1;
    cells_of[at] = mask;
    flags_of[at] = flags;
}

static int group(int wire)
{
    while (above[wire] != wire)
        wire = above[wire] = above[above[wire]];
    return wire;
}

static void join(int first, int second) { above[group(first)] = group(second); }

static int is_register_stuck(int at) { return flags_of[at] & LATCHED && held[at] >= 0; }

static void join_all(void)
{
    for (int w = 0; w < WIRES; w++) {
        above[w] = w;
        is_zero[w] = is_one[w] = 0;
    }
    for (int n = 0, a = 0, k = 0; n < NODES; n++)
        for (; a < end_of_taps[n]; a++)
            for (int l = first_line[n]; l < end_of_lines[n]; l++, k++)
                if (fixed[k] ? fixed[k] == CLOSED : is_closed[k])
                    join(tap[a], l);
    for (int k = 0; bridge[k] >= 0; k += 2)
        join(bridge[k], bridge[k + 1]);
}

static void load(void)
{
    join_all();
    for (int w = 0; w < WIRES; w++)
        if (stuck[w] < FREE)
            (stuck[w] ? is_one : is_zero)[group(w)] = 1;
    for (int t = 0; t < TABLES; t++)
        out[t] = is_register_stuck(t) ? held[t] : flags_of[t] >> 1;
    loads++;
    if (time(NULL) != shown) {
        shown = time(NULL);
        show("");
    }
}

/* Stuck at 0 wins over stuck at 1, that over whatever pulls, and what nothing pulls is 1. */
static int level(int wire)
{
    wire = group(wire);
    return is_zero[wire] ? 0 : is_one[wire] ? 1 : !is_low[wire];
}

static void pull(const unsigned char *drive)
{
    for (int w = 0; w < WIRES; w++)
        is_low[w] = 0;
    for (int k = 0; k < PINS; k++)
        if (!(drive[k / 8] >> k % 8 & 1))
            is_low[group(pin[k])] = 1;
    for (int t = 0; t < TABLES; t++)
        if (is_on[t] && !out[t])
            is_low[group(leg[LEGS * t + INPUTS])] = 1;
}

static int look_up(int at)
{
    int address = 0;
    for (int k = 0; k < INPUTS; k++)
        address |= level(leg[LEGS * at + k]) << k;
    return ((cells_of[at] & ~wrong[at]) | ones[at]) >> address & 1;
}

/* All tables of one kind change at once: at a tick the combinational ones, at the clock edge the latched ones. */
static void step(int kind)
{
    unsigned char then[TABLES];
    for (int t = 0; t < TABLES; t++)
        then[t] = is_on[t] && (flags_of[t] & LATCHED) == kind && !is_register_stuck(t) ? look_up(t) : out[t];
    for (int t = 0; t < TABLES; t++)
        out[t] = then[t];
}

static void cycle(unsigned char *pins)
{
    unsigned char drive[(PINS + 7) / 8];
    for (unsigned k = 0; k < sizeof drive; k++) {
        drive[k] = pins[k];
        pins[k] = 0;
    }
    for (int k = 0; k < ticks_of_cycle; k++) {
        pull(drive);
        step(0);
    }
    pull(drive);
    for (int k = 0; k < PINS; k++)
        pins[k / 8] |= level(pin[k]) << k % 8;
    step(LATCHED);
}
