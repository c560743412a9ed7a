// Runs Verilator's model of bench/processor.v, core.v or multiplier.v on a file of vectors, and prints the rows that `teramac eval`
// prints.
#include <cstdio>
#include <string>
#ifdef PROCESSOR
#include "Vprocessor.h"
using Model = Vprocessor;
#elif defined CORE
#include "Vcore.h"
using Model = Vcore;
#else
#include "Vmultiplier.h"
using Model = Vmultiplier;
#endif

static unsigned long long bits(const char *text, int count) {
    unsigned long long n = 0;
    for (int k = 0; k < count; k++) n |= (unsigned long long)(text[k] == '1') << k;
    return n;
}

static void put(std::string &row, unsigned long long n, int count) {
    for (int k = 0; k < count; k++) row += n >> k & 1 ? '1' : '0';
}

int main(int, char **words) {
    FILE *file = fopen(words[1], "r");
    Model model;
    char line[256];
    std::string row;
    puts("outputs");
    while (fgets(line, sizeof line, file)) {
        row.clear();
#ifdef PROCESSOR
        model.clock = 0;
        model.port = bits(line + 1, 8);
        model.eval();
        put(row, model.result, 32);
        put(row, model.place, 5);
        puts(row.c_str());
        model.clock = 1;
        model.eval();
#elif defined CORE
        model.clock = 0;
        model.port = bits(line + 1, 16);
        model.eval();
        put(row, model.result, 32);
        put(row, model.place, 4);
        puts(row.c_str());
        model.clock = 1;
        model.eval();
#else
        model.a = bits(line, 28);
        model.b = bits(line + 28, 28);
        model.eval();
        put(row, model.product, 56);
        puts(row.c_str());
#endif
    }
}
