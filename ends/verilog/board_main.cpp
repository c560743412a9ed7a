// A verilated board: standard input and output over its serial line. Its clock stands while nothing is sent and no reply is due.
#include "Vboard.h"
#include "progress.h"
#include <unistd.h>

namespace {

constexpr int FRAME = 10; // a start bit, eight bits of a byte, a stop bit

// Sends a byte bit by bit.
class Sender {
public:
  bool is_idle() const { return left == 0; }
  void begin(unsigned char byte) {
    bits = 1u << 9 | unsigned{byte} << 1;
    left = FRAME * DIVISOR;
  }
  bool clock() {
    if (left == 0)
      return true;
    const bool level = bits >> (FRAME - 1 - (left - 1) / DIVISOR) & 1;
    left--;
    return level;
  }

private:
  unsigned bits = 0;
  int left = 0;
};

// Takes a byte bit by bit, each in its middle.
class Receiver {
public:
  // Whether a byte is whole with this clock.
  bool clock(bool level) {
    if (at < 0) {
      if (!level)
        at = 0;
      return false;
    }
    if (++at % DIVISOR == DIVISOR / 2)
      bits = bits >> 1 | (level ? 1u << (FRAME - 1) : 0);
    if (at < FRAME * DIVISOR - DIVISOR / 2)
      return false;
    at = -1;
    return true;
  }
  char byte() const { return static_cast<char>(bits >> 1); }

private:
  unsigned bits = 0;
  int at = -1;
};

class Board {
public:
  Board() { board.serial_in = 1; }

  // Sends the bytes, and clocks until each line that isn't empty has its reply.
  void serve(const char* bytes, int many) {
    for (int at = 0; at < many || !sender.is_idle() || due > 0;) {
      if (at < many && sender.is_idle()) {
        const char byte = bytes[at++];
        sender.begin(byte);
        note(byte);
      }
      clock();
    }
  }

  void end() const {
    progress.end(clocks);
    fprintf(stderr, "lights %02x\n", board.lights);
  }

private:
  void note(char byte) {
    if (byte == '\n' && !is_empty)
      due++;
    if (byte == 'l')
      progress.count();
    is_empty = byte == '\n';
  }

  void clock() {
    board.serial_in = sender.clock();
    board.clk = 0;
    board.eval();
    board.clk = 1;
    board.eval();
    clocks++;
    if (!receiver.clock(board.serial_out))
      return;
    putchar(receiver.byte());
    if (receiver.byte() == '\n') {
      due--;
      fflush(stdout);
    }
  }

  Vboard board;
  Sender sender;
  Receiver receiver;
  Progress progress;
  int due = 0;
  bool is_empty = true;
  unsigned long clocks = 0;
};

} // namespace

int main() {
  Board board;
  char block[65536];
  for (int many; (many = read(STDIN_FILENO, block, sizeof block)) > 0;)
    board.serve(block, many);
  board.end();
}
