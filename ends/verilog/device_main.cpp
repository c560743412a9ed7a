// A verilated device: answers requests on standard input by replies on standard output. Its clock stands while no byte comes.
#include "Vdevice.h"
#include "progress.h"
#include <unistd.h>

namespace {

class Device {
public:
  Device() {
    device.reset = 1;
    clock();
    device.reset = 0;
    device.tx_ready = 1;
  }

  // Clocks until the device wants one byte more than there are.
  void serve(const char* bytes, int many) {
    int at = 0;
    for (;;) {
      device.rx_valid = 0;
      if (device.tx_valid) {
        send(device.tx);
      } else if (device.rx_ready) {
        if (at == many)
          return;
        device.rx = bytes[at++];
        device.rx_valid = 1;
      }
      clock();
    }
  }

  void end() const { progress.end(clocks); }

private:
  void clock() {
    device.clk = device.machine_clk = 0;
    device.eval();
    if (device.loaded_now)
      progress.count();
    device.clk = 1;
    device.machine_clk = device.machine_works;
    device.eval();
    clocks++;
  }

  static void send(char byte) {
    putchar(byte);
    if (byte == '\n')
      fflush(stdout);
  }

  Vdevice device;
  Progress progress;
  unsigned long clocks = 0;
};

} // namespace

int main() {
  Device device;
  char block[65536];
  for (int many; (many = read(STDIN_FILENO, block, sizeof block)) > 0;)
    device.serve(block, many);
  device.end();
}
