// How far a diagnosis is, on standard error, since the tool writes nothing but its answer.
#include <cstdio>
#include <ctime>

class Progress {
public:
  void count() {
    loads++;
    if (time(nullptr) != shown) {
      shown = time(nullptr);
      show();
    }
  }
  void end(unsigned long clocks) const {
    show();
    fprintf(stderr, ", %lu clocks\n", clocks);
  }

private:
  void show() const {
    fprintf(stderr, "\rloads %lu of at most %lu without faults", loads, static_cast<unsigned long>(MOST_LOADS));
  }
  unsigned long loads = 0;
  time_t shown = 0;
};
