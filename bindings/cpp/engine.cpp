// Two threads emit into one subject. A Switch gives each item an observable of its own, a Using with a resource, which tells the item; the
// next item exchanges it, and its resource is released.
#include <atomic>
#include <cellarcliff.h>
#include <cstdio>
#include <functional>
#include <mutex>
#include <stdexcept>
#include <thread>
#include <unordered_map>

class Engine {
 public:
  using Told = std::function<void(const cellar_effect &)>;

  Engine() {
    if (!CELLAR_FITS()) throw std::runtime_error(CELLAR_ANOTHER);
    if (cellar_new(&engine_, 0) != CELLAR_DONE) throw std::bad_alloc();
  }
  ~Engine() { cellar_drop(&engine_); }
  Engine(const Engine &) = delete;
  Engine &operator=(const Engine &) = delete;

  cellar_node open(uint8_t place, uint8_t kind, cellar_node above = {}, uint64_t user = 0) { return make(CELLAR_OPEN, place, kind, above, user, 0).node; }
  cellar_node use(uint8_t place, cellar_node above, uint64_t tag) { return make(CELLAR_USING, place, 0, above, 0, tag).node; }
  void next(cellar_node leaf, uint64_t item) { make(CELLAR_NEXT, 0, 0, leaf, 0, item); }
  void shut() { make(CELLAR_SHUT, 0, 0, {}, 0, 0); }
  bool finish() { return cellar_finish(&engine_) == CELLAR_DONE; }

  // A word for a node, or a tag for a resource: this is called with each effect that has it.
  uint64_t word(Told told) {
    std::lock_guard<std::mutex> guard(lock_);
    told_.emplace(++last_, std::move(told));
    return last_;
  }

 private:
  // A stack of calls for each thread; one that throws from within an effect stops there.
  cellar_stepped make(uint8_t what, uint8_t place, uint8_t kind, cellar_node node, uint64_t user, uint64_t value) {
    cellar_command command{};
    command.what = what, command.place = place, command.kind = kind, command.node = node, command.user = user, command.value = value;
    cellar_stepped made, step;
    cellar_stack &stack = *locked([&] { return &stacks_.try_emplace(std::this_thread::get_id(), cellar_stack{++last_, 0, 0}).first->second; });
    stack.depth++;
    uint8_t status = locked([&] { return cellar_step(&engine_, &stack, &command, &step); });
    try {
      for (made = step; step.handed; locked([&] { return cellar_next(&engine_, &stack, &step); })) {
        stack.begun = step.ticket;
        tell(step.effect);
      }
    } catch (...) {
      locked([&] { return cellar_stop(&engine_, &stack); });
      stack.depth--;
      throw;
    }
    stack.depth--;
    if (status != CELLAR_DONE) throw std::runtime_error("refused");
    return made;
  }
  void tell(const cellar_effect &it) { // outside the lock; each observer is told one thing at a time
    Told told;
    locked([&] {
      auto found = told_.find(it.user);
      if (found == told_.end()) return;
      told = found->second;
      if (it.kind != CELLAR_E_NEXT && it.kind != CELLAR_E_PROJECT) told_.erase(found); // its last one
    });
    if (told) told(it);
  }
  template <class Call> auto locked(Call call) -> decltype(call()) {
    std::lock_guard<std::mutex> guard(lock_);
    return call();
  }

  cellar engine_{};
  std::mutex lock_;
  std::unordered_map<uint64_t, Told> told_;
  std::unordered_map<std::thread::id, cellar_stack> stacks_;
  uint64_t last_ = 0;
};

int main() {
  Engine engine;
  std::atomic<unsigned long> told{0}, released{0};
  cellar_node exchange{};
  uint64_t hears = engine.word([&](const cellar_effect &it) {
    if (it.kind == CELLAR_E_NEXT) told++;
    if (it.kind != CELLAR_E_PROJECT) return;
    cellar_node used = engine.use(CELLAR_INNER, exchange, engine.word([&](const cellar_effect &) { released++; }));
    engine.next(engine.open(CELLAR_SOURCE, CELLAR_LEAF, used), it.value);
  });
  exchange = engine.open(CELLAR_ROOT, CELLAR_SWITCH, {}, hears);
  cellar_node subject = engine.open(CELLAR_SOURCE, CELLAR_LEAF, exchange);
  auto emit = [&](uint64_t first) {
    for (uint64_t i = 0; i < 1000; i++) engine.next(subject, first + i);
  };
  std::thread one(emit, 0), other(emit, 1000);
  one.join(), other.join();
  engine.shut(); // one call for each root that is open
  std::printf("%lu told, %lu released, %s\n", told.load(), released.load(), engine.finish() ? "all is done" : "something waits");
}
