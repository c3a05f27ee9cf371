// Interfaces without a base: a table of functions by hand, a holder of any callable, visitors that call back.
#include <hippo.h>
#include <memory>
#include <type_traits>
#include <utility>
#include <vector>
class Any {
  struct Operations {
    long (*call)(const void *, long);
    void (*destroy)(void *);
    void *(*copy)(const void *);
  };
  const Operations *operations;
  void *object;
  template <class T> static constexpr Operations operations_of = {
    [](const void *self, long x) -> long { return (*static_cast<const T *>(self))(x); }, [](void *self) { delete static_cast<T *>(self); },
    [](const void *self) -> void * { return new T(*static_cast<const T *>(self)); }};

public:
  template <class T, class = std::enable_if_t<!std::is_same_v<std::decay_t<T>, Any>>> Any(T given) : operations(&operations_of<T>), object(new T(given)) {}
  Any(const Any &from) : operations(from.operations), object(from.operations->copy(from.object)) {}
  Any(Any &&from) noexcept : operations(from.operations), object(std::exchange(from.object, nullptr)) {}
  ~Any() {
    if (object) operations->destroy(object);
  }
  long operator()(long x) const { return operations->call(object, x); }
};
struct Visitor;
struct Shape {
  virtual ~Shape() = default;
  virtual void accept(Visitor &visitor) const = 0;
};
struct Circle;
struct Square;
struct Visitor {
  virtual void visit(const Circle &) = 0;
  virtual void visit(const Square &) = 0;
};
struct Circle : Shape {
  long radius = 2;
  void accept(Visitor &visitor) const override { visitor.visit(*this); }
};
struct Square : Shape {
  long side = 3;
  void accept(Visitor &visitor) const override { visitor.visit(*this); }
};
struct Area : Visitor {
  long sum = 0;
  void visit(const Circle &circle) override { sum = sum * 100 + circle.radius * circle.radius * 3; }
  void visit(const Square &square) override { sum = sum * 100 + square.side * square.side; }
};
struct Scale {
  long by;
  long operator()(long x) const { return x * by; }
};
int main() {
  std::vector<Any> all;
  all.push_back(Scale{3});
  all.push_back([](long x) { return x + 100; });
  all.push_back(all[0]);
  long sum = 0;
  for (const Any &any : all) sum = sum * 1000 + any(5);
  print_i64(sum);
  std::vector<std::unique_ptr<Shape>> shapes;
  shapes.emplace_back(new Circle);
  shapes.emplace_back(new Square);
  shapes.emplace_back(new Circle);
  Area area;
  for (const auto &shape : shapes) shape->accept(area);
  print_i64(area.sum);
  return 0;
}
