// Constructors, destructors, virtual functions, results that are adjusted, and functions reached by a second base.
#include <hippo.h>

struct Shape {
  long tag;
  explicit Shape(long number) : tag(number) { print_i64(100 + number); }
  virtual ~Shape() { print_i64(200 + tag); }
  virtual long area() const = 0;
  virtual Shape *twin() const = 0;
};

struct Named {
  long name = 7;
  virtual ~Named() { print_i64(300 + name); }
  virtual long called() const { return name; }
  virtual Named *self() { return this; }
};

struct Square : Shape, Named {
  long side;
  explicit Square(long length) : Shape(1), side(length) {}
  ~Square() override { print_i64(400 + side); }
  long area() const override { return side * side; }
  Square *twin() const override { return new Square(side + 1); }
  long called() const override { return name * 10 + side; }
  Square *self() override { return this; }
};

struct Bar final : Shape {
  long ends[3];
  Bar() : Shape(2), ends{1, 2, 3} {}
  long area() const override { return ends[0] + ends[1] * ends[2]; }
  Bar *twin() const override { return new Bar(*this); }
};

static long both(const Shape &shape, const Named &named) { return shape.area() * 1000 + named.called(); }

int main() {
  Square square(3);
  Bar bar;
  const Shape *shapes[] = {&square, &bar};
  for (const Shape *shape : shapes) print_i64(shape->area());
  print_i64(both(square, square));
  Named *named = &square;
  print_i64(named->called());
  print_i64(named->self() == named);
  Shape *twin = square.twin();
  print_i64(twin->area());
  delete twin;
  named = new Square(9);
  delete named;
  delete bar.twin();
  return 0;
}
