// Classes with virtual functions: tables of them, and objects that are made by the compiler.
extern "C" double root(double);

struct Shape {
    constexpr Shape(const char *name) : name(name) {}
    virtual double area() const = 0;
    virtual double border() const = 0;
    virtual int corners() const { return 0; }
    const char *name;
};
struct Circle : Shape {
    constexpr Circle(double radius) : Shape("circle"), radius(radius) {}
    double area() const override { return 3.141592653589793 * radius * radius; }
    double border() const override { return 6.283185307179586 * radius; }
    double radius;
};
struct Rectangle : Shape {
    constexpr Rectangle(double wide, double high) : Shape("rectangle"), wide(wide), high(high) {}
    double area() const override { return wide * high; }
    double border() const override { return 2 * (wide + high); }
    int corners() const override { return 4; }
    double wide, high;
};
struct Square : Rectangle {
    constexpr Square(double side) : Rectangle(side, side) { name = "square"; }
    double border() const override { return 4 * root(area()); }
};

constinit Circle circle{1.5};
constinit Rectangle rectangle{2, 3.25};
constinit Square square{0x1p-3};
const Shape *all[] = {&circle, &rectangle, &square, nullptr};

extern "C" __attribute__((visibility("default"))) double measure(int of) {
    double sum = 0;
    for (const Shape **at = all; *at; at++) sum += of == 0 ? (*at)->area() : of == 1 ? (*at)->border() : (*at)->corners();
    return sum;
}
