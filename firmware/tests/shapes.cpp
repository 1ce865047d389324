/* C++: constructors run before main and destructors behind it; objects on the heap, and virtual functions. */
#include <stdio.h>

class Shape {
public:
    virtual ~Shape() { puts("a shape ends"); }
    virtual int area() const = 0;
};

class Square : public Shape {
public:
    explicit Square(int side) : side(side) {}
    int area() const override { return side * side; }

private:
    int side;
};

static Square first(3);

int main()
{
    Shape *volatile second = new Square(4);
    printf("%d and %d\n", first.area(), second->area());
    delete second;
    return 0;
}
