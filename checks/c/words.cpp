// A program over the C++ library.
#include <algorithm>
#include <iostream>
#include <map>
#include <memory>
#include <sstream>
#include <string>
#include <vector>

struct shape {
    virtual ~shape() = default;
    virtual double area() const = 0;
};
struct square : shape {
    double side;
    explicit square(double side) : side(side) {}
    double area() const override { return side * side; }
};
struct circle : shape {
    double radius;
    explicit circle(double radius) : radius(radius) {}
    double area() const override { return 3.14159265358979 * radius * radius; }
};

int main() {
    std::map<std::string, int> counts;
    std::istringstream text("the quick brown fox jumps over the lazy dog and the fox");
    for (std::string word; text >> word;) counts[word]++;
    std::vector<std::pair<int, std::string>> found;
    for (auto &[word, count] : counts) found.emplace_back(count, word);
    std::sort(found.rbegin(), found.rend());
    for (auto &[count, word] : found) std::cout << word << ' ' << count << '\n';
    std::vector<std::unique_ptr<shape>> shapes;
    shapes.push_back(std::make_unique<square>(2));
    shapes.push_back(std::make_unique<circle>(1));
    double total = 0;
    for (auto &it : shapes) total += it->area();
    std::cout << std::to_string(total) << std::endl;
}
