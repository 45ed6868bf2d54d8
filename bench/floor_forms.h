// Expressions and braces as they are read, of bench/floor.cc.
#pragma once
#include <cstddef>
#include <cstdint>
#include <vector>

using std::vector;

enum class Form : uint8_t { number, dummy, param, set, sum, range, cross, add, subtract, multiply, less, greater, at_most, at_least, equal };
struct Item;
struct Expr {
    Form form;
    int64_t value = 0;
    vector<Expr> parts = {};
    vector<Item> items = {};
};
// A component of an item is a new dummy, or it has to be equal to what stands there.
struct Component { bool is_new; size_t slot; Expr value; };
struct Item { vector<Component> components; vector<Expr> set; };
struct Braces { vector<Item> items; vector<Expr> condition; };
