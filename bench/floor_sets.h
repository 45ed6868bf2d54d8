// Sets of tuples and values by them, of bench/floor.cc.
#pragma once
#include <algorithm>
#include <cstddef>
#include <unordered_map>
#include "floor_words.h"

// Tuples of one length in the order of their coming.
struct Set {
    size_t size;
    vector<Member> members;
    Places places;
    // Of each component the places of the tuples that have a member there; made where it is first asked for.
    mutable vector<std::unordered_map<Member, vector<uint32_t>>> by;

    explicit Set(size_t size) : size(size) {}
    size_t count() const { return members.size() / size; }
    const Member *at(size_t place) const { return &members[place * size]; }
    uint64_t hash(const Member *key) const {
        uint64_t sum = size;
        for (size_t part = 0; part < size; part++) sum = mixed(sum, key[part]);
        return sum;
    }
    bool is_at(size_t place, const Member *key) const { return std::equal(key, key + size, at(place)); }
    long find(const Member *key) const { return places.find(hash(key), [&](size_t it) { return is_at(it, key); }); }
    bool add(const Member *key) {
        if (find(key) >= 0) return false;
        members.insert(members.end(), key, key + size);
        places.add(count(), [&](size_t it) { return hash(at(it)); });
        return true;
    }
    const vector<uint32_t> *with(size_t part, Member member) const {
        if (by.empty()) by.resize(size);
        if (by[part].empty()) for (size_t place = 0; place < count(); place++) by[part][at(place)[part]].push_back(place);
        auto found = by[part].find(member);
        return found == by[part].end() ? nullptr : &found->second;
    }
};

// A parameter over sets: how many members a key has, a value or nothing for each key, and the default.
struct Param { vector<int> sets; size_t keys = 0; vector<Member> values; Member otherwise = nothing; };
