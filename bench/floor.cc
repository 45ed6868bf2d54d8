// usage: floor MODEL DATA
//
// The job of `netflow compile` done plainly, as a measure of what it must cost at least: tokens, sets, parameters, nodes and arcs, and the
// same text. It reads what the models of bench/make_planner, make_pairs, make_matrix, make_crew and make_days use and no more, stops at
// the first thing that is wrong without saying where, and has a hash for which an author of an input can choose colliding names.
#include <functional>
#include <initializer_list>
#include <memory>
#include <string>
#include "floor_forms.h"
#include "floor_sets.h"

// The data of a name: its cells, how many values follow a key, and which of them is its own. The heading is that of a table, or 0; it
// has as many members as a row has values.
struct Given { size_t from = 0, to = 0, values = 0, place = 0, heading = 0; };

struct Declared { enum { none, set, param } kind = none; int place = 0; };

using Dummies = vector<Member>;
using Visit = std::function<void(const vector<Member> &, Dummies &)>;

struct World {
    Words words;
    vector<Token> model, data;
    vector<Set> sets;
    vector<Param> params;
    vector<Declared> declared;
    std::unordered_map<int64_t, Given> given;
    vector<int64_t> scope;

    // ---- reading expressions
    size_t at = 0;
    Token peek() const { return model[at]; }
    Token next() { return model[at++]; }
    bool mark(int64_t it) { bool is = peek().kind == Kind::mark && peek().value == it; at += is; return is; }
    bool word(string_view it) { bool is = peek().kind == Kind::word && words.texts[peek().value] == it; at += is; return is; }
    void need(int64_t it) { want(mark(it), "a mark is missing"); }
    int64_t name() { want(peek().kind == Kind::word, "a name is missing"); return next().value; }

    // An operator by its mark, or by its word where it has none, from the loosest level to the tightest.
    struct Operator { int level; int64_t mark; Form form; };
    static constexpr Operator operators[] = {
        {0, both('<', '='), Form::at_most}, {0, both('>', '='), Form::at_least}, {0, '<', Form::less}, {0, '>', Form::greater}, {0, '=', Form::equal},
        {1, '+', Form::add}, {1, '-', Form::subtract}, {1, both('.', '.'), Form::range}, {2, '*', Form::multiply}, {2, 0, Form::cross}};
    Expr expression(int level = 0) {
        if (level == 3) return operand();
        Expr left = expression(level + 1);
        for (bool is_found = true; is_found;) {
            is_found = false;
            for (const Operator &it : operators)
                if (!is_found && it.level == level && (it.mark ? mark(it.mark) : word("cross"))) {
                    Expr made{it.form};
                    made.parts.push_back(std::move(left)), made.parts.push_back(expression(level + 1));
                    left = std::move(made), is_found = true;
                }
        }
        return left;
    }
    Expr sum() { return expression(1); }
    Expr product() { return expression(2); }
    vector<Expr> subscripts() {
        vector<Expr> found;
        if (!mark('[')) return found;
        do found.push_back(expression()); while (mark(','));
        need(']');
        return found;
    }
    Expr operand() {
        if (mark('-')) { Expr made{Form::subtract}; made.parts.push_back(Expr{Form::number}), made.parts.push_back(operand()); return made; }
        if (mark('(')) { Expr inner = expression(); need(')'); return inner; }
        if (peek().kind == Kind::number) return Expr{Form::number, next().value};
        if (word("sum")) {
            size_t outer = scope.size();
            Braces braces = this->braces();
            Expr made{Form::sum};
            made.items = std::move(braces.items);
            made.parts.push_back(product());
            for (auto &it : braces.condition) made.parts.push_back(std::move(it));
            scope.resize(outer);
            return made;
        }
        int64_t it = name();
        for (size_t slot = 0; slot < scope.size(); slot++) if (scope[slot] == it) return Expr{Form::dummy, int64_t(slot)};
        want(declared[it].kind != Declared::none, "a name is not declared");
        Expr made{declared[it].kind == Declared::set ? Form::set : Form::param, declared[it].place};
        made.parts = subscripts();
        return made;
    }
    Component component(Token it) {
        if (it.kind == Kind::number) return {false, 0, Expr{Form::number, it.value}};
        for (size_t slot = 0; slot < scope.size(); slot++) if (scope[slot] == it.value) return {false, slot, Expr{Form::dummy, int64_t(slot)}};
        scope.push_back(it.value);
        return {true, scope.size() - 1, Expr{Form::number}};
    }
    Item item() {
        size_t from = at;
        vector<Token> parts;
        if (mark('(')) { do parts.push_back(next()); while (mark(',')); at += peek().value == ')'; } else parts.push_back(next());
        Item made;
        if (!word("in")) { at = from; made.set.push_back(sum()); return made; }
        made.set.push_back(sum());
        for (Token it : parts) made.components.push_back(component(it));
        return made;
    }
    Braces braces() {
        Braces made;
        if (!mark('{')) return made;
        do made.items.push_back(item()); while (mark(','));
        if (mark(':')) made.condition.push_back(expression());
        need('}');
        return made;
    }

    // ---- values
    // The place of a key among the values: over two sets it is row * columns + column.
    long place_of(const Param &param, const Member *key) const {
        long place = 0;
        for (int of : param.sets) {
            long found = sets[of].find(key);
            if (found < 0) return -1;
            place = place * long(sets[of].count()) + found;
            key += sets[of].size;
        }
        return place;
    }
    Member param_at(const Param &param, const Member *key) const {
        long place = place_of(param, key);
        want(place >= 0, "outside the set");
        Member found = param.values[place] != nothing ? param.values[place] : param.otherwise;
        want(found != nothing, "no value");
        return found;
    }
    int64_t number(const Expr &it, Dummies &dummies) const { return number_of(value(it, dummies)); }
    Member value(const Expr &it, Dummies &dummies) const {
        Member key[4];
        int64_t total = 0, left, right;
        switch (it.form) {
            case Form::number: return of_number(it.value);
            case Form::dummy: return dummies[it.value];
            case Form::param:
                for (size_t part = 0; part < it.parts.size(); part++) key[part] = value(it.parts[part], dummies);
                return param_at(params[it.value], key);
            case Form::sum:
                walk(it.items, it.parts.size() > 1 ? &it.parts[1] : nullptr, dummies, [&](const vector<Member> &, Dummies &now) { total += number(it.parts[0], now); });
                return of_number(total);
            default: break;
        }
        left = value(it.parts[0], dummies), right = value(it.parts[1], dummies);
        if (it.form == Form::equal) return of_number(left == right);
        left = number_of(left), right = number_of(right);
        switch (it.form) {
            case Form::add: return of_number(left + right);
            case Form::subtract: return of_number(left - right);
            case Form::multiply: return of_number(left * right);
            case Form::less: return of_number(left < right);
            case Form::greater: return of_number(left > right);
            case Form::at_most: return of_number(left <= right);
            case Form::at_least: return of_number(left >= right);
            default: fail("a set where a number is needed");
        }
    }
    void walk(const vector<Item> &items, const Expr *condition, Dummies &dummies, const Visit &visit) const {
        vector<Member> key;
        walk_from(items, 0, condition, key, dummies, visit);
    }
    void walk_from(const vector<Item> &items, size_t place, const Expr *condition, vector<Member> &key, Dummies &dummies, const Visit &visit) const {
        if (place == items.size()) {
            if (!condition || number(*condition, dummies)) visit(key, dummies);
            return;
        }
        const Item &item = items[place];
        auto take = [&](const Member *tuple, size_t size) {
            size_t before = key.size();
            for (size_t part = 0; part < item.components.size(); part++) {
                const Component &it = item.components[part];
                if (it.is_new) dummies[it.slot] = tuple[part], key.push_back(tuple[part]);
                else if (value(it.value, dummies) != tuple[part]) return key.resize(before);
            }
            if (item.components.empty()) key.insert(key.end(), tuple, tuple + size);
            walk_from(items, place + 1, condition, key, dummies, visit);
            key.resize(before);
        };
        const Expr &of = item.set[0];
        if (of.form == Form::range) {
            int64_t last = number(of.parts[1], dummies);
            for (int64_t it = number(of.parts[0], dummies); it <= last; it++) { Member tuple = of_number(it); take(&tuple, 1); }
            return;
        }
        want(of.form == Form::set, "no set");
        const Set &set = sets[of.value];
        for (size_t part = 0; part < item.components.size(); part++) {
            if (item.components[part].is_new) continue;
            if (auto found = set.with(part, value(item.components[part].value, dummies))) for (uint32_t it : *found) take(set.at(it), set.size);
            return;
        }
        for (size_t it = 0; it < set.count(); it++) take(set.at(it), set.size);
    }

    // ---- data
    Member cell(size_t place) const { return data[place].kind == Kind::number ? of_number(data[place].value) : data[place].value * 2 + 1; }
    bool is_mark(size_t place, int64_t it) const { return data[place].kind == Kind::mark && data[place].value == it; }
    size_t next_mark(size_t place, int64_t it) const {
        for (; !is_mark(place, it); place++) want(data[place].kind != Kind::end, "a mark is missing");
        return place;
    }
    void read_data() {
        for (size_t here = 0; data[here].kind != Kind::end;) {
            bool is_set = words.texts[data[here++].value] == "set";
            size_t assign = next_mark(here, both(':', '=')), end = next_mark(assign, ';');
            if (data[here].kind == Kind::word && is_mark(here + 1, ':')) {
                size_t heading = here + 2;
                given[data[here].value] = {assign + 1, end, assign - heading, 0, heading};
            } else read_heads(here, assign, end, is_set);
            here = end + 1;
        }
    }
    void read_heads(size_t here, size_t assign, size_t end, bool is_set) {
        vector<int64_t> heads;
        int64_t leader = -1;
        for (; here < assign; here++) {
            if (data[here].kind == Kind::word) heads.push_back(data[here].value);
            else if (data[here].value == ':' && !heads.empty()) leader = heads.back(), heads.pop_back();
        }
        if (leader >= 0) given[leader] = {assign + 1, end, heads.size()};
        for (size_t place = 0; place < heads.size(); place++) given[heads[place]] = {assign + 1, end, is_set ? 0 : heads.size(), place};
    }
    size_t rows_of(const Given &given, size_t size) const { want((given.to - given.from) % size == 0, "a row is short"); return (given.to - given.from) / size; }

    // ---- declarations
    Dummies none = Dummies(64);
    void declare_set() {
        int64_t it = name();
        size_t size = 1;
        vector<Expr> of, within;
        while (!mark(';')) {
            if (word("dimen")) size = next().value;
            else if (word("within")) within.push_back(product()), size = within[0].form == Form::cross ? 2 : size;
            else if (mark(both(':', '='))) of.push_back(expression());
            else want(mark(','), "no phrase of a set");
        }
        Set set(size);
        if (!of.empty()) walk({Item{{}, std::move(of)}}, nullptr, none, [&](const vector<Member> &key, Dummies &) { set.add(key.data()); });
        else if (auto found = given.find(it); found != given.end()) {
            size_t width = size + found->second.values, rows = rows_of(found->second, width);
            set.members.reserve(rows * size);
            Member key[4];
            for (size_t row = 0; row < rows; row++) {
                for (size_t part = 0; part < size; part++) key[part] = cell(found->second.from + row * width + part);
                want(set.add(key), "a member twice");
            }
        }
        for (auto &cross : within)
            for (size_t place = 0; place < set.count(); place++)
                for (size_t part = 0; part < size; part++) want(sets[cross.parts[part].value].find(set.at(place) + part) >= 0, "outside the set");
        declared[it] = {Declared::set, int(sets.size())};
        sets.push_back(std::move(set));
    }
    void declare_param() {
        int64_t it = name();
        Param param;
        vector<std::pair<int64_t, Expr>> bounds;
        for (auto &item : braces().items) param.sets.push_back(int(item.set[0].value));
        scope.clear();
        for (int set : param.sets) param.keys += sets[set].size;
        while (!mark(';')) {
            if (word("integer") || mark(',')) continue;
            if (word("default")) { Expr at = sum(); param.otherwise = value(at, none); continue; }
            int64_t bound = next().value;
            bounds.emplace_back(bound, sum());
        }
        size_t count = 1;
        for (int set : param.sets) count *= sets[set].count();
        param.values.assign(count, nothing);
        if (auto found = given.find(it); found != given.end()) found->second.heading ? fill_table(param, found->second) : fill(param, found->second);
        for (Member at : param.values)
            for (auto &[bound, side] : bounds) {
                int64_t other = number(side, none), own = at == nothing ? other : number_of(at);
                want(at == nothing || (bound == both('>', '=') ? own >= other : bound == both('<', '=') ? own <= other : bound == '<' ? own < other : own > other), "a bound");
            }
        declared[it] = {Declared::param, int(params.size())};
        params.push_back(std::move(param));
    }
    void give(Param &param, long place, Member value) {
        want(place >= 0 && param.values[place] == nothing, "outside the set, or twice");
        param.values[place] = value;
    }
    void fill(Param &param, const Given &given) {
        size_t width = param.keys + given.values, rows = rows_of(given, width);
        const Set *only = param.sets.size() == 1 ? &sets[param.sets[0]] : nullptr;
        Member key[4];
        for (size_t row = 0; row < rows; row++) {
            size_t from = given.from + row * width;
            for (size_t part = 0; part < param.keys; part++) key[part] = cell(from + part);
            long place = only && row < only->count() && only->is_at(row, key) ? long(row) : place_of(param, key);
            give(param, place, cell(from + param.keys + given.place));
        }
    }
    void fill_table(Param &param, const Given &given) {
        want(param.sets.size() == 2 && param.keys == 2, "a table needs two sets of members");
        const Set &rows = sets[param.sets[0]], &columns = sets[param.sets[1]];
        vector<long> places;
        for (size_t column = 0; column < given.values; column++) {
            Member member = cell(given.heading + column);
            places.push_back(columns.find(&member));
            want(places.back() >= 0, "outside the set");
        }
        size_t width = 1 + given.values, count = rows_of(given, width);
        for (size_t row = 0; row < count; row++) {
            size_t from = given.from + row * width;
            Member member = cell(from);
            long place = rows.find(&member);
            want(place >= 0, "outside the set");
            for (size_t column = 0; column < given.values; column++) give(param, place * long(columns.count()) + places[column], cell(from + 1 + column));
        }
    }
    void check() {
        Braces over = braces();
        need(':');
        Expr holds = expression();
        need(';');
        scope.clear();
        walk(over.items, over.condition.empty() ? nullptr : &over.condition[0], none, [&](const vector<Member> &, Dummies &now) { want(number(holds, now), "a check"); });
    }

    // ---- nodes, arcs and the text
    struct Nodes { std::unique_ptr<Set> keys; size_t first; };
    std::unordered_map<int64_t, Nodes> nodes;
    vector<int64_t> supplies;
    struct Line { int64_t src, dst, low, cap, cost; };
    vector<Line> lines;
    std::string node_names, arc_names;

    void tell(std::string &text, int64_t declared_as, const vector<Member> &key) const {
        text += words.texts[declared_as];
        for (size_t part = 0; part < key.size(); part++) {
            text += part ? ',' : '[';
            if (key[part] & 1) text += '\'', text += words.texts[key[part] / 2], text += '\'';
            else text += std::to_string(number_of(key[part]));
        }
        text += key.empty() ? "\n" : "]\n";
    }
    void declare_node() {
        int64_t it = name();
        Braces over = braces();
        Expr supply{Form::number};
        bool is_in = false;
        if (mark(':')) {
            is_in = word("net_in");
            want(is_in || word("net_out"), "no condition of a node");
            need('=');
            supply = sum();
        }
        need(';');
        scope.clear();
        Nodes &made = nodes[it];
        made.first = supplies.size();
        walk(over.items, over.condition.empty() ? nullptr : &over.condition[0], none, [&](const vector<Member> &key, Dummies &now) {
            if (!made.keys) made.keys = std::make_unique<Set>(key.empty() ? 1 : key.size());
            want(key.empty() || made.keys->add(key.data()), "a node twice");
            int64_t out = number(supply, now);
            supplies.push_back(is_in ? -out : out);
            tell(node_names.append("c node ").append(std::to_string(supplies.size())).append(" "), it, key);
        });
    }
    struct End { int64_t name; vector<Expr> subscripts; };
    int64_t node_of(const End &end, Dummies &dummies) const {
        const Nodes &of = nodes.at(end.name);
        Member key[4];
        for (size_t part = 0; part < end.subscripts.size(); part++) key[part] = value(end.subscripts[part], dummies);
        long place = end.subscripts.empty() ? 0 : of.keys->find(key);
        want(place >= 0, "no such node");
        return of.first + place;
    }
    void declare_arc() {
        int64_t it = name();
        Braces over = braces();
        Expr low{Form::number}, cap{Form::number}, cost{Form::number};
        End from{}, to{};
        while (!mark(';')) {
            if (mark(both('>', '='))) low = sum();
            else if (mark(both('<', '='))) cap = sum();
            else if (word("from")) from.name = name(), from.subscripts = subscripts();
            else if (word("to")) to.name = name(), to.subscripts = subscripts();
            else if (word("obj")) name(), cost = sum();
            else want(mark(','), "no phrase of an arc");
        }
        scope.clear();
        walk(over.items, over.condition.empty() ? nullptr : &over.condition[0], none, [&](const vector<Member> &key, Dummies &now) {
            lines.push_back({node_of(from, now), node_of(to, now), number(low, now), number(cap, now), number(cost, now)});
            tell(arc_names.append("c arc ").append(std::to_string(lines.size())).append(" 0 "), it, key);
        });
    }
    void declare_all() {
        while (peek().kind != Kind::end) {
            if (word("set")) declare_set();
            else if (word("param")) declare_param();
            else if (word("check")) check();
            else if (word("node")) declare_node();
            else if (word("arc")) declare_arc();
            else want(word("minimize"), "no declaration"), name(), need(';');
        }
    }
    void write() const {
        std::string text = "c constant 0\nc sign 1\n";
        for (auto it : {string_view(text), string_view(node_names), string_view(arc_names)}) std::fwrite(it.data(), 1, it.size(), stdout);
        text.clear();
        auto line = [&](char letter, std::initializer_list<int64_t> numbers) {
            text += letter;
            for (int64_t it : numbers) text += ' ', text += std::to_string(it);
            text += '\n';
            if (text.size() > 1 << 16) std::fwrite(text.data(), 1, text.size(), stdout), text.clear();
        };
        text += "p min " + std::to_string(supplies.size() + 1) + " " + std::to_string(lines.size()) + "\n";
        for (size_t it = 0; it < supplies.size(); it++) if (supplies[it]) line('n', {int64_t(it) + 1, supplies[it]});
        for (const Line &it : lines) line('a', {it.src + 1, it.dst + 1, it.low, it.cap, it.cost});
        std::fwrite(text.data(), 1, text.size(), stdout);
    }
};

int main(int count, char **paths) {
    want(count == 3, "usage: floor MODEL DATA");
    std::string model = text_of(paths[1]), data = text_of(paths[2]);
    World world;
    world.model = tokens_of(model, world.words, false);
    world.data = tokens_of(data, world.words, true);
    world.declared.resize(world.words.texts.size());
    world.read_data();
    world.declare_all();
    world.write();
}
