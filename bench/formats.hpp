// What bench/float and bench/exact have in common: reading a configuration and state lines, drawing the moments of an exercise,
// and writing a report, as docs/FORMATS.md tells them. It shares nothing with the engine. What is read must be accepted by
// tools/check, and in format 1 or 2: a text that is not is refused in one line, without the causes that the program gives.
#pragma once
#include <array>
#include <cstdint>
#include <cstdio>
#include <cstdlib>
#include <cstring>
#include <fstream>
#include <iostream>
#include <iterator>
#include <map>
#include <optional>
#include <sstream>
#include <string>
#include <string_view>
#include <utility>
#include <vector>

namespace formats {

enum Kind { Track, GroundSpeed, VerticalSpeed, Altitude };
constexpr int KINDS = 4;
constexpr const char *NAMES[KINDS] = {"track", "gs", "vs", "alt"};
enum class Model { Taumod, Tcpa, Tau, Tep };

[[noreturn]] inline void refuse(const std::string &why) {
    std::fprintf(stderr, "%s (tools/check says more)\n", why.c_str());
    std::exit(3);
}

struct Level {
    int64_t dthr, zthr, tthr, tcoa, lookahead, alert;  // 0.001 nautical mile, feet, seconds
    Model model;
};

struct Config {
    int resolve = 1, turn_rate = 1, track_step = 1;
    bool last_times = false, recovery = false, nearest = false;
    int64_t hdist = 0, vdist = 0;
    std::array<int64_t, KINDS> rate{};
    std::array<std::vector<int64_t>, KINDS> values;
    std::vector<Level> levels;

    int64_t horizon() const {  // the greatest lookahead of the levels from `resolve` up
        int64_t most = 0;
        for (size_t l = resolve - 1; l < levels.size(); l++) most = std::max(most, levels[l].lookahead);
        return most;
    }
};

// A configuration's text as paths and numbers: `gs.min`, `level.0.dthr`. Of TOML it knows tables, lists of tables, inline ones,
// comments and whole numbers.
class Toml {
  public:
    explicit Toml(const std::string &text) : text_(text) {
        std::string table;
        for (skip(true); at_ < text_.size(); skip(true)) {
            if (text_.compare(at_, 2, "[[") == 0) {
                at_ += 2;
                const std::string name = word();
                table = name + "." + std::to_string(count_[name]++) + ".";
                expect(']'), expect(']');
            } else if (text_[at_] == '[') {
                at_++, table = word() + ".", expect(']');
            } else {
                pair(table);
            }
        }
    }
    std::optional<int64_t> find(const std::string &path) const {
        const auto found = numbers_.find(path);
        return found == numbers_.end() ? std::nullopt : std::optional(found->second);
    }
    int64_t at(const std::string &path) const {
        const auto found = find(path);
        if (!found) refuse("the configuration has no " + path);
        return *found;
    }

  private:
    void skip(bool lines) {
        while (at_ < text_.size() && (std::strchr(" \t\r", text_[at_]) || (lines && text_[at_] == '\n') || text_[at_] == '#')) {
            if (text_[at_] == '#') while (at_ < text_.size() && text_[at_] != '\n') at_++;
            else at_++;
        }
    }
    bool takes(char sign) {
        skip(true);
        const bool is_there = at_ < text_.size() && text_[at_] == sign;
        at_ += is_there;
        return is_there;
    }
    void expect(char sign) {
        if (!takes(sign)) refuse(std::string("the configuration lacks ") + sign);
    }
    std::string word() {
        skip(false);
        const size_t begin = at_;
        while (at_ < text_.size() && (std::isalnum(static_cast<unsigned char>(text_[at_])) || std::strchr("_-+.", text_[at_]))) at_++;
        if (at_ == begin) refuse("the configuration is not of the form that this program reads");
        return text_.substr(begin, at_ - begin);
    }
    void pair(const std::string &table) {
        const std::string path = table + word();
        expect('=');
        value(path);
    }
    void value(const std::string &path) {
        if (takes('{')) {
            while (!takes('}')) pair(path + "."), takes(',');
        } else if (takes('[')) {
            for (int place = 0; !takes(']'); place++) value(path + "." + std::to_string(place)), takes(',');
        } else {
            std::string digits;
            for (const char c : word()) if (c != '_') digits += c;
            numbers_[path] = std::strtoll(digits.c_str(), nullptr, 0);
        }
    }
    const std::string text_;
    size_t at_ = 0;
    std::map<std::string, int64_t> numbers_;
    std::map<std::string, int> count_;
};

inline std::string read_file(const std::string &path) {
    std::ifstream file(path, std::ios::binary);
    if (!file) refuse(path + " can't be read");
    return {std::istreambuf_iterator<char>(file), {}};
}

inline Config read_config(const std::string &path) {
    const Toml toml(read_file(path));
    Config config;
    config.resolve = static_cast<int>(toml.at("resolve")), config.turn_rate = static_cast<int>(toml.at("turn_rate"));
    config.track_step = static_cast<int>(toml.at("track_step")), config.last_times = toml.find("last_times").value_or(0) == 1;
    config.rate[Track] = config.turn_rate;
    for (int64_t track = 0; track < 360; track += config.track_step) config.values[Track].push_back(track);
    for (int kind = GroundSpeed; kind < KINDS; kind++) {
        const std::string name = std::string(NAMES[kind]) + ".";
        config.rate[kind] = toml.at(name + "rate");
        for (int64_t value = toml.at(name + "min"); value <= toml.at(name + "max"); value += toml.at(name + "step")) config.values[kind].push_back(value);
    }
    for (int number = 0; toml.find("level." + std::to_string(number) + ".dthr"); number++) {
        const std::string of = "level." + std::to_string(number) + ".";
        const auto is = [&](const char *key) { return toml.find(of + key).value_or(0) == 1; };
        const Model model = is("tcpa") ? Model::Tcpa : is("tau") ? Model::Tau : is("tep") ? Model::Tep : Model::Taumod;
        config.levels.push_back({toml.at(of + "dthr"), toml.at(of + "zthr"), toml.at(of + "tthr"), toml.at(of + "tcoa"), toml.at(of + "lookahead"), toml.at(of + "alert"), model});
    }
    if (config.levels.empty()) refuse("the configuration has no level");
    if (toml.find("recovery.hdist")) {
        config.recovery = true, config.hdist = toml.at("recovery.hdist"), config.vdist = toml.at("recovery.vdist");
        config.nearest = toml.find("recovery.nearest").value_or(0) == 1;
    }
    return config;
}

struct Own {
    int64_t x, y, alt, trk, gs, vs;
};
struct Traffic {
    std::string id;
    int64_t x, y, alt, vx, vy, vs, age;
};
struct Moment {
    int64_t time = 0;
    Own own{};
    std::vector<Traffic> traffic;

    int64_t present(int kind) const { return kind == Track ? own.trk : kind == GroundSpeed ? own.gs : kind == VerticalSpeed ? own.vs : own.alt; }
};

// The next moment of state lines; false at their end.
class States {
  public:
    explicit States(std::istream &in) : in_(in) {}
    bool next(Moment &moment) {
        bool is_open = false, has_own = false;
        for (std::string line; std::getline(in_, line);) {
            lines_++;
            std::istringstream fields(line);
            std::string word;
            if (!(fields >> word) || word[0] == '#') continue;
            if (word == "format") {
                need(!is_open && fields >> form_ && form_ <= 2);  // none with bounds
            } else if (word == "moment") {
                need(!is_open && fields >> moment.time);
                is_open = true, has_own = false, moment.traffic.clear();
            } else if (word == "own") {
                Own &own = moment.own;
                need(is_open && !has_own && fields >> own.x >> own.y >> own.alt >> own.trk >> own.gs >> own.vs);
                has_own = true;
            } else if (word == "traffic") {
                Traffic it{};
                need(is_open && fields >> it.id >> it.x >> it.y >> it.alt >> it.vx >> it.vy >> it.vs && (form_ == 1 || fields >> it.age));
                moment.traffic.push_back(std::move(it));
            } else {
                need(word == "end" && is_open && has_own);
                return true;
            }
        }
        need(!is_open);
        return false;
    }

  private:
    template <typename T> void need(const T &holds) const {
        if (!holds) refuse("line " + std::to_string(lines_) + " of the states is none that is taken there");
    }
    std::istream &in_;
    int form_ = 1;
    int64_t lines_ = 0;
};

// The generator of an exercise: PCG XSH RR with 64 bits of state.
class Generator {
  public:
    explicit Generator(uint64_t seed) {
        std::array<uint64_t, 4> words{};
        for (auto &word : words) seed = seed * MULTIPLIER + 11634580027462260723u, word = output(seed);
        increment_ = (words[2] | words[3] << 32) | 1;
        state_ = (words[0] | words[1] << 32) + increment_, step();
    }
    int64_t pick(int64_t low, int64_t high) {
        const uint32_t word = output(state_);
        step();
        return low + word % static_cast<uint64_t>(high - low + 1);
    }
    Moment moment(int64_t time) {
        Moment made;
        made.time = time;
        made.own = {0, 0, 0, 0, 0, 0};
        made.own.alt = pick(0, 20000), made.own.trk = pick(0, 359), made.own.gs = pick(500, 5000), made.own.vs = pick(-2000, 2000);
        const int64_t count = pick(0, 8);
        made.traffic.reserve(count);
        for (int64_t number = 1; number <= count; number++) {
            Traffic it{"A" + std::to_string(number), 0, 0, 0, 0, 0, 0, 0};
            it.x = pick(-8000, 8000), it.y = pick(-8000, 8000), it.alt = made.own.alt + pick(-2000, 2000);
            it.vx = pick(-5000, 5000), it.vy = pick(-5000, 5000), it.vs = pick(-2000, 2000);
            made.traffic.push_back(std::move(it));
        }
        return made;
    }

  private:
    static constexpr uint64_t MULTIPLIER = 6364136223846793005u;
    static uint32_t output(uint64_t x) {
        const uint32_t mixed = static_cast<uint32_t>((x >> 18 ^ x) >> 27), turn = static_cast<uint32_t>(x >> 59);
        return mixed >> turn | mixed << (-turn & 31);
    }
    void step() { state_ = state_ * MULTIPLIER + increment_; }
    uint64_t state_ = 0, increment_ = 1;
};

// An answer for a moment: what its report says.
struct Alert {
    int now = 0, level = 0;
    int64_t first = 0;
};
struct Recovery {
    int64_t after, value;
};
struct Answer {
    std::vector<Alert> alerts;
    std::array<std::vector<uint8_t>, KINDS> levels;  // of each candidate
    bool is_kept = false;                            // the present flight is open
    std::array<std::optional<int64_t>, KINDS> last;
    std::array<std::optional<Recovery>, KINDS> recovery;
};

// The nearest open candidate on each side of a kind, in the order lower, upper.
using Sides = std::array<std::optional<int64_t>, 2>;

inline int64_t distance_to(int kind, int64_t now, int64_t value, bool upper) {
    if (kind == Track) return upper ? (value - now + 360) % 360 : (now - value + 360) % 360;
    return upper ? value - now : now - value;
}

inline bool is_on_side(int kind, int64_t now, int64_t value, bool upper) {
    const int64_t distance = distance_to(kind, now, value, upper);
    if (kind == Track) return upper ? distance >= 1 && distance <= 180 : distance < 180;
    return upper ? distance > 0 : distance >= 0;
}

inline Sides sides_of(const Config &config, const Moment &moment, const Answer &answer, int kind) {
    Sides found;
    for (size_t place = 0; place < config.values[kind].size(); place++) {
        if (answer.levels[kind][place] >= config.resolve) continue;
        for (const bool upper : {false, true}) {
            const int64_t now = moment.present(kind), value = config.values[kind][place];
            if (!is_on_side(kind, now, value, upper)) continue;
            if (!found[upper] || distance_to(kind, now, value, upper) < distance_to(kind, now, *found[upper], upper)) found[upper] = value;
        }
    }
    return found;
}

// The place behind the last candidate of the run that begins at one: all of them have the same level.
inline size_t end_of_run(const std::vector<uint8_t> &levels, size_t begin) {
    const uint64_t alike = levels[begin] * 0x0101010101010101u;
    size_t end = begin + 1;
    for (uint64_t eight = alike; end + 8 <= levels.size(); end += 8) {
        std::memcpy(&eight, &levels[end], 8);
        if (eight != alike) break;
    }
    while (end < levels.size() && levels[end] == levels[begin]) end++;
    return end;
}

inline void append(std::string &out, std::initializer_list<std::string_view> words) {
    for (const auto word : words) out += word;
}

inline void write_report(std::string &out, const Config &config, const Moment &moment, const Answer &answer) {
    const auto text = [](int64_t number) { return std::to_string(number); };
    append(out, {"moment ", text(moment.time), "\n"});
    for (size_t place = 0; place < moment.traffic.size(); place++) {
        const Alert &alert = answer.alerts[place];
        const std::string &id = moment.traffic[place].id;
        append(out, {"now ", id, " ", text(alert.now), "\nalert ", id, " ", text(alert.level), " ", alert.level ? text(alert.first) : "-", "\n"});
    }
    for (int kind = 0; kind < KINDS; kind++) {
        const auto &values = config.values[kind];
        const auto &levels = answer.levels[kind];
        for (size_t begin = 0, end; begin < values.size(); begin = end) {
            end = end_of_run(levels, begin);
            append(out, {NAMES[kind], " ", text(values[begin]), " ", text(values[end - 1]), " ", text(levels[begin]), "\n"});
        }
    }
    std::array<bool, KINDS> is_closed{};
    for (int kind = 0; kind < KINDS; kind++) {
        const Sides sides = sides_of(config, moment, answer, kind);
        const auto word = [&](bool upper) { return answer.is_kept ? "keep" : sides[upper] ? text(*sides[upper]) : "none"; };
        append(out, {"resolve ", NAMES[kind], kind == Track ? " left " : " down ", word(false), kind == Track ? " right " : " up ", word(true), "\n"});
        is_closed[kind] = !answer.is_kept && !sides[0] && !sides[1];
    }
    for (int kind = 0; kind < KINDS && config.last_times && !answer.is_kept; kind++)
        append(out, {"last ", NAMES[kind], " ", answer.last[kind] ? text(*answer.last[kind]) : "none", "\n"});
    for (int kind = 0; kind < KINDS && config.recovery; kind++) {
        if (!is_closed[kind]) continue;
        const auto &found = answer.recovery[kind];
        append(out, {"recover ", NAMES[kind], " ", found ? text(found->after) + " " + text(found->value) : "none", "\n"});
    }
    append(out, {"done ", text(moment.time), "\n"});
}

// Whether both sides of a kind have no open candidate.
inline bool is_closed(const Config &config, const Moment &moment, const Answer &answer, int kind) {
    const Sides sides = sides_of(config, moment, answer, kind);
    return !answer.is_kept && !sides[0] && !sides[1];
}

// The place of a value in the order in which recoveries are named.
inline int64_t place_of(const Config &config, int kind, int64_t now, int64_t value) {
    if (!config.nearest) return value;
    if (kind == Track) {
        const int64_t right = (value - now + 360) % 360;
        return right <= 180 ? 2 * right : 2 * (360 - right) + 1;
    }
    return value >= now ? 2 * (value - now) : 2 * (now - value) + 1;
}

// The summary of an exercise.
class Summary {
  public:
    explicit Summary(const Config &config) : count_(config.levels.size() + 1) {
        for (auto &each : counts_) each.resize(count_);
    }
    void add(const Answer &answer) {
        aircraft_ += answer.alerts.size();
        for (const Alert &alert : answer.alerts) counts_[KINDS][alert.level]++;
        for (int kind = 0; kind < KINDS; kind++) {
            const auto &levels = answer.levels[kind];
            for (size_t begin = 0, end; begin < levels.size(); begin = end) {
                end = end_of_run(levels, begin);
                counts_[kind][levels[begin]] += static_cast<int64_t>(end - begin);
            }
        }
    }
    void write(std::string &out, uint64_t seed, int64_t moments) const {
        append(out, {"exercise ", std::to_string(seed), " ", std::to_string(moments), "\naircraft ", std::to_string(aircraft_), "\n"});
        for (int row = 0; row <= KINDS; row++) {
            const int kind = row == 0 ? KINDS : row - 1;
            out += kind == KINDS ? "alert" : NAMES[kind];
            for (const int64_t count : counts_[kind]) append(out, {" ", std::to_string(count)});
            out += "\n";
        }
        out += "done\n";
    }

  private:
    size_t count_;
    size_t aircraft_ = 0;
    std::array<std::vector<int64_t>, KINDS + 1> counts_;
};

// The command words: replay or exercise, options with a value, and words that a program has of its own.
struct Words {
    std::string task, config;
    uint64_t seed = 7;
    int64_t moments = 100, times = 1;
    std::vector<std::string> more;

    Words(int count, char **words, const char *usage) {
        const auto fail = [&] { std::fputs(usage, stderr), std::exit(2); };
        if (count < 2) fail();
        task = words[1];
        for (int place = 2; place < count; place++) {
            const std::string word = words[place];
            if (word != "--config" && word != "--seed" && word != "--moments" && word != "--times") {
                more.push_back(word);
                continue;
            }
            if (++place == count) fail();
            if (word == "--config") config = words[place];
            else (word == "--seed" ? reinterpret_cast<int64_t &>(seed) : word == "--moments" ? moments : times) = std::strtoll(words[place], nullptr, 10);
        }
        if (config.empty() || (task != "replay" && task != "exercise")) fail();
    }
};

// Runs a task with an engine that decides a moment into an answer.
template <typename Engine> int run(const Words &words, const Config &config, Engine &engine) {
    std::ios::sync_with_stdio(false);
    std::string out;
    Answer answer;
    const auto flush = [&] {
        const bool is_written = std::fwrite(out.data(), 1, out.size(), stdout) == out.size();
        out.clear();
        return is_written;
    };
    if (words.task == "replay") {
        States states(std::cin);
        for (Moment moment; states.next(moment);) {
            engine.decide(moment, answer);
            write_report(out, config, moment, answer);
            if (out.size() > 1 << 16 && !flush()) return 5;
        }
    } else {
        Generator draw(words.seed);
        Summary summary(config);
        for (int64_t time = 0; time < words.moments; time++) {
            const Moment moment = draw.moment(time);
            for (int64_t again = 0; again < words.times; again++) engine.decide(moment, answer);
            summary.add(answer);
        }
        summary.write(out, words.seed, words.moments);
    }
    return flush() && std::fflush(stdout) == 0 ? 0 : 5;
}

}  // namespace formats
