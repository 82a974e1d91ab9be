// An exact program without proofs, written for speed: the bound that the proved one is compared with.
//
//   c++ -std=c++17 -O2 -o exact bench/exact/exact.cpp
//   ./exact replay --config examples/three_levels.toml < examples/encounter.states
//   ./exact exercise --config examples/three_levels.toml --seed 7 --moments 1000 [--times N]
//
// It writes the bytes that the program writes of states of which no line is refused. The decision of a leg is that of
// docs/DETECTOR.md, in whole numbers; the flights are those of docs/FORMULAS.md. What makes it fast:
// - The candidates of a side of a kind fly the same legs, its trunk, until each stops turning or speeding up, and straight on from
//   there. So a trunk is walked once, as far as anybody asks, and a candidate adds one straight leg.
// - Those that fly on along the trunk are all that are farther away than some value. So sets of candidates are bits, and where the
//   trunk meets an aircraft all of them are marked at once; no candidate is looked at that is marked already.
// - Tracks and ground speeds leave the height alone, vertical speeds and altitudes the way across. What is the same for all
//   candidates of a kind is asked first: an aircraft that never comes near in height needs no track at all.
// - Where each level's volume lies within the one before, a candidate that misses one misses all later ones, and a trunk is walked
//   on from where it met the one before.
// - An aircraft that is far away can't be met for some seconds, whatever is flown: these legs of a trunk are passed over.
// - No decision allocates memory once the engine has seen as many aircraft.
#include "../formats.hpp"

#include <algorithm>
#include <cmath>

using namespace formats;

namespace {

using Wide = __int128;
constexpr int64_t MIL = 36, FOOT = 60;  // units in 0.001 nautical mile and in a foot; a speed is in units a second

// The sines of whole degrees, with four digits; the cosine of d is that of 90 + d.
const std::array<int64_t, 450> SINES = [] {
    std::array<int64_t, 450> made{};
    for (int d = 0; d < 450; d++) made[d] = std::llround(10000 * std::sin(d * 3.14159265358979323846 / 180));
    return made;
}();

// The whole part of a quotient, of a number from 0 to below 2^52: there a quotient is never rounded up to a whole number. (Processors
// divide such numbers faster than whole ones of 64 bits.)
inline int64_t quotient(int64_t number, int64_t by) { return static_cast<int64_t>(static_cast<double>(number) / static_cast<double>(by)); }

struct Velocity {
    int64_t east, north, up;
};
struct Place {
    int64_t east, north, up;
};

inline Place moved(const Place &place, const Velocity &by, int64_t seconds) {
    return {place.east + seconds * by.east, place.north + seconds * by.north, place.up + seconds * by.up};
}

inline Velocity along(int64_t track, int64_t speed, int64_t climb) {
    return {speed * SINES[track] / 10000, speed * SINES[track + 90] / 10000, climb};
}

struct Volume {
    int64_t dthr, zthr, tthr, tcoa, lookahead, alert;
    Model model;
};

// The times of a leg at which the vertical part holds: from first/d to last/d.
struct Window {
    int64_t first, last, d;
};

inline bool window_of(int64_t up, int64_t climb, int64_t seconds, const Volume &volume, Window &window) {
    if (climb == 0) {
        window = {0, seconds, 1};
        return std::abs(up) <= volume.zthr;
    }
    if (climb < 0) up = -up, climb = -climb;
    window.first = std::max<int64_t>(-std::max(volume.zthr, volume.tcoa * climb) - up, 0);
    window.last = std::min(volume.zthr - up, seconds * climb);
    window.d = climb;
    return window.first <= window.last;
}

[[gnu::always_inline]] inline bool is_far(int64_t begin, int64_t end, int64_t most) { return std::min(begin, end) > most || std::max(begin, end) < -most; }

// Whether the horizontal part holds at some time of a window: the one nearest to the closest approach decides, and by tau also
// the one nearest to the middle of the times at which tau is small.
class Across {
  public:
    Across(int64_t x, int64_t y, int64_t vx, int64_t vy, const Volume &volume)
        : volume_(&volume), ss_(x * x + y * y), sv_(x * vx + y * vy), vv_(vx * vx + vy * vy), cross_(x * vy - y * vx), square_(volume.dthr * volume.dthr) {
        margin_ = Wide(square_) * vv_ - Wide(cross_) * cross_;
    }
    // Whole seconds, rounded outward, outside of which the horizontal part does not hold.
    Window seconds_near(int64_t upto) const {
        if (vv_ == 0) return {0, upto, 1};
        const double closest = -static_cast<double>(sv_) / static_cast<double>(vv_), half = std::sqrt(static_cast<double>(margin_)) / static_cast<double>(vv_);
        const double first = closest - half - static_cast<double>(volume_->tthr) - 1, last = closest + half + 1;
        return {std::max<int64_t>(0, static_cast<int64_t>(std::max(first, -1.0))), static_cast<int64_t>(std::min(std::max(last, -1.0), static_cast<double>(upto))), 1};
    }
    bool comes_near() const { return vv_ == 0 ? ss_ <= square_ : margin_ >= 0; }
    bool holds_within(const Window &w) const {
        if (!comes_near()) return false;
        if (vv_ == 0) return true;
        const int64_t first = w.d * sv_ + w.first * vv_, last = w.d * sv_ + w.last * vv_;
        if (first >= 0) return holds_at(first, w.d);
        if (last > 0) return true;  // the closest approach lies within
        if (holds_at(last, w.d)) return true;
        return volume_->model == Model::Tau && last < 0 && tau_before(w, first, last);
    }

  private:
    bool holds_at(int64_t w, int64_t d) const {
        const Wide room = Wide(d) * d * margin_;
        if (w >= 0) return Wide(w) * w <= room;
        const int64_t ahead = volume_->tthr * d * vv_;
        switch (volume_->model) {
            case Model::Taumod: return Wide(w) * (w + Wide(ahead)) <= room;
            case Model::Tcpa: return -w <= ahead || Wide(w) * w <= room;
            case Model::Tep: return w + ahead >= 0 || Wide(w + ahead) * (w + ahead) <= room;
            case Model::Tau: return Wide(w) * w <= room || tau_at(w, d);
        }
        return false;
    }
    bool tau_at(int64_t w, int64_t d) const {
        const Wide side = Wide(d) * cross_;  // S.S + T (S.v) <= 0, times v.v and d d: W (W + T d v.v) <= -(d (s x v))^2
        return Wide(w) * (w + Wide(volume_->tthr) * d * vv_) <= -(side * side);
    }
    bool tau_before(const Window &w, int64_t first, int64_t last) const {
        const int64_t ahead = volume_->tthr * w.d * vv_;
        if (2 * first + ahead >= 0) return tau_at(first, w.d);
        if (2 * last + ahead <= 0) return false;  // that of the last time was looked at
        return 2 * std::abs(cross_) <= volume_->tthr * vv_;
    }
    const Volume *volume_;
    int64_t ss_, sv_, vv_, cross_, square_;
    Wide margin_ = 0;
};

[[gnu::always_inline]] inline bool is_far_across(const Place &place, const Velocity &by, int64_t seconds, const Volume &volume) {
    const int64_t on = seconds + volume.tthr;
    return is_far(place.east, place.east + on * by.east, volume.dthr) || is_far(place.north, place.north + on * by.north, volume.dthr);
}

// Whether a relative leg violates a volume at some time of it.
bool hits(const Place &place, const Velocity &by, int64_t seconds, const Volume &volume) {
    Window window;
    return !is_far_across(place, by, seconds, volume) && window_of(place.up, by.up, seconds, volume, window) &&
           Across(place.east, place.north, by.east, by.north, volume).holds_within(window);
}

// A set of candidates of a kind, by their numbers from 0 to before 64 * WORDS.
template <size_t WORDS> class SetOf {
  public:
    void add(int64_t number) { words_[number / 64] |= uint64_t{1} << number % 64; }
    // Those from `first` to before `end`.
    void add(int64_t first, int64_t end) {
        for (int64_t word = first / 64; first < end; word++, first = 64 * word) {
            const int64_t count = std::min(end - first, 64 * (word + 1) - first);
            words_[word] |= ~uint64_t{0} >> (64 - count) << first % 64;
        }
    }
    void add(const SetOf &other) {
        for (size_t word = 0; word < WORDS; word++) words_[word] |= other.words_[word];
    }
    SetOf both(const SetOf &other) const {
        SetOf made;
        for (size_t word = 0; word < WORDS; word++) made.words_[word] = words_[word] & other.words_[word];
        return made;
    }
    SetOf without(const SetOf &other) const {
        SetOf made;
        for (size_t word = 0; word < WORDS; word++) made.words_[word] = words_[word] & ~other.words_[word];
        return made;
    }
    bool is_empty() const {
        uint64_t all = 0;
        for (const uint64_t word : words_) all |= word;
        return all == 0;
    }
    template <typename Act> void each(Act act) const {
        for (size_t word = 0; word < WORDS; word++)
            for (uint64_t left = words_[word]; left; left &= left - 1) act(64 * word + __builtin_ctzll(left));
    }
    // The runs of numbers, one after the other: the first, and the one behind the last.
    template <typename Act> void each_run(Act act) const {
        for (size_t at = next(0, 0); at < 64 * WORDS;) {
            const size_t end = next(at, ~uint64_t{0});
            act(at, end);
            at = next(end, 0);
        }
    }

  private:
    // The least number from `at` on that is in the set, or with `flip` one that is not; else that behind all.
    size_t next(size_t at, uint64_t flip) const {
        for (size_t word = at / 64; word < WORDS; word++, at = 64 * word) {
            const uint64_t left = (words_[word] ^ flip) >> at % 64;
            if (left) return at + __builtin_ctzll(left);
        }
        return 64 * WORDS;
    }
    std::array<uint64_t, WORDS> words_{};
};

// How a candidate flies on: `partial` for a second, of altitudes that are no whole number of legs away, and then `rest`.
struct Rest {
    bool has_partial;
    Velocity partial, rest;
};

// A leg of a second: where it begins, and its velocity.
struct Leg {
    Place place;
    Velocity by;
};

// The flight that all candidates of a side share, leg after leg, and how many of them the farthest candidate flies.
struct Trunk {
    int64_t most = 0, made = 0;
    std::vector<Leg> legs;  // so many of them are made; the next one has its place, and no velocity yet
};

// How a candidate flies: along the trunk of a side for so many legs, and then on its own.
struct Flight {
    int side;
    int64_t legs;
};

// What is known of an aircraft and a level while the present flight goes on.
struct Seen {
    bool is_near_height, is_near_across;
    Window heights, seconds;  // when heights are near; whole seconds outside of which places are not
    Across across;
};

template <size_t WORDS> class Engine {
    using Set = SetOf<WORDS>;

  public:
    explicit Engine(const Config &config) : config_(config) {
        for (const Level &l : config.levels) volumes_.push_back({MIL * l.dthr, FOOT * l.zthr, l.tthr, l.tcoa, l.lookahead, l.alert, l.model});
        for (size_t l = 1; l < volumes_.size(); l++) nested_.push_back(is_within(volumes_[l], volumes_[l - 1]));
        for (size_t l = config.resolve - 1; l < volumes_.size(); l++)
            if (static_cast<int>(l) == config.resolve - 1 || !nested_[l - 1]) closing_.push_back(volumes_[l]);
        for (const Volume &volume : volumes_) {
            seconds_ = std::max({seconds_, volume.lookahead, volume.alert});
            seen_.push_back({false, false, {}, {}, Across(0, 0, 0, 0, volume)});
        }
        cylinder_ = {MIL * config.hdist, FOOT * config.vdist, 0, 0, config.horizon(), 0, Model::Taumod};
        for (int kind = 0; kind < KINDS; kind++) {
            const auto &values = config.values[kind];
            scale_[kind] = kind == Altitude ? FOOT : 1;
            step_[kind] = values.size() > 1 ? scale_[kind] * (values[1] - values[0]) : 1;
            all_[kind].add(0, static_cast<int64_t>(values.size()));
            raised_[kind].resize(volumes_.size());
            for (Trunk &trunk : trunks_[kind]) trunk.legs.resize(seconds_ + 1);
        }
    }

    void decide(const Moment &moment, Answer &answer) {
        moment_ = &moment;
        const Own &own = moment.own;
        present_ = along(own.trk, own.gs, own.vs);
        begin_ = {MIL * own.x, MIL * own.y, FOOT * own.alt};
        answer.alerts.assign(moment.traffic.size(), Alert{});
        answer.is_kept = true;
        for (auto &last : answer.last) last.reset();
        for (auto &found : answer.recovery) found.reset();
        each_kind([&](auto kind) {
            begin_flights<kind>(0);
            std::fill(raised_[kind].begin(), raised_[kind].end(), Set());
        });
        others_.clear();
        for (const Traffic &it : moment.traffic) {
            const Velocity by{it.vx, it.vy, it.vs};
            others_.push_back({moved({MIL * it.x, MIL * it.y, FOOT * it.alt}, by, it.age), by});
        }
        for (size_t place = 0; place < others_.size(); place++) against(others_[place], answer, answer.alerts[place]);
        for (int kind = 0; kind < KINDS; kind++) {
            auto &levels = answer.levels[kind];
            levels.assign(config_.values[kind].size(), 0);
            for (size_t l = 1; l <= volumes_.size(); l++)
                raised_[kind][l - 1].each_run([&](size_t first, size_t end) { std::fill(levels.begin() + first, levels.begin() + end, static_cast<uint8_t>(l)); });
        }
        each_kind([&](auto kind) {
            if (config_.last_times && !answer.is_kept) answer.last[kind] = last_time<kind>();
            if (config_.recovery && is_closed(config_, moment, answer, kind)) answer.recovery[kind] = recovery<kind>();
        });
    }

  private:
    // By equal lookahead or less, thresholds that are no greater, and a model whose volume lies within.
    static bool is_within(const Volume &in, const Volume &out) {
        const auto order = [](Model model) { return model == Model::Tau ? 0 : model == Model::Tcpa ? 1 : model == Model::Taumod ? 2 : 3; };
        return in.dthr <= out.dthr && in.zthr <= out.zthr && in.tthr <= out.tthr && in.tcoa <= out.tcoa && in.lookahead <= out.lookahead && order(in.model) <= order(out.model);
    }

    // (These are put in place where they are called: so places and velocities stay in registers, which saves a third of the time.)
    [[gnu::always_inline]] static Place relative(const Place &place, const Place &other) { return {place.east - other.east, place.north - other.north, place.up - other.up}; }
    [[gnu::always_inline]] static Velocity relative(const Velocity &one, const Velocity &other) { return {one.east - other.east, one.north - other.north, one.up - other.up}; }

    // A leg of the ownship that begins at a second, relative to an aircraft that is `other` at second 0.
    [[gnu::always_inline]] static Place relative(const Place &place, const Leg &other, int64_t second) { return relative(place, moved(other.place, other.by, second)); }

    void against(const Leg &other, Answer &answer, Alert &alert) {
        const Place place = relative(begin_, other.place);
        const Velocity by = relative(present_, other.by);
        for (size_t l = volumes_.size(); l >= 1; l--) {
            const Volume &volume = volumes_[l - 1];
            Seen &seen = seen_[l - 1];
            seen.is_near_height = window_of(place.up, by.up, volume.lookahead, volume, seen.heights);
            seen.is_near_across = !is_far_across(place, by, volume.lookahead, volume);
            if (seen.is_near_across) {
                seen.across = Across(place.east, place.north, by.east, by.north, volume);
                seen.is_near_across = seen.across.holds_within({0, volume.lookahead, 1});
            }
            if (seen.is_near_across) seen.seconds = seen.across.seconds_near(volume.lookahead);
            const bool is_near = seen.is_near_height && seen.is_near_across, may_alert = is_near || volume.alert > volume.lookahead;
            if (alert.level == 0 && may_alert && hits(place, by, volume.alert, volume)) alert.level = static_cast<int>(l), alert.first = first_second(place, by, volume);
            if (alert.now == 0 && is_near && hits_at_once(place, by, volume)) alert.now = static_cast<int>(l);
            if (static_cast<int>(l) >= config_.resolve && answer.is_kept) answer.is_kept = !is_near || !seen.across.holds_within(seen.heights);
        }
        each_kind([&](auto kind) { fly<kind>(place, other); });
    }

    // Does something with each kind. Kinds are known where the program is built: so each has its own code.
    template <typename Act> static void each_kind(Act act) {
        act(std::integral_constant<int, Track>()), act(std::integral_constant<int, GroundSpeed>());
        act(std::integral_constant<int, VerticalSpeed>()), act(std::integral_constant<int, Altitude>());
    }
    static constexpr bool keeps_height(int kind) { return kind == Track || kind == GroundSpeed; }

    static bool hits_at_once(const Place &place, const Velocity &by, const Volume &volume) {
        Window window;
        return window_of(place.up, by.up, 1, volume, window) && window.first == 0 && !is_far_across(place, by, 1, volume) &&
               Across(place.east, place.north, by.east, by.north, volume).holds_within({0, 0, 1});
    }

    // The least second whose leg violates, of a straight flight that does.
    static int64_t first_second(const Place &place, const Velocity &by, const Volume &volume) {
        int64_t low = 1, high = volume.alert;
        while (low < high) {
            const int64_t middle = (low + high) / 2;
            if (hits(place, by, middle, volume)) high = middle;
            else low = middle + 1;
        }
        return low - 1;
    }

    // Raises the levels of a kind's candidates by one aircraft, whose place at the beginning is known relative to it.
    template <int kind> void fly(const Place &place, const Leg &other) {
        Set met;  // at the level before: by this aircraft, or by another one, in which case this one is not asked
        std::array<int64_t, 2> trail{};  // of each trunk the leg before which it meets no volume of the level before
        for (size_t l = 1; l <= volumes_.size(); l++) {
            const Volume &volume = volumes_[l - 1];
            const Seen &seen = seen_[l - 1];
            if (l == 1 || !nested_[l - 2]) met = all_[kind], trail = {};
            const Set asked = met.without(raised_[kind][l - 1]);
            if (asked.is_empty()) continue;
            Set hit;
            if (keeps_height(kind) && seen.is_near_height && can_reach<kind>(place, other.by, volume, quotient(seen.heights.last, seen.heights.d) + 1)) {
                const Window &window = seen.heights;
                hit = met_of<kind>(volume, window, asked, other, trail, [&](int64_t second, int64_t seconds, const Place &from, const Velocity &by) __attribute__((always_inline)) {
                    const Window now{std::max<int64_t>(window.first - second * window.d, 0), std::min(window.last - second * window.d, seconds * window.d), window.d};
                    return now.first <= now.last && !is_far_across(from, by, seconds, volume) && Across(from.east, from.north, by.east, by.north, volume).holds_within(now);
                });
            } else if (!keeps_height(kind) && seen.is_near_across) {
                hit = met_of<kind>(volume, seen.seconds, asked, other, trail, [&](int64_t second, int64_t seconds, const Place &from, const Velocity &by) __attribute__((always_inline)) {
                    Window now;
                    if (!window_of(from.up, by.up, seconds, volume, now)) return false;
                    now.first += second * now.d, now.last += second * now.d;
                    return seen.across.holds_within(now);
                });
            } else {
                met = Set();
                continue;
            }
            for (size_t lower = 0; lower < l; lower++) raised_[kind][lower].add(hit);
            met = met.both(raised_[kind][l - 1]);
        }
    }

    // The candidates of those asked that meet an aircraft at a level, by a test of legs (second, seconds, place and velocity relative to
    // it). Outside of the window none does.
    template <int kind, typename Test>
    Set met_of(const Volume &volume, const Window &window, const Set &asked, const Leg &other, std::array<int64_t, 2> &trail, Test test) {
        // (a leg that ends as the window begins counts: at that instant it still has its own velocity)
        const int64_t last_leg = std::min(volume.lookahead, quotient(window.last, window.d) + 1), first_leg = quotient(std::max<int64_t>(window.first - 1, 0), window.d);
        Set hit;
        for (int side = 0; side < 2; side++) {
            Set left = asked.both(sides_[kind][side]);
            if (left.is_empty()) continue;
            const int64_t end = std::min(last_leg, trunks_[kind][side].most);
            make_legs<kind>(side, end);
            const int64_t k = first_met<kind>(side, std::max(first_leg, trail[side]), end, volume, other, test);
            trail[side] = k < end ? k : INT64_MAX;
            if (k < end) {
                const Set beyond = left.both(at_least<kind>(side, way_beyond<kind>(k)));
                hit.add(beyond), left = left.without(beyond);
            }
            left.without(at_least<kind>(side, way_beyond<kind>(last_leg - 1))).each([&](size_t c) {  // (they are on the trunk as the window ends)
                if (meets_rest<kind>(c, first_leg, last_leg, other, test)) hit.add(static_cast<int64_t>(c));
            });
        }
        return hit;
    }

    // The first leg of a trunk that meets an aircraft, from `k` to before `end`, or `end`.
    template <int kind, typename Test> int64_t first_met(int side, int64_t k, int64_t end, const Volume &volume, const Leg &other, Test test) {
        if (k >= end) return end;
        if (kind == Altitude) {  // one climb or descent: all of it, and then where it begins
            if (!test(k, end - k, relative(place_at<kind>(side, k), other, k), relative(velocity_at<kind>(side, k), other.by))) return end;
        }
        const int64_t speed = kind == Track ? moment_->own.gs : std::max(moment_->own.gs, config_.values[GroundSpeed].back());
        const double by_east = 1.0 / static_cast<double>(speed + std::abs(other.by.east) + 1), by_north = 1.0 / static_cast<double>(speed + std::abs(other.by.north) + 1);
        for (int64_t looked = 0; k < end;) {
            const Place at = relative(place_at<kind>(side, k), other, k);
            if (keeps_height(kind) && k >= looked) {  // for how many legs it can't come near enough, or after how many that may be asked again
                const double far = std::max(static_cast<double>(std::abs(at.east) - volume.dthr) * by_east, static_cast<double>(std::abs(at.north) - volume.dthr) * by_north);
                const auto passed = static_cast<int64_t>(far) - 1 - volume.tthr;
                looked = k + std::abs(passed) + (passed <= 0);
                if (passed > 0) {
                    k = looked;
                    continue;
                }
            }
            if (test(k, 1, at, relative(velocity_at<kind>(side, k), other.by))) return k;
            k++;
        }
        return end;
    }

    // Whether a candidate meets an aircraft after the legs that it shares.
    template <int kind, typename Test> bool meets_rest(size_t c, int64_t first_leg, int64_t last_leg, const Leg &other, Test test) {
        const Flight it = flight_of<kind>(c);
        int64_t from = it.legs;
        Place at = place_at<kind>(it.side, from);
        const Rest on = rest_of<kind>(c, it);
        if (on.has_partial) {
            if (test(from, 1, relative(at, other, from), relative(on.partial, other.by))) return true;
            at = moved(at, on.partial, 1), from++;
        }
        if (from >= last_leg) return false;
        const int64_t start = std::max(from, first_leg);
        return test(start, last_leg - start, relative(moved(at, on.rest, start - from), other, start), relative(on.rest, other.by));
    }

    // Whether any track or ground speed may bring the ownship within the thresholds across, by the second `upto` of heights that are near.
    template <int kind> bool can_reach(const Place &place, const Velocity &their, const Volume &volume, int64_t upto) const {
        const int64_t seconds = upto + volume.tthr;
        const Own &own = moment_->own;
        std::array<int64_t, 2> least{}, most{};
        if (kind == Track) {
            least = {-own.gs * seconds, -own.gs * seconds}, most = {own.gs * seconds, own.gs * seconds};
        } else {
            const Velocity top = along(own.trk, std::max(own.gs, std::min(config_.values[kind].back(), own.gs + config_.rate[kind] * seconds)), 0);
            least = {std::min<int64_t>(0, top.east * seconds), std::min<int64_t>(0, top.north * seconds)};
            most = {std::max<int64_t>(0, top.east * seconds), std::max<int64_t>(0, top.north * seconds)};
        }
        const auto can = [&](int64_t at, int64_t speed, int64_t low, int64_t high) {
            return at + low - std::max<int64_t>(0, speed * seconds) <= volume.dthr && at + high - std::min<int64_t>(0, speed * seconds) >= -volume.dthr;
        };
        return can(place.east, their.east, least[0], most[0]) && can(place.north, their.north, least[1], most[1]);
    }

    // The flights of a kind begin at second `wait`, where the present flight is then.
    template <int kind> void begin_flights(int64_t wait) {
        start_[kind] = moved(begin_, present_, wait);
        now_[kind] = kind == Altitude ? start_[kind].up : moment_->present(kind);
        const auto &values = config_.values[kind];
        for (int side = 0; side < 2; side++) {
            Trunk &trunk = trunks_[kind][side];
            const int64_t way = kind == Track ? 179 + side : side ? scale_[kind] * values.back() - now_[kind] : now_[kind] - scale_[kind] * values.front();
            trunk.most = way < 0 ? 0 : legs_of<kind>(way);
            trunk.made = 0, trunk.legs[0].place = start_[kind];
            sides_[kind][side] = at_least<kind>(side, 0);
        }
    }

    // How many legs of the trunk a candidate flies that is so far away: a last part of one counts, but of an altitude.
    template <int kind> int64_t legs_of(int64_t way) const {
        const int64_t rate = config_.rate[kind];
        return std::min(quotient(kind == Altitude ? way : way + rate - 1, rate), seconds_);
    }

    // The least way of candidates that fly leg k of the trunk.
    template <int kind> int64_t way_beyond(int64_t k) const { return kind == Altitude ? (k + 1) * config_.rate[kind] : k * config_.rate[kind] + 1; }

    // The candidates of a side that are so far away, or farther. To keep a track is a turn to the right, to keep anything else is down.
    template <int kind> Set at_least(int side, int64_t way) const {
        const auto count = static_cast<int64_t>(config_.values[kind].size());
        Set found;
        if (kind == Track) {
            way = std::max<int64_t>(way, 1 - side);
            const int64_t now = now_[kind] + 360, first = side ? now + way : now - 179, last = side ? now + 180 : now - way;
            const int64_t begin = quotient(first + step_[kind] - 1, step_[kind]), end = quotient(last, step_[kind]) + 1;
            for (int64_t turn = 0; turn < 3 * count; turn += count) found.add(std::max(begin - turn, int64_t{0}), std::min(end - turn, count));
            return found;
        }
        way = std::max<int64_t>(way, side);
        const int64_t least = scale_[kind] * config_.values[kind].front(), above = side ? now_[kind] + way - least : now_[kind] - way - least;
        if (side) found.add(above <= 0 ? 0 : quotient(above + step_[kind] - 1, step_[kind]), count);
        else if (above >= 0) found.add(0, std::min(quotient(above, step_[kind]) + 1, count));
        return found;
    }

    template <int kind> Flight flight_of(size_t c) const {
        int64_t way = scale_[kind] * config_.values[kind][c] - now_[kind];
        if (kind == Track) way += way <= -180 ? 360 : way > 180 ? -360 : 0;  // to the right where it is 180 at most
        return {kind == Track ? way >= 0 : way > 0, legs_of<kind>(std::abs(way))};
    }

    // Makes the legs of a trunk up to before `end`. (Those of vertical speeds and altitudes need not be made.)
    template <int kind> void make_legs(int side, int64_t end) {
        if (!keeps_height(kind)) return;
        Trunk &trunk = trunks_[kind][side];
        const Own &own = moment_->own;
        const int64_t rate = side ? config_.rate[kind] : -config_.rate[kind];
        int64_t value = (kind == Track ? own.trk : own.gs) + trunk.made * rate;
        if (kind == Track) value = ((value % 360) + 360) % 360;
        Leg *legs = trunk.legs.data();
        for (; trunk.made < end; trunk.made++) {
            Leg &leg = legs[trunk.made];
            leg.by = kind == Track ? along(value, own.gs, own.vs) : along(own.trk, value, own.vs);
            legs[trunk.made + 1].place = moved(leg.place, leg.by, 1);
            value += rate;
            if (kind == Track) value += value < 0 ? 360 : value >= 360 ? -360 : 0;
        }
    }

    // Where leg k of a trunk begins, and its velocity; the legs before it are made, for the velocity that leg too.
    template <int kind> Place place_at(int side, int64_t k) const {
        if (keeps_height(kind)) return trunks_[kind][side].legs[k].place;
        const Place &start = start_[kind];
        const int64_t rate = side ? config_.rate[kind] : -config_.rate[kind], up = kind == Altitude ? rate * k : k * present_.up + rate * (k * (k - 1) / 2);
        return {start.east + k * present_.east, start.north + k * present_.north, start.up + up};
    }
    template <int kind> Velocity velocity_at(int side, int64_t k) const {
        if (keeps_height(kind)) return trunks_[kind][side].legs[k].by;
        const int64_t rate = side ? config_.rate[kind] : -config_.rate[kind];
        return {present_.east, present_.north, kind == Altitude ? rate : present_.up + k * rate};
    }

    // How a candidate flies on after the legs that it shares.
    template <int kind> Rest rest_of(size_t c, const Flight &flight) const {
        const Own &own = moment_->own;
        const int64_t value = config_.values[kind][c];
        switch (kind) {
            case Track: return {false, {}, along(value, own.gs, own.vs)};
            case GroundSpeed: return {false, {}, along(own.trk, value, own.vs)};
            case VerticalSpeed: return {false, {}, {present_.east, present_.north, value}};
            default: {
                const int64_t left = FOOT * value - now_[kind] - flight.legs * config_.rate[Altitude] * (flight.side ? 1 : -1);
                return {left != 0, {present_.east, present_.north, left}, {present_.east, present_.north, 0}};
            }
        }
    }

    // Whether a leg violates a volume round any aircraft, or one of a level from `resolve` up, within its lookahead.
    bool violates(int64_t second, int64_t seconds, const Place &place, const Velocity &by, const Volume &volume) const {
        seconds = std::min(seconds, volume.lookahead - second);
        return seconds > 0 && std::any_of(others_.begin(), others_.end(), [&](const Leg &other) { return hits(relative(place, other, second), relative(by, other.by), seconds, volume); });
    }
    bool is_closed_leg(int64_t second, int64_t seconds, const Place &place, const Velocity &by) const {
        return std::any_of(closing_.begin(), closing_.end(), [&](const Volume &volume) { return violates(second, seconds, place, by, volume); });
    }

    // Whether some part of a candidate's flight after the legs that it shares is such a leg: a test of legs, from second `from` on. The
    // trunk begins at second `wait`.
    // (its trunk is made)
    template <int kind, typename Test> bool has_in_rest(size_t c, const Flight &flight, int64_t wait, int64_t from, Test test) {
        Place at = place_at<kind>(flight.side, flight.legs);
        const Rest on = rest_of<kind>(c, flight);
        int64_t second = wait + flight.legs;
        if (on.has_partial) {
            if (from <= second && test(second, int64_t{1}, at, on.partial)) return true;
            at = moved(at, on.partial, 1), second++;
        }
        const int64_t start = std::max(second, from);
        return test(start, std::max<int64_t>(seconds_ - start, 0), moved(at, on.rest, start - second), on.rest);
    }

    // The first leg of a trunk that such a test finds, or how many there are.
    template <int kind, typename Test> int64_t first_found(int side, int64_t wait, Test test) {
        const int64_t most = trunks_[kind][side].most;
        make_legs<kind>(side, most);
        for (int64_t k = 0; k < most && wait + k < seconds_; k++)
            if (test(wait + k, int64_t{1}, place_at<kind>(side, k), velocity_at<kind>(side, k))) return k;
        return most;
    }

    template <int kind> std::optional<int64_t> last_time() {
        const auto is_closed = [&](int64_t second, int64_t seconds, const Place &place, const Velocity &by) { return is_closed_leg(second, seconds, place, by); };
        std::optional<int64_t> found;
        for (int64_t wait = config_.horizon() - 1; wait >= 0 && !found; wait--) {
            if (wait > 0 && is_closed(0, wait, begin_, present_)) continue;
            begin_flights<kind>(wait);
            const std::array<int64_t, 2> first{first_found<kind>(0, wait, is_closed), first_found<kind>(1, wait, is_closed)};
            for (size_t c = 0; c < config_.values[kind].size() && !found; c++) {
                const Flight flight = flight_of<kind>(c);
                if (flight.legs <= first[flight.side] && !has_in_rest<kind>(c, flight, wait, 0, is_closed)) found = wait;
            }
        }
        begin_flights<kind>(0);
        return found;
    }

    // The least second from which on a candidate is clear, and the candidate that is named.
    template <int kind> std::optional<Recovery> recovery() {
        const auto is_near = [&](int64_t second, int64_t seconds, const Place &place, const Velocity &by) { return violates(second, seconds, place, by, cylinder_); };
        const auto is_closed = [&](int64_t second, int64_t seconds, const Place &place, const Velocity &by) { return is_closed_leg(second, seconds, place, by); };
        const std::array<int64_t, 2> first{first_found<kind>(0, 0, is_near), first_found<kind>(1, 0, is_near)};
        for (int side = 0; side < 2; side++) {  // of each trunk: from which second on so many legs of it are open
            open_from_[side].assign(1, 1);
            for (int64_t k = 0; k < trunks_[kind][side].most; k++)
                open_from_[side].push_back(is_closed(k, 1, place_at<kind>(side, k), velocity_at<kind>(side, k)) ? k + 1 : open_from_[side].back());
        }
        std::optional<Recovery> best;
        const int64_t now = moment_->present(kind);
        for (size_t c = 0; c < config_.values[kind].size(); c++) {
            const int64_t value = config_.values[kind][c];
            const Flight flight = flight_of<kind>(c);
            int64_t low = open_from_[flight.side][flight.legs], high = best ? best->after : config_.horizon() - 1;
            if (low > high || flight.legs > first[flight.side] || has_in_rest<kind>(c, flight, 0, 0, is_near)) continue;
            if (has_in_rest<kind>(c, flight, 0, low, is_closed)) {
                if (has_in_rest<kind>(c, flight, 0, high, is_closed)) continue;
                while (low + 1 < high) {  // what is open from one second on is so from each later one
                    const int64_t middle = (low + high) / 2;
                    (has_in_rest<kind>(c, flight, 0, middle, is_closed) ? low : high) = middle;
                }
                low = high;
            }
            if (!best || low < best->after || place_of(config_, kind, now, value) < place_of(config_, kind, now, best->value)) best = Recovery{low, value};
        }
        return best;
    }

    const Config &config_;
    std::vector<Volume> volumes_;
    std::vector<bool> nested_;  // whether each level's volume but the first lies within the one before
    std::vector<Volume> closing_;  // the volumes from `resolve` up that a candidate must miss: of nested ones the outer one
    Volume cylinder_{};
    int64_t seconds_ = 0;  // how far ahead anything is flown
    std::array<int64_t, KINDS> scale_{}, step_{};  // units in a value, and between two candidates
    std::array<Set, KINDS> all_;
    const Moment *moment_ = nullptr;
    Velocity present_{};
    Place begin_{};
    std::vector<Leg> others_;
    std::vector<Seen> seen_;  // of each level, for the aircraft that is looked at
    std::array<Place, KINDS> start_{};  // where the flights of a kind begin, and the value there
    std::array<int64_t, KINDS> now_{};
    std::array<std::array<Trunk, 2>, KINDS> trunks_;
    std::array<std::array<Set, 2>, KINDS> sides_;  // the candidates of each side
    std::array<std::vector<Set>, KINDS> raised_;  // of each level the candidates that are raised to it, or above
    std::array<std::vector<int64_t>, 2> open_from_;
};

}  // namespace

int main(int count, char **given) {
    const Words words(count, given, "usage: exact replay --config FILE | exercise --config FILE --seed N --moments M [--times N]\n");
    const Config config = read_config(words.config);
    size_t most = 0;
    for (const auto &values : config.values) most = std::max(most, values.size());
    if (most <= 128) {
        Engine<2> engine(config);
        return run(words, config, engine);
    }
    Engine<8> engine(config);  // a kind has at most 512 candidates
    return run(words, config, engine);
}
