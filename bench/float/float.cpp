// Guidance in floating point, in the manner of NASA's published algorithms, to compare with: the DAIDALUS reference manual;
// Munoz and others, A Family of Well-Clear Boundary Models. It shares nothing with the engine, and is nobody's standard.
//
//   c++ -std=c++17 -O2 -o float bench/float/float.cpp
//   ./float replay --config examples/three_levels.toml [SWITCHES] < examples/encounter.states
//   ./float exercise --config examples/three_levels.toml --seed 7 --moments 1000 [--times N]
//
// It reads the program's configurations and states, and writes the same lines. Without a switch it works as NASA's guidance
// does. Each switch makes one thing as docs/FORMATS.md says, so that the cause of a difference can be found; `--formats` is all.
//
//   --all-fractions     manoeuvres are tested at every instant, and not at whole seconds; what is flown straight always is
//   --chords            a turn or a change of speed is flown in straight legs of one second, and not as an arc; so is the last
//                       second of a change of altitude with --no-ramps
//   --whole-headings    velocities along a track come from sines of whole degrees with four digits, cut to whole units
//   --first-second      a turn or a change of speed begins after one second, and not at once
//   --no-ramps          a change of altitude has its vertical rate at once, and does not gather and lose it by [vs] rate
//   --fixed-cylinder    the cylinder of recoveries keeps its size, and is not made smaller until a recovery is found
//   --touch X           the thresholds of distance and of time are wider by X of themselves, as by 1e-9, so that what touches one counts;
//                       if X is negative they are narrower, so that it does not
#include "../formats.hpp"

#include <algorithm>
#include <cmath>

using namespace formats;

namespace {

constexpr double PI = 3.14159265358979323846, KNOT = 1.0 / 3600;  // nautical miles a second
constexpr double FINE = 1.0 / 16;  // seconds: an arc that is tested at every instant is flown in chords of so many
constexpr double SHRINK = 0.8, NEAR_HORIZONTAL = 500 / 6076.115, NEAR_VERTICAL = 100;  // a near mid-air collision: 500 and 100 feet
constexpr double NEVER = 1e300;

struct Style {
    bool all_fractions = false, chords = false, whole_headings = false, first_second = false, no_ramps = false, fixed_cylinder = false;
    double touch = 0;

    explicit Style(const std::vector<std::string> &words) {
        for (size_t place = 0; place < words.size(); place++) {
            const std::string &word = words[place];
            const bool all = word == "--formats";
            if (word == "--touch" && place + 1 < words.size()) touch = std::strtod(words[++place].c_str(), nullptr);
            else if (!all && word != "--all-fractions" && word != "--chords" && word != "--whole-headings" && word != "--first-second" &&
                     word != "--no-ramps" && word != "--fixed-cylinder") std::fprintf(stderr, "float: no switch %s\n", word.c_str()), std::exit(2);
            all_fractions |= all || word == "--all-fractions";
            chords |= all || word == "--chords";
            whole_headings |= all || word == "--whole-headings";
            first_second |= all || word == "--first-second";
            no_ramps |= all || word == "--no-ramps";
            fixed_cylinder |= all || word == "--fixed-cylinder";
        }
    }
};

// A place (nautical miles, feet) or a velocity (the same a second).
struct Vector {
    double east, north, up;
};
Vector operator+(const Vector &a, const Vector &b) { return {a.east + b.east, a.north + b.north, a.up + b.up}; }
Vector operator-(const Vector &a, const Vector &b) { return {a.east - b.east, a.north - b.north, a.up - b.up}; }
Vector operator*(double t, const Vector &a) { return {t * a.east, t * a.north, t * a.up}; }
double dot(const Vector &a, const Vector &b) { return a.east * b.east + a.north * b.north; }

struct Interval {
    double first = 0, last = -1;
    bool is_empty() const { return first > last; }
    Interval within(const Interval &other) const { return {std::max(first, other.first), std::min(last, other.last)}; }
};

// A well-clear volume round an aircraft; places and velocities are the ownship's relative to it.
struct Volume {
    double dthr, zthr, tthr, tcoa, lookahead, alert;
    Model model;

    bool is_violated(const Vector &s, const Vector &v) const {
        const double height = std::abs(s.up);
        const bool is_low = height <= zthr || (s.up * v.up < 0 && height <= tcoa * std::abs(v.up));
        return is_low && is_violated_across(s, v);
    }

    // The first time from `from` to `upto` of a straight flight at which it is violated, or NEVER.
    double first_violation(const Vector &s, const Vector &v, double from, double upto) const {
        const Interval low = vertical(s.up, v.up).within({from, upto});
        if (low.is_empty()) return NEVER;
        double first = NEVER;
        for (const Interval &near : horizontal(s, v)) {
            const Interval both = near.within(low);
            if (!both.is_empty()) first = std::min(first, both.first);
        }
        return first;
    }

  private:
    bool is_violated_across(const Vector &s, const Vector &v) const {
        const double ss = dot(s, s), sv = dot(s, v), square = dthr * dthr;
        if (ss <= square) return true;
        if (sv >= 0) return false;
        const double vv = dot(v, v), cross = s.east * v.north - s.north * v.east, room = square * vv - cross * cross;
        if (room < 0) return false;
        switch (model) {
            case Model::Taumod: return (square - ss) >= tthr * sv;
            case Model::Tcpa: return -sv <= tthr * vv;
            case Model::Tau: return -ss >= tthr * sv;
            case Model::Tep: return -sv - std::sqrt(room) <= tthr * vv;
        }
        return false;
    }

    Interval vertical(double height, double climb) const {
        if (climb == 0) return std::abs(height) <= zthr ? Interval{-NEVER, NEVER} : Interval{};
        if (climb < 0) height = -height, climb = -climb;
        return {(-std::max(zthr, tcoa * climb) - height) / climb, (zthr - height) / climb};
    }

    // The times at which the horizontal part holds: one stretch round the closest approach, by tau up to two.
    std::array<Interval, 2> horizontal(const Vector &s, const Vector &v) const {
        const double ss = dot(s, s), sv = dot(s, v), vv = dot(v, v), square = dthr * dthr;
        if (vv == 0) return {ss <= square ? Interval{-NEVER, NEVER} : Interval{}, Interval{}};
        const double cross = s.east * v.north - s.north * v.east, room = square * vv - cross * cross;
        if (room < 0) return {Interval{}, Interval{}};
        const double closest = -sv / vv, half = std::sqrt(room) / vv;
        Interval near{closest - half, closest + half};
        switch (model) {
            case Model::Tcpa: near.first = std::min(near.first, closest - tthr); break;
            case Model::Tep: near.first -= tthr; break;
            case Model::Taumod: near.first = std::min(near.first, quadratic(vv, 2 * sv + tthr * vv, ss + tthr * sv - square).first); break;
            case Model::Tau: {
                Interval soon = quadratic(vv, 2 * sv + tthr * vv, ss + tthr * sv);
                if (!soon.is_empty()) soon.last = std::min(soon.last, closest);
                return {near, soon};
            }
        }
        return {near, Interval{}};
    }

    // Where a t^2 + b t + c is at most 0; a is greater than 0.
    static Interval quadratic(double a, double b, double c) {
        const double root = b * b - 4 * a * c;
        if (root < 0) return {NEVER, -NEVER};
        return {(-b - std::sqrt(root)) / (2 * a), (-b + std::sqrt(root)) / (2 * a)};
    }
};

// A piece of a flight: from `begin` on for `seconds`, from a place with a velocity.
struct Piece {
    double begin, seconds;
    Vector place, velocity;
    bool is_waiting = false;  // the present flight before a manoeuvre: it is straight, so that it is tested at every instant
};

// How a candidate is flown: the first `shared` pieces of its side, pieces of its own, and from `end` on straight.
struct Flight {
    int side;
    size_t shared, own_begin, own_end;  // numbers of pieces
    double leave, end;                  // when it leaves its side, and when it flies straight on
    Vector place, velocity;
};

class Engine {
  public:
    Engine(const Config &config, const Style &style) : config_(config), style_(style) {
        const double wider = 1 + style.touch;
        for (const Level &l : config.levels)
            volumes_.push_back({l.dthr / 1000.0 * wider, l.zthr * wider, l.tthr * wider, l.tcoa * wider, static_cast<double>(l.lookahead), static_cast<double>(l.alert), l.model});
        for (const Volume &volume : volumes_) seconds_ = std::max({seconds_, volume.lookahead, volume.alert});
        for (int d = 0; d < 360; d++) sines_[d] = style.whole_headings ? std::round(10000 * std::sin(d * PI / 180)) / 10000 : std::sin(d * PI / 180);
    }

    void decide(const Moment &moment, Answer &answer) {
        moment_ = &moment;
        const Own &own = moment.own;
        begin_ = {own.x / 1000.0, own.y / 1000.0, static_cast<double>(own.alt)};
        present_ = along(static_cast<double>(own.trk), static_cast<double>(own.gs), own.vs / 60.0);
        there_.clear(), their_.clear();
        for (const Traffic &it : moment.traffic) {
            their_.push_back({it.vx / 10.0 * KNOT, it.vy / 10.0 * KNOT, it.vs / 60.0});
            there_.push_back(Vector{it.x / 1000.0, it.y / 1000.0, static_cast<double>(it.alt)} + static_cast<double>(it.age) * their_.back());
        }
        answer.alerts.assign(moment.traffic.size(), Alert{});
        kept_until_ = NEVER;
        for (size_t place = 0; place < there_.size(); place++) alert(place, answer);
        answer.is_kept = kept_until_ == NEVER;
        for (int kind = 0; kind < KINDS; kind++) {
            make_flights(kind, 0);
            answer.last[kind].reset(), answer.recovery[kind].reset();
            answer.levels[kind].assign(config_.values[kind].size(), 0);
            for (size_t place = 0; place < there_.size(); place++) raise(place, answer.levels[kind]);
        }
        for (int kind = 0; kind < KINDS && config_.recovery; kind++)
            if (is_closed(config_, moment, answer, kind)) answer.recovery[kind] = recovery(kind);
        for (int kind = 0; kind < KINDS && config_.last_times && !answer.is_kept; kind++) answer.last[kind] = last_time(kind);
    }

  private:
    // The velocity along a track (degrees) at a ground speed (0.1 knot).
    Vector along(double track, double speed, double climb) const {
        const double whole = std::floor(track);
        if (!style_.whole_headings && whole != track)
            return {speed / 10 * KNOT * std::sin(track * PI / 180), speed / 10 * KNOT * std::cos(track * PI / 180), climb};
        const int d = ((static_cast<int>(whole) % 360) + 360) % 360;
        double east = speed * sines_[d], north = speed * sines_[(450 - d) % 360];
        if (style_.whole_headings) east = cut(east), north = cut(north);
        return {east / 10 * KNOT, north / 10 * KNOT, climb};
    }
    static double cut(double value) { return std::trunc(value + std::copysign(1e-6, value)); }

    void alert(size_t place, Answer &answer) {
        const Vector s = begin_ - there_[place], v = present_ - their_[place];
        Alert &it = answer.alerts[place];
        for (size_t l = volumes_.size(); l >= 1; l--) {
            const Volume &volume = volumes_[l - 1];
            if (it.now == 0 && volume.is_violated(s, v)) it.now = static_cast<int>(l);
            if (it.level == 0) {
                const double first = volume.first_violation(s, v, 0, volume.alert);
                if (first != NEVER) it.level = static_cast<int>(l), it.first = std::max<int64_t>(0, static_cast<int64_t>(std::ceil(first)) - 1);
            }
            if (static_cast<int>(l) >= config_.resolve) kept_until_ = std::min(kept_until_, volume.first_violation(s, v, 0, volume.lookahead));
        }
    }

    // Raises the levels of a kind's candidates by one aircraft.
    void raise(size_t other, std::vector<uint8_t> &shown) const {
        for (size_t l = 1; l <= volumes_.size(); l++) {
            const Volume &volume = volumes_[l - 1];
            std::array<size_t, 2> first{};
            for (int side = 0; side < 2; side++) first[side] = first_met(sides_[side], other, volume, 0);
            for (size_t c = 0; c < flights_.size(); c++) {
                if (shown[c] >= l) continue;
                const Flight &it = flights_[c];
                if (first[it.side] < it.shared || meets_rest(it, other, volume, 0)) shown[c] = static_cast<uint8_t>(l);
            }
        }
    }

    // The first piece that meets an aircraft after second `from`, or the number of pieces.
    size_t first_met(const std::vector<Piece> &pieces, size_t other, const Volume &volume, double from) const {
        size_t place = 0;
        while (place < pieces.size() && !meets(pieces[place], other, volume, from)) place++;
        return place;
    }

    // A piece of a manoeuvre is tested at its beginning, or at every instant.
    bool meets(const Piece &piece, size_t other, const Volume &volume, double from) const {
        if (piece.begin >= volume.lookahead || piece.begin + piece.seconds <= from) return false;
        const Vector s = piece.place - (there_[other] + piece.begin * their_[other]), v = piece.velocity - their_[other];
        if (!style_.all_fractions && !piece.is_waiting) return piece.begin >= from && volume.is_violated(s, v);
        return volume.first_violation(s, v, std::max(from - piece.begin, 0.0), std::min(piece.seconds, volume.lookahead - piece.begin)) != NEVER;
    }

    bool meets_rest(const Flight &it, size_t other, const Volume &volume, double from) const {
        for (size_t place = it.own_begin; place < it.own_end; place++)
            if (meets(own_[place], other, volume, from)) return true;
        if (it.end >= volume.lookahead) return false;
        const Vector s = it.place - (there_[other] + it.end * their_[other]), v = it.velocity - their_[other];
        return volume.first_violation(s, v, std::max(from - it.end, 0.0), volume.lookahead - it.end) != NEVER;
    }

    // Whether a flight meets no aircraft at a level from `resolve` up after second `from`.
    bool is_open(const Flight &it, int64_t from) {
        if (first_closed(it.side, from) < it.shared) return false;
        const auto after = static_cast<double>(from);
        for (size_t l = config_.resolve - 1; l < volumes_.size(); l++)
            for (size_t other = 0; other < there_.size() && after < volumes_[l].lookahead; other++)
                if (meets_rest(it, other, volumes_[l], after)) return false;
        return true;
    }

    // The first piece of a side after second `from`, a whole one, that meets any aircraft at a level from `resolve` up. All flights of the
    // side share it, and what was found once is kept.
    size_t first_closed(int side, int64_t from) {
        auto &known = first_closed_[side];
        if (known.size() <= static_cast<size_t>(from)) known.resize(from + 1);
        if (!known[from]) {
            const auto &pieces = sides_[side];
            size_t place = 0;
            while (place < pieces.size() && (pieces[place].begin + pieces[place].seconds <= static_cast<double>(from) || !is_closed_piece(side, place))) place++;
            known[from] = place;
        }
        return *known[from];
    }

    bool is_closed_piece(int side, size_t place) {
        auto &known = closed_[side];
        known.resize(sides_[side].size());
        if (!known[place]) {
            known[place] = false;
            for (size_t l = config_.resolve - 1; l < volumes_.size() && !*known[place]; l++)
                for (size_t other = 0; other < there_.size() && !*known[place]; other++) known[place] = meets(sides_[side][place], other, volumes_[l], 0);
        }
        return *known[place];
    }

    // The flights of a kind's candidates, after `wait` seconds of the present one.
    void make_flights(int kind, double wait) {
        flights_.clear(), own_.clear();
        for (auto &side : sides_) side.clear();
        for (int side = 0; side < 2; side++) first_closed_[side].clear(), closed_[side].clear();
        const Vector begin = begin_ + wait * present_;
        if (wait > 0)
            for (auto &side : sides_) side.push_back({0, wait, begin_, present_, true});
        std::array<double, 2> most{};
        for (const int64_t value : config_.values[kind]) {
            const double right = static_cast<double>((value - moment_->own.trk + 360) % 360);
            const double now = kind == Altitude ? begin.up : static_cast<double>(moment_->present(kind));
            const int side = kind == Track ? right <= 180 : value > now;
            const double way = kind == Track ? std::min(right, 360 - right) : std::abs(value - now);
            flights_.push_back(kind == Altitude ? level_change(side, way, value, wait, begin) : change(kind, side, way, value, wait, begin));
            most[side] = std::max(most[side], flights_.back().leave);
        }
        for (int side = 0; side < 2; side++) make_side(kind, side, std::min(most[side], seconds_), wait, begin);
        for (Flight &it : flights_) {
            const double end = it.leave;
            const auto &pieces = sides_[it.side];
            it.shared = std::lower_bound(pieces.begin(), pieces.end(), end - 1e-9, [](const Piece &piece, double at) { return piece.begin < at; }) - pieces.begin();
            if (style_.chords && kind != Altitude && it.shared > 0 && end < seconds_) {  // a leg is straight: it ends where its velocity leads
                const Piece &last = pieces[it.shared - 1];
                it.place = last.place + last.seconds * last.velocity;
            }
        }
    }

    double step() const { return style_.all_fractions && !style_.chords ? FINE : 1; }

    void make_side(int kind, int side, double end, double wait, const Vector &begin) {
        Vector place = begin;
        const double step = this->step();
        for (double at = 0; at + wait < end - 1e-9; at += step) {
            Piece here = state(kind, side, at, begin);
            if (style_.chords && kind != Altitude) here.place = place, place = place + step * here.velocity;
            sides_[side].push_back({wait + at, step, here.place, here.velocity});
        }
    }

    // Seconds of a manoeuvre that are flown at `at`.
    double flown(double at) const { return style_.first_second ? std::max(at - 1, 0.0) : at; }

    // Place and velocity at a second of a manoeuvre that goes on to a side; of legs the velocity alone.
    Piece state(int kind, int side, double at, const Vector &begin) const {
        const double sign = side ? 1 : -1, rate = config_.rate[kind] * sign;
        if (kind == Altitude) return climb(side, at, begin);
        const Own &own = moment_->own;
        const auto trk = static_cast<double>(own.trk), gs = static_cast<double>(own.gs), vs = static_cast<double>(own.vs);
        if (style_.chords) return {at, 0, begin, changed(kind, rate * (style_.first_second ? at : at + 1))};
        const double t = flown(at), kept = at - t;
        if (kind == Track) {
            const double turn = rate * PI / 180, heading = trk * PI / 180, speed = gs / 10 * KNOT;
            const Vector way{speed / turn * (std::cos(heading) - std::cos(heading + turn * t)), speed / turn * (std::sin(heading + turn * t) - std::sin(heading)), vs / 60 * t};
            return {at, 0, begin + kept * present_ + way, t > 0 ? along(trk + rate * t, gs, vs / 60) : present_};
        }
        const Vector by = changed(kind, rate * t);
        return {at, 0, begin + kept * present_ + (t / 2) * (present_ + by), by};
    }

    // The present velocity with its track, ground speed or vertical speed changed by so much.
    Vector changed(int kind, double by) const {
        const Own &own = moment_->own;
        return along(own.trk + (kind == Track ? by : 0), own.gs + (kind == GroundSpeed ? by : 0), (own.vs + (kind == VerticalSpeed ? by : 0)) / 60.0);
    }
    Vector reached(int kind, int64_t value) const {
        const Own &own = moment_->own;
        return along(static_cast<double>(kind == Track ? value : own.trk), static_cast<double>(kind == GroundSpeed ? value : own.gs), (kind == VerticalSpeed ? value : own.vs) / 60.0);
    }

    // A turn or a change of speed by `way`.
    Flight change(int kind, int side, double way, int64_t value, double wait, const Vector &begin) const {
        const double seconds = way / static_cast<double>(config_.rate[kind]);
        double end = seconds == 0 ? 0 : style_.first_second ? seconds + 1 : seconds;
        if (style_.chords) end = seconds == 0 ? 0 : std::ceil(seconds - 1e-9) - (style_.first_second ? 0 : 1);
        Flight made{side, 0, 0, 0, wait + end, wait + end, begin, reached(kind, value)};
        if (!style_.chords && wait + end < seconds_ && end > 0) made.place = state(kind, side, end, begin).place;
        return made;
    }

    // The vertical speed toward a side that is gathered, and for how long it is.
    struct Ramp {
        double from, rate, gain, seconds;
    };
    Ramp ramp(int side) const {
        const double from = moment_->own.vs / 60.0 * (side ? 1 : -1), rate = config_.rate[Altitude] / 60.0, gain = config_.rate[VerticalSpeed] / 60.0;
        return {from, rate, gain, style_.no_ramps ? 0 : std::abs(rate - from) / gain};
    }

    // A climb or descent that goes on.
    Piece climb(int side, double at, const Vector &begin) const {
        const Ramp it = ramp(side);
        const double gathered = std::min(at, it.seconds), sign = side ? 1 : -1;
        const double speed = gathered < it.seconds ? it.from + std::copysign(it.gain, it.rate - it.from) * gathered : it.rate;
        const double height = (style_.no_ramps ? 0 : gathered * (it.from + speed) / 2) + (at - gathered) * it.rate;
        return {at, 0, {begin.east + at * present_.east, begin.north + at * present_.north, begin.up + sign * height}, {present_.east, present_.north, sign * speed}};
    }

    // A change of altitude by `way`: it ends at once, or loses its vertical speed before.
    Flight level_change(int side, double way, int64_t value, double wait, const Vector &begin) {
        const Ramp it = ramp(side);
        const Vector level{present_.east, present_.north, 0};
        const auto at = [&](double seconds, double up) { return Vector{begin.east + seconds * present_.east, begin.north + seconds * present_.north, up}; };
        if (style_.no_ramps) {
            const double end = way / it.rate;
            Flight made{side, 0, own_.size(), own_.size(), wait + end, wait + end, at(end, static_cast<double>(value)), level};
            const double whole = std::floor(end + 1e-9), rest = (end - whole) * it.rate, sign = side ? 1 : -1;
            if (style_.chords && rest > 1e-9) {  // the last second is one leg too, with what is left as its vertical speed
                own_.push_back({wait + whole, 1, at(whole, value - sign * rest), {level.east, level.north, sign * rest}});
                made.own_end = own_.size(), made.leave = wait + whole;
                made.end = wait + whole + 1, made.place = at(whole + 1, static_cast<double>(value));
            }
            return made;
        }
        const double gathering = it.seconds * (it.from + it.rate) / 2, stopping = it.rate * it.rate / (2 * it.gain);
        double leave, speed;
        if (gathering + stopping <= way) {
            leave = it.seconds + (way - gathering - stopping) / it.rate, speed = it.rate;
        } else {
            speed = std::sqrt(std::max(0.0, (2 * it.gain * way + it.from * std::abs(it.from)) / 2));
            leave = std::max(0.0, (speed - it.from) / it.gain), speed = std::max(speed, it.from);
        }
        const double lost = std::max(0.0, speed) / it.gain, sign = side ? 1 : -1;
        Flight made{side, 0, own_.size(), 0, wait + leave, wait + leave + lost, at(leave + lost, static_cast<double>(value)), level};
        for (double second = 0; second < lost && wait + leave + second < seconds_; second += step()) {
            const double left = lost - second, now = it.gain * left;
            own_.push_back({wait + leave + second, std::min(step(), left), at(leave + second, value - sign * now * left / 2), {level.east, level.north, sign * now}});
        }
        made.own_end = own_.size();
        return made;
    }

    std::optional<int64_t> last_time(int kind) {
        std::optional<int64_t> found;
        const int64_t kept = std::max<int64_t>(static_cast<int64_t>(std::ceil(kept_until_)) - 1, 0);  // if for longer, nothing is open
        for (int64_t wait = std::min(config_.horizon() - 1, kept); wait >= 0 && !found; wait--) {
            make_flights(kind, static_cast<double>(wait));
            if (std::any_of(flights_.begin(), flights_.end(), [&](const Flight &it) { return is_open(it, 0); })) found = wait;
        }
        return found;
    }

    // The recovery with the cylinder as it is given; where there is none, with smaller ones down to a near mid-air collision.
    std::optional<Recovery> recovery(int kind) {
        make_flights(kind, 0);
        const double wider = 1 + style_.touch;
        double across = config_.hdist / 1000.0 * wider, above = static_cast<double>(config_.vdist) * wider;
        auto found = recovery_outside(kind, across, above);
        while (!found && !style_.fixed_cylinder && (across > NEAR_HORIZONTAL || above > NEAR_VERTICAL)) {
            across = std::max(across * SHRINK, std::min(across, NEAR_HORIZONTAL)), above = std::max(above * SHRINK, std::min(above, NEAR_VERTICAL));
            found = recovery_outside(kind, across, above);
        }
        return found;
    }

    std::optional<Recovery> recovery_outside(int kind, double across, double above) {
        const auto horizon = static_cast<double>(config_.horizon());
        const Volume cylinder{across, above, 0, 0, horizon, 0, Model::Taumod};
        std::array<size_t, 2> first{};  // the first piece of each side that meets a cylinder
        for (int side = 0; side < 2; side++) {
            first[side] = sides_[side].size();
            for (size_t other = 0; other < there_.size(); other++) first[side] = std::min(first[side], first_met(sides_[side], other, cylinder, 0));
        }
        std::optional<Recovery> best;
        for (size_t c = 0; c < flights_.size(); c++) {
            const int64_t value = config_.values[kind][c], now = moment_->present(kind);
            const Flight &it = flights_[c];
            bool is_clear = first[it.side] >= it.shared;
            for (size_t other = 0; other < there_.size() && is_clear; other++) is_clear = !meets_rest(it, other, cylinder, 0);
            const int64_t after = is_clear ? clear_from(it, best ? best->after : config_.horizon() - 1) : 0;
            if (after && (!best || after < best->after || (after == best->after && place_of(config_, kind, now, value) < place_of(config_, kind, now, best->value))))
                best = Recovery{after, value};
        }
        return best;
    }

    // The least second from 1 to `most` from which on the flight is open, or 0.
    int64_t clear_from(const Flight &it, int64_t most) {
        if (most < 1 || !is_open(it, most)) return 0;
        int64_t low = 1, high = most;
        while (low < high) {
            const int64_t middle = (low + high) / 2;
            if (is_open(it, middle)) high = middle;
            else low = middle + 1;
        }
        return low;
    }

    const Config &config_;
    const Style style_;
    std::vector<Volume> volumes_;
    double seconds_ = 0;
    std::array<double, 360> sines_{};
    const Moment *moment_ = nullptr;
    Vector begin_{}, present_{};
    double kept_until_ = NEVER;  // when the present flight first violates a level from `resolve` up, within its lookahead
    std::vector<Vector> there_, their_;  // the aircraft now, and their velocities
    std::array<std::vector<Piece>, 2> sides_;
    std::array<std::vector<std::optional<size_t>>, 2> first_closed_;  // of each side, by second, and by piece: what was found already
    std::array<std::vector<std::optional<bool>>, 2> closed_;
    std::vector<Flight> flights_;
    std::vector<Piece> own_;  // the pieces that flights have of their own
};

}  // namespace

int main(int count, char **given) {
    const Words words(count, given, "usage: float replay --config FILE [SWITCHES] | exercise --config FILE --seed N --moments M [--times N] [SWITCHES]\n");
    const Config config = read_config(words.config);
    Engine engine(config, Style(words.more));
    return run(words, config, engine);
}
