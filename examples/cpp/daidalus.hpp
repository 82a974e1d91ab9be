// The engine for C++: thin classes over daidalus.h. What a call refuses is thrown as daidalus::Refused.
//
//     const daidalus::Config config(text);
//     const daidalus::Moment moment(config, 0, own, {amber, bravo});
//     moment.alert(0).level, moment.bands(DAA_TRACK), moment.resolution(DAA_TRACK, DAA_UPPER)
//
// Units and ranges are those of daidalus.h, and so are the structs. It needs C++11.
#ifndef DAIDALUS_HPP
#define DAIDALUS_HPP

#include "daidalus.h"

#include <cstdint>
#include <stdexcept>
#include <string>
#include <utility>
#include <vector>

namespace daidalus {

// What a call answered in place of DAA_OK. The text says what it means.
class Refused : public std::runtime_error {
  public:
    Refused(const char *call, int32_t answer) : std::runtime_error(std::string(call) + ": " + daa_text(answer)), answer(answer) {}
    const int32_t answer;
};

inline void check(const char *call, int32_t answer) {
    if (answer != DAA_OK) throw Refused(call, answer);
}

// Whether the archive is of the version of this header: else its structs may be others.
inline bool is_same_version() { return daa_version() == DAA_VERSION; }

// An accepted configuration.
class Config {
  public:
    // The configuration of a text of TOML. It takes memory, and stack (daidalus.h says how much).
    explicit Config(const std::string &text) {
        check("daa_read", daa_read(reinterpret_cast<const uint8_t *>(text.data()), text.size(), &numbers_));
    }

    // The configuration of these numbers.
    explicit Config(const daa_config &numbers) : numbers_(numbers) { check("daa_check", daa_check(&numbers_)); }

    const daa_config *numbers() const { return &numbers_; }

  private:
    daa_config numbers_ = {};
};

// A decided moment, and what may be asked of it.
class Moment {
  public:
    // Decides a moment. The time is the caller's number of it.
    Moment(const Config &config, uint32_t time, const daa_own &own, std::vector<daa_traffic> traffic)
        : config_(config), time_(time), own_(own), traffic_(std::move(traffic)) {
        check("daa_decide", daa_decide(config_.numbers(), time_, &own_, aircraft(), traffic_.size(), &board_));
    }

    // Adds the levels of another moment of the same configuration, time and ownship: bands, levels and resolutions are then those
    // of the aircraft of both together. The other answers stay those of this one's aircraft.
    void join(const Moment &more) { check("daa_join", daa_join(config_.numbers(), &more.board_, &board_)); }

    // The alert of the aircraft at a place of the list; std::out_of_range where there is none.
    daa_alert_answer alert(std::size_t place) const {
        daa_alert_answer found;
        check("daa_alert", daa_alert(config_.numbers(), &own_, &traffic_.at(place), &found));
        return found;
    }

    std::vector<daa_band> bands(int32_t kind) const {
        std::vector<daa_band> found(DAA_MOST_VALUES);
        std::size_t count = 0;
        check("daa_bands", daa_bands(config_.numbers(), time_, &board_, kind, found.data(), found.size(), &count));
        found.resize(count);
        return found;
    }

    std::vector<uint8_t> levels() const {
        std::vector<uint8_t> found(DAA_MOST_CANDIDATES);
        std::size_t count = 0;
        check("daa_levels", daa_levels(config_.numbers(), time_, &board_, found.data(), found.size(), &count));
        found.resize(count);
        return found;
    }

    daa_resolution_answer resolution(int32_t kind, int32_t side) const {
        daa_resolution_answer to;
        check("daa_resolution", daa_resolution(config_.numbers(), time_, &own_, &board_, kind, side, &to));
        return to;
    }

    daa_recovery_answer recovery(int32_t kind) const {
        daa_recovery_answer to;
        check("daa_recovery", daa_recovery(config_.numbers(), &own_, aircraft(), traffic_.size(), kind, &to));
        return to;
    }

    // The soonest recovery among the values on a side of the present one.
    daa_recovery_answer recovery_side(int32_t kind, int32_t side) const {
        daa_recovery_answer to;
        check("daa_recovery_side", daa_recovery_side(config_.numbers(), &own_, aircraft(), traffic_.size(), kind, side, &to));
        return to;
    }

    daa_last_answer last(int32_t kind) const {
        daa_last_answer to;
        check("daa_last", daa_last(config_.numbers(), &own_, aircraft(), traffic_.size(), kind, &to));
        return to;
    }

    // The places of the aircraft that the flight to a value of a kind meets at some level from least up to greatest. The value may
    // be any that the kind can have.
    std::vector<std::size_t> closers(int32_t kind, int32_t value, uint32_t least, uint32_t greatest) const {
        uint64_t places = 0;
        check("daa_closers", daa_closers(config_.numbers(), &own_, aircraft(), traffic_.size(), kind, value, least, greatest, &places));
        std::vector<std::size_t> found;
        for (std::size_t place = 0; place < traffic_.size(); place++)
            if (places >> place & 1) found.push_back(place);
        return found;
    }

    // The level of the flight to a value of a kind, any that the kind can have.
    uint32_t value_level(int32_t kind, int32_t value) const {
        uint32_t level;
        check("daa_value_level", daa_value_level(config_.numbers(), &own_, aircraft(), traffic_.size(), kind, value, &level));
        return level;
    }

    // The moment's text, as the program writes it.
    std::string report() const {
        std::string text(DAA_MOST_TEXT, '\0');
        std::size_t length = 0;
        check("daa_report", daa_report(config_.numbers(), time_, &own_, aircraft(), traffic_.size(), reinterpret_cast<uint8_t *>(&text[0]),
                                       text.size(), &length));
        text.resize(length);
        return text;
    }

    const std::vector<daa_traffic> &traffic() const { return traffic_; }

  private:
    // (the data of an empty vector may be null, which the calls do not take)
    const daa_traffic *aircraft() const { return traffic_.empty() ? daa_no_traffic() : traffic_.data(); }

    Config config_;
    uint32_t time_;
    daa_own own_;
    std::vector<daa_traffic> traffic_;
    daa_board board_ = {};
};

// An aircraft and an ownship as they are at the time now, from their reports of another time, both in milliseconds of one clock.
inline daa_traffic fly(const daa_traffic &reported, uint64_t at, uint64_t now, uint32_t most) {
    daa_traffic flown;
    check("daa_fly", daa_fly(&reported, at, now, most, &flown));
    return flown;
}

inline daa_own fly(const daa_own &reported, uint64_t at, uint64_t now, uint32_t most) {
    daa_own flown;
    check("daa_fly_own", daa_fly_own(&reported, at, now, most, &flown));
    return flown;
}

// What is shown of one aircraft's alerts from moment to moment.
class Steady {
  public:
    Steady(uint32_t m, uint32_t n, uint32_t hold) : rule_{m, n, hold} {}

    // The level to be shown in a moment in which the aircraft's alert has this level, or DAA_ABSENT. Times rise.
    uint32_t take(uint32_t time, int32_t level) {
        uint32_t shown;
        check("daa_steady", daa_steady(&rule_, time, level, &state_, &shown));
        return shown;
    }

  private:
    daa_steady_rule rule_;
    daa_steady_state state_ = {};
};

// The side of one kind's answer that is shown from moment to moment.
class SteadySide {
  public:
    explicit SteadySide(uint32_t seconds) : seconds_(seconds) {}

    // The side whose value is to be shown in a moment with these answers, or -1. Times rise.
    int32_t take(uint32_t time, const daa_resolution_answer &lower, const daa_resolution_answer &upper, int32_t preferred) {
        int32_t shown;
        check("daa_steady_side", daa_steady_side(seconds_, time, lower.what, upper.what, preferred, &state_, &shown));
        return shown;
    }

  private:
    uint32_t seconds_;
    daa_side_state state_ = {};
};

/// An ownship in the plane round it, and that plane's turn.
inline daa_course plane(const daa_place &own) {
    daa_course course;
    check("daa_plane_own", daa_plane_own(&own, &course));
    return course;
}

/// An aircraft in the plane round an ownship.
inline daa_seen plane(const daa_place &own, const daa_place &aircraft) {
    daa_seen seen;
    check("daa_plane", daa_plane(&own, &aircraft, &seen));
    return seen;
}

} // namespace daidalus

#endif
