// One moment of the encounter in README.md, from C++: its alerts, bands and resolutions, in the lines of the report.
//
//     one_moment CONFIGURATION           asks for each answer by itself
//     one_moment CONFIGURATION report    asks for the whole text
//
// Where a call answers anything but DAA_OK, that is the program's status.
#include "daidalus.hpp"

#include <cstring>
#include <fstream>
#include <iostream>
#include <string>
#include <vector>

const daa_own own = {0, 0, 10000, 0, 3600, 0};

const std::vector<daa_traffic> traffic = {
    {"AMBER", 3000, 8000, 10000, -1350, 0, 0, 0},
    {"BRAVO", -1200, -300, 10600, 0, 3600, -600, 0},
};

const struct { daa_kind number; const char *name, *lower, *upper; } kinds[] = {
    {DAA_TRACK, "track", " left ", " right "},
    {DAA_SPEED, "gs", " down ", " up "},
    {DAA_CLIMB, "vs", " down ", " up "},
    {DAA_HEIGHT, "alt", " down ", " up "},
};

std::string text_of(daa_resolution_answer to) {
    return to.what == 0 ? "keep" : to.what == 1 ? std::to_string(to.value) : "none";
}

void print_answers(const daidalus::Moment &moment) {
    std::cout << "moment 0\n";
    for (std::size_t place = 0; place < traffic.size(); place++) {
        const std::string id(traffic[place].id, strnlen(traffic[place].id, sizeof traffic[place].id));
        const auto alert = moment.alert(place);
        std::cout << "now " << id << " " << alert.now << "\n"
                  << "alert " << id << " " << alert.level << " " << (alert.level ? std::to_string(alert.first) : "-") << "\n";
    }
    for (const auto &kind : kinds)
        for (const auto &band : moment.bands(kind.number))
            std::cout << kind.name << " " << band.from << " " << band.upto << " " << band.level << "\n";
    for (const auto &kind : kinds)
        std::cout << "resolve " << kind.name << kind.lower << text_of(moment.resolution(kind.number, DAA_LOWER))
                  << kind.upper << text_of(moment.resolution(kind.number, DAA_UPPER)) << "\n";
    std::cout << "done 0\n";
}

int main(int words, char **word) try {
    if (words != 2 && !(words == 3 && word[2] == std::string("report"))) {
        std::cerr << "usage: one_moment CONFIGURATION [report]\n";
        return 2;
    }
    if (!daidalus::is_same_version()) {
        std::cerr << "the archive is of version " << daa_version() << ", and this program of version " << DAA_VERSION << "\n";
        return 1;
    }
    std::string text(65537, '\0'); // one byte more than a configuration may have
    std::ifstream file(word[1], std::ios::binary);
    file.read(&text[0], static_cast<std::streamsize>(text.size()));
    if (!file.is_open() || file.bad()) {
        std::cerr << word[1] << " cannot be read\n";
        return 1;
    }
    text.resize(static_cast<std::size_t>(file.gcount()));
    const daidalus::Moment moment(daidalus::Config(text), 0, own, traffic);
    if (words == 2) print_answers(moment);
    else std::cout << moment.report();
    if (!std::cout.flush()) {
        std::cerr << "standard output cannot be written\n";
        return 1;
    }
} catch (const daidalus::Refused &refused) {
    std::cerr << refused.what() << "\n";
    return refused.answer;
}
