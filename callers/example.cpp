// example ZONES: what is in force in Paris, and which change skips a local time there.
#include "sefunjaro.h"
#include <cstdio>
#include <fstream>
#include <iterator>
#include <string>

struct Source : sefunjaro_source {
    Source() : sefunjaro_source SEFUNJARO_CLOSED {}
    Source(const Source &) = delete;
    Source &operator=(const Source &) = delete;
    ~Source() { sefunjaro_source_close(this); }
};

struct Zone : sefunjaro_zone {
    Zone() : sefunjaro_zone SEFUNJARO_CLOSED {}
    Zone(const Zone &) = delete;
    Zone &operator=(const Zone &) = delete;
    ~Zone() { sefunjaro_zone_close(this); }
};

int main(int argc, char **argv) {
    if (argc != 2) return 1;
    std::ifstream file(argv[1], std::ios::binary);
    std::string text((std::istreambuf_iterator<char>(file)), std::istreambuf_iterator<char>()), name = "Europe/Paris";
    Source source;
    Zone zone;
    sefunjaro_fault fault;
    if (sefunjaro_source_open(text.data(), text.size(), &source, &fault)) return 2;
    if (sefunjaro_zone_open(&source, name.data(), name.size(), &zone, &fault)) return 2;
    struct sefunjaro_in_force found;
    char abbreviation[16];
    if (sefunjaro_in_force(&zone, 1720000000, 0, &found, abbreviation, sizeof abbreviation)) return 2;
    std::printf("%.*s %d\n", int(found.name_length), abbreviation, int(found.offset));
    sefunjaro_clock skipped = { 2024, 3, 31, 2, 30, 0, 0 };
    sefunjaro_reading reading;
    sefunjaro_gap gap;
    size_t count;
    if (sefunjaro_readings(&zone, &skipped, &reading, 1, &count, &gap) || count) return 2;
    std::printf("skipped at %lld from %d to %d\n", (long long)gap.second, int(gap.before), int(gap.after));
    return 0;
}
