/* A source for the callers' tests: ruled zones, a link, a zone without a schedule and one with an offset too far. */
static const char small_source[] =
    "Rule US 2007 max - Mar Sun>=8 2:00 1:00 D\n"
    "Rule US 2007 max - Nov Sun>=1 2:00 0 S\n"
    "Rule EU 1981 max - Mar lastSun 1:00u 1:00 S\n"
    "Rule EU 1996 max - Oct lastSun 1:00u 0 -\n"
    "Zone America/New_York -5:00 US E%sT\n"
    "Zone Europe/Paris 1:00 EU CE%sT\n"
    "Zone Fixed 26:00 - F\n"
    "Zone Ends 1:00 - A 2000\n"
    " 2:00 - B 1990\n"
    " 3:00 EU C%sT\n"
    "Link Europe/Paris Europe/Monaco\n";
