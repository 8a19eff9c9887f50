/* Prints what libical reads of a calendar on standard input: for each event its parts, each in hexadecimal digits. */
#include <libical/ical.h>
#include <stdio.h>
#include <string.h>

static char text[1 << 26];

static void put(const char *part) {
    for (; part && *part; part++) printf("%02x", (unsigned char)*part);
    putchar(' ');
}

int main(void) {
    size_t size = fread(text, 1, sizeof text - 1, stdin);
    text[size] = 0;
    icalcomponent *all = icalparser_parse_string(text);
    if (!all) return 1;
    for (icalcomponent *e = icalcomponent_get_first_component(all, ICAL_VEVENT_COMPONENT); e;
         e = icalcomponent_get_next_component(all, ICAL_VEVENT_COMPONENT)) {
        put(icalcomponent_get_uid(e));
        put(icaltime_as_ical_string(icalcomponent_get_dtstamp(e)));
        put(icaltime_as_ical_string(icalcomponent_get_dtstart(e)));
        put(icaltime_as_ical_string(icalcomponent_get_dtend(e)));
        put(icalcomponent_get_summary(e));
        put(icalcomponent_get_description(e));
        putchar('\n');
    }
    return icalcomponent_count_errors(all) ? 2 : 0;
}
