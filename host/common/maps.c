/* What is mapped where, as /proc/self/maps says it. */
#define _GNU_SOURCE
#include <fcntl.h>
#include <string.h>
#include <sys/mman.h>
#include <unistd.h>

#include "common.h"

enum { LEAST_OF_MAPS = 1 << 16, MOST_OF_MAPS = 1 << 26 };

static size_t read_whole(int file, char *bytes, size_t room)
{
    size_t size = 0;
    ssize_t more;

    while (size < room && (more = read(file, bytes + size, room - size)) > 0)
        size += (size_t)more;
    return size;
}

char *text_of_maps(size_t *took)
{
    for (size_t room = LEAST_OF_MAPS; room <= MOST_OF_MAPS; room *= 2) {
        int file = open("/proc/self/maps", O_RDONLY | O_CLOEXEC);
        char *text = file < 0 ? NULL : map_memory(room);
        size_t size = text == NULL ? room : read_whole(file, text, room - 1);
        if (file >= 0)
            close(file);
        *took = room;
        if (text == NULL || size < room - 1)
            return text;
        munmap(text, room);
    }
    return NULL;
}

uintptr_t hex_of(const char **text)
{
    uintptr_t number = 0;

    for (;; (*text)++) {
        char digit = **text;
        if (digit >= '0' && digit <= '9')
            number = number * 16 + (uintptr_t)(digit - '0');
        else if (digit >= 'a' && digit <= 'f')
            number = number * 16 + (uintptr_t)(digit - 'a') + 10;
        else
            return number;
    }
}

static const char *behind_blank(const char *text)
{
    const char *blank = strchr(text, ' ');

    return blank == NULL ? text + strlen(text) : blank + 1;
}

/* A line is `FIRST-LAST RIGHTS OFFSET MAJOR:MINOR FILE  PATH`, whose last right is `s` of what is shared. FILE alone is
   decimal. */
static bool read_mapping(const char *line, uintptr_t address, Mapping *mapping)
{
    uintptr_t first = hex_of(&line);

    line += *line == '-';
    if (address < first || address >= hex_of(&line) || *line != ' ' || strlen(line) < sizeof " rwxp")
        return false;
    mapping->is_shared = line[4] == 's';
    line = behind_blank(line + 1);
    mapping->offset = hex_of(&line) + (address - first);
    line = behind_blank(line);
    mapping->device = (uint64_t)hex_of(&line) << 32;
    line += *line == ':';
    mapping->device |= hex_of(&line);
    line = behind_blank(line);
    for (mapping->file = 0; *line >= '0' && *line <= '9'; line++)
        mapping->file = mapping->file * 10 + (uint64_t)(*line - '0');
    mapping->is_segment = strncmp(line + strspn(line, " "), "/SYSV", 5) == 0;
    return true;
}

bool find_mapping(uintptr_t address, Mapping *mapping)
{
    bool is_found = false;
    size_t room;
    char *text = text_of_maps(&room);

    for (const char *line = text; line != NULL && !is_found;) {
        is_found = read_mapping(line, address, mapping);
        line = strchr(line, '\n');
        line = line == NULL ? NULL : line + 1;
    }
    if (text != NULL)
        munmap(text, room);
    return is_found;
}
