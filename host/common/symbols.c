/* The names of addresses, as `mutex+0x60 in program`, from the symbol tables of the files that are mapped. dladdr knows
   none of what is static, and may lock. */
#define _GNU_SOURCE
#include <elf.h>
#include <fcntl.h>
#include <limits.h>
#include <link.h>
#include <string.h>
#include <sys/mman.h>
#include <sys/stat.h>
#include <unistd.h>

#include "common.h"

enum { MOST_FILES = 1024, MOST_HEADERS = 64, SLOTS = 4096 };
enum { MOST_OF_SYMBOL = 60, MOST_OF_BASE = 30 };

/* A file of code, from where it is mapped first. */
typedef struct {
    const char *path;
    uintptr_t bias; /* what is added to the addresses that stand in the file */
    int count;
    ElfW(Phdr) headers[MOST_HEADERS];
    const char *bytes; /* the whole file; NULL: it isn't mapped yet, or can't be */
    size_t size;
    bool is_asked;
    const ElfW(Sym) *last; /* the symbol that was found last: many objects may be parts of one */
    const char *last_name;
} File;

/* A name that was made. */
typedef struct {
    uintptr_t address;
    const char *name;
} Known;

struct Names {
    File *files;
    int count;
    Known objects[SLOTS], calls[SLOTS];
};

static Names own;
static Names *names = &own;

static bool read_at(int file, void *into, size_t size, off_t at)
{
    return pread(file, into, size, at) == (ssize_t)size;
}

static bool is_of_this_machine(const ElfW(Ehdr) * header)
{
    bool is_this_class = header->e_ident[EI_CLASS] == (sizeof(uintptr_t) == 8 ? ELFCLASS64 : ELFCLASS32);

    return memcmp(header->e_ident, ELFMAG, SELFMAG) == 0 && is_this_class
           && header->e_phentsize == sizeof(ElfW(Phdr)) && header->e_phnum > 0 && header->e_phnum <= MOST_HEADERS;
}

/* Reads what of the file is loaded where, if it is one of code that is mapped here from its first byte. */
static bool read_headers(File *of, int file, uintptr_t first)
{
    ElfW(Ehdr) header;
    uintptr_t page = (uintptr_t)sysconf(_SC_PAGESIZE);

    if (!read_at(file, &header, sizeof header, 0) || !is_of_this_machine(&header))
        return false;
    of->count = header.e_phnum;
    if (!read_at(file, of->headers, header.e_phnum * sizeof *of->headers, (off_t)header.e_phoff))
        return false;
    for (int i = 0; i < of->count; i++)
        if (of->headers[i].p_type == PT_LOAD) {
            of->bias = first - (of->headers[i].p_vaddr & ~(page - 1));
            return of->headers[i].p_offset < page;
        }
    return false;
}

static void add_file(const char *path, uintptr_t first)
{
    struct stat present;
    File *added = &names->files[names->count];

    if (names->count == MOST_FILES || stat(path, &present) != 0 || !S_ISREG(present.st_mode))
        return;
    int file = open(path, O_RDONLY | O_CLOEXEC);
    if (file < 0)
        return;
    added->path = path;
    names->count += read_headers(added, file, first);
    close(file);
}

/* A line is `FIRST-LAST RIGHTS OFFSET DEVICE INODE  PATH`. */
static void read_line(const char *line)
{
    uintptr_t first = hex_of(&line);
    const char *offset = strchr(line, ' ');

    if (offset == NULL || (offset = strchr(offset + 1, ' ')) == NULL)
        return;
    offset++;
    const char *path = strchr(offset, '/');
    if (hex_of(&offset) == 0 && *offset == ' ' && path != NULL)
        add_file(path, first);
}

/* Its lines end at a 0 then. */
static void read_text(char *line)
{
    char *end;

    names->files = line == NULL ? NULL : map_memory(MOST_FILES * sizeof *names->files);
    if (names->files == NULL)
        return;
    while ((end = strchr(line, '\n')) != NULL) {
        *end = '\0';
        read_line(line);
        line = end + 1;
    }
}

void read_maps(void)
{
    size_t room;

    read_text(text_of_maps(&room));
}

Names *names_by(char *maps)
{
    Names *made = map_memory(sizeof *made);

    if (made != NULL) {
        names = made;
        read_text(maps);
    }
    return made;
}

void use_names(Names *of) { names = of != NULL ? of : &own; }

static bool is_loaded(const File *file, uintptr_t address)
{
    for (int i = 0; i < file->count; i++) {
        const ElfW(Phdr) *header = &file->headers[i];
        if (header->p_type == PT_LOAD && address - file->bias - header->p_vaddr < header->p_memsz)
            return true;
    }
    return false;
}

static File *file_of(uintptr_t address)
{
    for (int i = 0; i < names->count; i++)
        if (is_loaded(&names->files[i], address))
            return &names->files[i];
    return NULL;
}

static void map_file(File *of)
{
    struct stat present;
    int file = of->is_asked ? -1 : open(of->path, O_RDONLY | O_CLOEXEC);

    of->is_asked = true;
    if (file < 0)
        return;
    if (fstat(file, &present) == 0 && present.st_size > 0) {
        void *bytes = mmap(NULL, (size_t)present.st_size, PROT_READ, MAP_PRIVATE, file, 0);
        of->bytes = bytes == MAP_FAILED ? NULL : bytes;
        of->size = (size_t)present.st_size;
    }
    close(file);
}

static bool is_inside(const File *file, uint64_t offset, uint64_t size)
{
    return offset <= file->size && size <= file->size - offset;
}

/* The table of all symbols, or that of those which other files see; NULL if there is neither. */
static const ElfW(Shdr) *table_of(const File *file)
{
    const ElfW(Ehdr) *header = (const void *)file->bytes;
    const ElfW(Shdr) *found = NULL, *sections = (const void *)(file->bytes + header->e_shoff);

    if (header->e_shentsize != sizeof *sections
        || !is_inside(file, header->e_shoff, (uint64_t)header->e_shnum * sizeof *sections))
        return NULL;
    for (int i = 0; i < header->e_shnum; i++) {
        bool is_all = sections[i].sh_type == SHT_SYMTAB;
        if (is_all || (sections[i].sh_type == SHT_DYNSYM && found == NULL))
            found = &sections[i];
        if (is_all)
            break;
    }
    if (found == NULL || found->sh_link >= header->e_shnum || !is_inside(file, found->sh_offset, found->sh_size))
        return NULL;
    const ElfW(Shdr) *names = &sections[found->sh_link];
    return names->sh_size > 0 && is_inside(file, names->sh_offset, names->sh_size) ? found : NULL;
}

static bool has(const ElfW(Sym) * symbol, uintptr_t address)
{
    int type = symbol->st_info & 15;

    return (type == STT_OBJECT || type == STT_FUNC) && symbol->st_shndx != SHN_UNDEF
           && address - symbol->st_value < symbol->st_size;
}

/* Whether there is a symbol at an address of the file. It is the last then. */
static bool find_symbol(File *file, uintptr_t address)
{
    if (file->last != NULL && has(file->last, address))
        return true;
    map_file(file);
    const ElfW(Shdr) *table = file->bytes == NULL ? NULL : table_of(file);
    if (table == NULL)
        return false;
    const ElfW(Ehdr) *header = (const void *)file->bytes;
    const ElfW(Shdr) *names = (const ElfW(Shdr) *)(const void *)(file->bytes + header->e_shoff) + table->sh_link;
    const ElfW(Sym) *symbols = (const void *)(file->bytes + table->sh_offset);
    for (size_t i = 0; i < table->sh_size / sizeof *symbols; i++)
        if (has(&symbols[i], address) && symbols[i].st_name < names->sh_size) {
            file->last_name = file->bytes + names->sh_offset + symbols[i].st_name;
            file->last = &symbols[i];
            return true;
        }
    return false;
}

static void add_number(char *text, const char *before, uintptr_t number)
{
    char room[MOST_DIGITS + 1];

    strcat(text, before);
    strcat(text, digits_of(number, 16, room));
}

/* Of an address that is shown, and stands in the object or function of another one. */
static const char *make_name(uintptr_t inside, uintptr_t shown)
{
    File *file = file_of(inside);
    char *text = file == NULL ? NULL : take_memory(MOST_OF_LINE);

    if (text == NULL)
        return NULL;
    uintptr_t address = shown - file->bias;
    bool is_found = find_symbol(file, inside - file->bias);
    if (is_found)
        strncat(text, file->last_name, MOST_OF_SYMBOL);
    if (!is_found || address != file->last->st_value)
        add_number(text, is_found ? "+0x" : "0x", is_found ? address - file->last->st_value : address);
    strcat(text, " in ");
    return strncat(text, strrchr(file->path, '/') + 1, MOST_OF_BASE);
}

static const char *known_name(Known known[SLOTS], uintptr_t inside, uintptr_t shown)
{
    Known *slot = &known[(uint32_t)(shown ^ shown >> 12) * 2654435761u >> 20];

    if (slot->address != shown) {
        slot->address = shown;
        slot->name = make_name(inside, shown);
    }
    return slot->name;
}

const char *name_of_object(uintptr_t address) { return known_name(names->objects, address, address); }

/* The call stands before the address to which it returns, which may be behind the function's end. */
const char *name_of_call(uintptr_t returns_to) { return known_name(names->calls, returns_to - 1, returns_to); }
