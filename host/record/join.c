/* join DIRECTORY HISTORY: makes one history of the parts of a recording, as RECORD_DIR has left them there. */
#define _GNU_SOURCE
#include <dirent.h>
#include <errno.h>
#include <fcntl.h>
#include <getopt.h>
#include <stdarg.h>
#include <stdio.h>
#include <stdlib.h>
#include <string.h>
#include <sys/mman.h>
#include <sys/stat.h>
#include <unistd.h>

#include "join.h"

enum { MOST_OF_PATH = 4096, MOST_OF_HISTORY = 268435456, LOOKS_WITHOUT_PROGRAM = 20 };

static const char help[] =
    "join [OPTION..] DIRECTORY HISTORY: makes one history of the parts of a recording\n"
    "\n"
    "The parts are those of RECORD_DIR=DIRECTORY. Of a flight recorder's the history begins at the first place at\n"
    "which that is sound, and says in its first comment where it is.\n"
    "\n"
    "  --run RUN     which run, if the directory has several; RUN.run is its file\n"
    "  --first K     it begins in part K or after it\n"
    "  --last K      it ends with part K\n"
    "  --follow      writes each line when it is recorded, and ends with the program; HISTORY may be /dev/stdout\n"
    "  --help        prints this\n"
    "\n"
    "Statuses: 0 it is written; 1 wrong words, or something can't be read or written; 2 a part is missing, cut or of\n"
    "something else; 3 no call was recorded; 4 no memory; 7 there is no place at which a history may begin, or what\n"
    "--follow has written ends before the recording.\n";

static const char *directory;
static char run_name[MOST_OF_RUN];
static bool follows;

int refuse_by(const char *format, ...)
{
    va_list more;

    va_start(more, format);
    fputs("join: ", stderr);
    vfprintf(stderr, format, more);
    fputc('\n', stderr);
    va_end(more);
    return WRONG_WORDS;
}

static bool is_name_of_run(const char *name)
{
    size_t length = strlen(name);

    return length > 4 && length < MOST_OF_RUN + 4 && strcmp(name + length - 4, ".run") == 0;
}

/* The only run of the directory; NO_CALL: there is none. */
static int find_run(void)
{
    DIR *opened = opendir(directory);
    struct dirent *entry;
    int count = 0;

    if (opened == NULL)
        return refuse_by("%s: %s", directory, strerror(errno));
    while ((entry = readdir(opened)) != NULL)
        if (is_name_of_run(entry->d_name) && count++ == 0)
            snprintf(run_name, sizeof run_name, "%.*s", (int)strlen(entry->d_name) - 4, entry->d_name);
    closedir(opened);
    if (count > 1)
        return refuse_by("%s: there are %d runs; name one by --run", directory, count);
    return count == 0 ? NO_CALL : WRITTEN;
}

static int find_or_refuse(void)
{
    int status = find_run();

    if (status == NO_CALL)
        refuse_by("%s: there is no recording", directory);
    return status;
}

static int read_file_of_run(void)
{
    char path[MOST_OF_PATH];

    snprintf(path, sizeof path, "%s/%s.run", directory, run_name);
    int why = read_run(path, PARTED_RUN);
    if (why == EILSEQ || why == ENODATA) {
        refuse_by("%s: this is no recording in parts, or it is cut", path);
        return FAULT;
    }
    if (why != 0)
        return refuse_by("%s: %s", path, strerror(why));
    if (memcmp(run->name, run_name, sizeof run_name) == 0)
        return run->has_call && run->last_part > 0 ? WRITTEN : NO_CALL;
    refuse_by("%s: this is of the run %.*s", path, MOST_OF_RUN, run->name);
    return FAULT;
}

static bool is_part(const Head *head, uint64_t number)
{
    char line[sizeof head->line] = "";

    snprintf(line, sizeof line, "part %lu of %s\n", (unsigned long)number, run_name);
    return memcmp(head->line, line, sizeof line) == 0 && head->number == number
           && head->first_place == (number - 1) * EVENTS_OF_PART + 1
           && head->standing <= SIZE_OF_STANDING / sizeof(Standing);
}

int read_part(uint64_t number, Head **head)
{
    char path[MOST_OF_PATH];
    struct stat present;

    snprintf(path, sizeof path, "%s/%s.%lu", directory, run_name, (unsigned long)number);
    int file = open(path, O_RDONLY | O_CLOEXEC);
    if (file < 0 || fstat(file, &present) != 0) {
        refuse_by(errno == ENOENT ? "%s: this part is missing" : "%s: %s", path, strerror(errno));
        return FAULT;
    }
    if (present.st_size != SIZE_OF_PART) {
        refuse_by("%s: this part is cut: it has %ld bytes, and not %d", path, (long)present.st_size, SIZE_OF_PART);
        close(file);
        return FAULT;
    }
    *head = mmap(NULL, SIZE_OF_PART, PROT_READ, MAP_SHARED, file, 0);
    close(file);
    if (*head == MAP_FAILED)
        return OUT_OF_MEMORY;
    if (is_part(*head, number))
        return WRITTEN;
    refuse_by("%s: this is no part %lu of the run %s", path, (unsigned long)number, run_name);
    return FAULT;
}

/* Pointers of what stood are those of the run's file. */
static bool is_of_run(const void *pointer, size_t size)
{
    return pointer == NULL || of_run(number_in_run(pointer), size) == pointer;
}

static bool has_sound_standing(Head *head)
{
    for (uint64_t i = 0; i < head->standing; i++) {
        const Standing *told = &standing_of(head)[i];
        const Event *open = &told->of_thread.open;
        bool is_thread = told->thread != NULL;
        if (!is_of_run(told->thread, sizeof(Thread)) || !is_of_run(told->object, sizeof(Object)))
            return false;
        if (is_thread && (!is_of_run(open->object, sizeof(Object)) || !is_of_run(open->mutex, sizeof(Object))))
            return false;
        if (!is_thread && (told->object == NULL || !is_of_run(told->of_object.owner, sizeof(Thread))))
            return false;
    }
    return true;
}

static int read_parts(Parts *parts, uint64_t first, uint64_t last)
{
    int status = WRITTEN;

    parts->first = first;
    parts->count = last - first + 1;
    parts->heads = calloc(parts->count, sizeof *parts->heads);
    if (parts->heads == NULL)
        return OUT_OF_MEMORY;
    for (uint64_t i = 0; status == WRITTEN && i < parts->count; i++)
        status = read_part(first + i, &parts->heads[i]);
    if (status != WRITTEN)
        return status;
    if (!parts->heads[0]->has_standing) {
        refuse_by("what stands before part %lu isn't written; begin with an earlier one", (unsigned long)first);
        return NOWHERE;
    }
    if (has_sound_standing(parts->heads[0]))
        return WRITTEN;
    refuse_by("%s/%s.%lu: the head of this part is damaged", directory, run_name, (unsigned long)first);
    return FAULT;
}

static int write_joined(const Parts *parts)
{
    History history = {.cut = 0};
    char about[MOST_OF_LINE];
    const char *why = NULL;
    uint64_t begin = 0;
    Joined joined = join_parts(parts, &history, &begin, &why);

    if (joined == NO_BEGIN) {
        refuse_by("a history may begin nowhere in parts %lu to %lu: at the last place %s", (unsigned long)parts->first,
                  (unsigned long)parts->last, why);
        return NOWHERE;
    }
    if (joined == NO_MEMORY || number_times(&history) == NO_MEMORY)
        return OUT_OF_MEMORY;
    if (begin > 1) {
        snprintf(about, sizeof about, "begins at place %lu, in part %lu of %s; first stands what stood there",
                 (unsigned long)begin, (unsigned long)part_of(begin), run_name);
        history.about = about;
    }
    if (history.times != NULL)
        refuse_by("it takes more than 71 minutes: times stand as their numbers in their order, not in microseconds");
    return write_collected(&history) ? WRITTEN : WRONG_WORDS;
}

static void say_size(void)
{
    struct stat written;

    if (stat(history_file, &written) == 0 && written.st_size > MOST_OF_HISTORY)
        refuse_by("%s: pif judge reads %d bytes at most; choose parts by --first and --last", history_file,
                  MOST_OF_HISTORY);
}

static int join_all(uint64_t first, uint64_t last)
{
    Parts parts = {.cut = lost_place() < run->next_place + 1 ? lost_place() : run->next_place + 1};

    if (parts.cut <= 1)
        return NO_CALL;
    uint64_t made = part_of(parts.cut - 1) < run->last_part ? part_of(parts.cut - 1) : run->last_part;
    parts.last = last == 0 || last > made ? made : last;
    first = first > run->first_part ? first : run->first_part;
    if (first > parts.last)
        return refuse_by("there are parts %lu to %lu", (unsigned long)run->first_part, (unsigned long)made);
    int status = read_parts(&parts, first, made);
    if (status == WRITTEN)
        status = write_joined(&parts);
    if (status == WRITTEN)
        say_size();
    return status;
}

/* Its program makes the file before it maps it and writes its mark. */
static int wait_for_file_of_run(void)
{
    char path[MOST_OF_PATH];
    int why, looks = 0;

    snprintf(path, sizeof path, "%s/%s.run", directory, run_name);
    while (((why = watch_run(path)) == ENODATA || why == EILSEQ) && looks < LOOKS_WITHOUT_PROGRAM) {
        looks = has_gone(run_name) ? looks + 1 : 0;
        if (!rest_between_looks())
            return NO_CALL;
    }
    if (why != 0 && why != EILSEQ && why != ENODATA)
        return refuse_by("%s: %s", path, strerror(why));
    if (why != 0)
        refuse_by("%s: this is no recording in parts, or it is cut", path);
    return why == 0 ? WRITTEN : FAULT;
}

/* It waits for the run if there is none yet. */
static int follow(void)
{
    int status = begin_to_follow();

    while (status == WRITTEN && run_name[0] == '\0' && (status = find_run()) == NO_CALL)
        status = rest_between_looks() ? WRITTEN : NO_CALL;
    if (status == WRITTEN)
        status = wait_for_file_of_run();
    return status == WRITTEN ? follow_run(run_name) : status;
}

static int join_once(uint64_t first, uint64_t last)
{
    int status = run_name[0] == '\0' ? find_or_refuse() : WRITTEN;

    if (status == WRITTEN)
        status = read_file_of_run();
    return status == WRITTEN ? join_all(first, last) : status;
}

/* 0: it is none. */
static uint64_t number_in(const char *word)
{
    char *end;
    uint64_t number = strtoull(word, &end, 10);

    return word[0] >= '0' && word[0] <= '9' && *end == '\0' ? number : 0;
}

/* Whether all words are right. */
static bool take_words(int count, char **words, uint64_t *first, uint64_t *last)
{
    static const struct option known[] = {
        {"run", 1, NULL, 'r'},  {"first", 1, NULL, 'f'},  {"last", 1, NULL, 'l'},
        {"help", 0, NULL, 'h'}, {"follow", 0, NULL, 'w'}, {NULL, 0, NULL, 0},
    };
    int option;

    while ((option = getopt_long(count, words, "", known, NULL)) >= 0) {
        if (option == 'h') {
            fputs(help, stdout);
            exit(WRITTEN);
        }
        if (option == 'w')
            follows = true;
        else if (option == 'r')
            snprintf(run_name, sizeof run_name, "%s", optarg);
        else if (option == 'f' && (*first = number_in(optarg)) == 0)
            return false;
        else if (option == 'l' && (*last = number_in(optarg)) == 0)
            return false;
        else if (option == '?')
            return false;
    }
    directory = words[optind];
    history_file = optind + 2 == count ? words[optind + 1] : NULL;
    return history_file != NULL && !(follows && (*first != 0 || *last != 0));
}

int main(int count, char **words)
{
    uint64_t first = 0, last = 0;

    read_directory(NULL); /* this process isn't recorded itself */
    if (!take_words(count, words, &first, &last))
        return refuse_by("the words are DIRECTORY HISTORY; join --help has all");
    int status = follows ? follow() : join_once(first, last);
    if (status == OUT_OF_MEMORY)
        refuse_by("out of memory");
    return status;
}
