/* The comments of the history that say who is who, and where a call was made. */
#define _GNU_SOURCE
#include <fcntl.h>
#include <string.h>
#include <sys/prctl.h>
#include <unistd.h>

#include "record.h"

enum { MOST_OF_PATH = 64 };

/* At its end: a thread may get its name long after its start. */
void note_name(Thread *thread) { prctl(PR_GET_NAME, thread->name); }

static void use_process(Process *process)
{
    if (process == NULL)
        return;
    if (process->names == NULL)
        process->names = names_by(atomic_load(&process->maps));
    use_names(process->names);
}

static void write_process(const Process *process)
{
    if (!is_shared_run())
        return;
    put_text(" of process ");
    put_number((uint64_t)process->number);
}

static void begin_name(char letter, uint32_t number)
{
    begin_comment();
    put_name(letter, number);
    put_text(" is ");
}

void read_name(Thread *thread)
{
    char *name = thread->name;
    char path[MOST_OF_PATH] = "/proc/self/task/", room[MOST_DIGITS + 1];

    strcat(path, digits_of((uint64_t)thread->number_of_kernel, 10, room));
    strcat(path, "/comm");
    int file = open(path, O_RDONLY | O_CLOEXEC);
    ssize_t size = file < 0 ? 0 : read(file, name, MOST_OF_NAME - 1);
    name[size > 0 ? size : 0] = '\0';
    name[strcspn(name, "\n")] = '\0';
    if (file >= 0)
        close(file);
}

/* The name that the program has given it, or the function that it runs. */
void write_name_of_thread(Thread *thread)
{
    const char *name = thread->name;

    use_process(thread->process);
    if (name[0] == '\0' && thread->number_of_kernel != 0 && thread->process == NULL)
        read_name(thread);
    bool is_own = name[0] != '\0' && strcmp(name, thread->inherited) != 0;
    const char *runs = is_own || thread->start == NULL ? NULL : name_of_object((uintptr_t)thread->start);
    if (!is_own && runs == NULL && !is_shared_run())
        return;
    begin_name('t', thread->number);
    put_text(is_own ? name : runs != NULL ? runs : thread->process->name);
    write_process(thread->process);
    end_line();
}

/* On the stack and the heap there are no names. Then it is said who used it first. */
void write_name_of_object(char letter, uint32_t number, const Object *object)
{
    use_process(object->process);
    const char *name = name_of_object(object->address);
    const char *user = name != NULL || object->first_used == 0 ? NULL : name_of_call(object->first_used);

    if (name == NULL && user == NULL)
        return;
    begin_name(letter, number);
    put_text(name != NULL ? name : "first used at ");
    put_text(user != NULL ? user : "");
    end_line();
}

/* Behind its begin. */
void write_caller(const Record *record)
{
    uintptr_t caller = caller_of(record);

    use_process(record->thread->process);
    const char *name = caller == 0 ? NULL : name_of_call(caller);

    if (name == NULL)
        return;
    begin_comment();
    put_text("at ");
    put_text(name);
    end_line();
}
