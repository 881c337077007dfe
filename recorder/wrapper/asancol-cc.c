/* Runs a compiler with what a recorded program needs: the checks of each load and store, and the recorder in each link.

   It changes no argument of its caller's. It looks at them, in response files too, to see what the compiler will do
   (arguments.c); asks the compiler which it is (compilers.c); adds what that wants when it compiles (compiling.c) and
   when it links (linking.c); and runs it (running.c). The linked code that it did not compile it notes in the program
   (taken.c). The name by which it is called says for which languages it is (fronts.def). All that is known of the run
   is gathered in a struct job (job.h).

   Called: by the system. The files of this folder are a program of their own, which has one thread and no lock, and may
   call all of the C library. Its only signal handler is pass_on in running.c. */
#define _GNU_SOURCE
#include <stdio.h>
#include <string.h>
#include <sys/auxv.h>

#include "common/standard.h"
#include "common/text.h"
#include "wrapper/arguments.h"
#include "wrapper/command.h"
#include "wrapper/compiling.h"
#include "wrapper/passes.h"
#include "wrapper/running.h"
#include "wrapper/say.h"
#include "wrapper/self.h"
#include "wrapper/taken_out.h"
#include "wrapper/target.h"

/* Of the compiler's arguments those that are options of it, as -m32, come before the caller's. */
static void read_arguments(struct job *job)
{
    struct arguments arguments = {.request = &job->request};
    for (size_t i = 1; i < job->command.count; i++)
        if (job->command.items[i][0] == '-' || arguments.option != NULL)
            arguments_take(&arguments, job->command.items[i]);
    arguments.option = NULL;
    for (char **word = job->arguments; *word != NULL; word++)
        arguments_take(&arguments, *word);
    job->request.stops_early |= job->request.is_shown;
}

#define NOTHING "nothing is recorded with this option"
#define NO_PLACE "remove it: code compiled by asancol-cc can't be in a program with another sanitizer"

/* Warns of what will not be recorded: code that is compiled here or at the link, or for another sanitizer all of the
   run, whatever it does. If something is compiled, the compiler was asked which it is: null means that it is neither
   GCC nor Clang. */
static void warn_of_unrecorded(const struct job *job)
{
    const struct request *request = &job->request;
    const struct inputs *inputs = &request->inputs;
    const char *foreign = request->foreign;
    bool compiles = inputs->has_compiled || (job->links && inputs->linked.has_lto);
    if (foreign == NULL && inputs->has_compiled && job->compiler == NULL)
        warn(job->command.items[0], UNKNOWN_COMPILER);
    if (foreign != NULL && !begins_with(foreign, "-m") && inputs->linked.has_marked && job->links)
        fail(foreign, NO_PLACE);
    if (foreign == NULL && job->links && inputs->linked.sanitized != NULL)
        fail(inputs->linked.sanitized, "another compiler made it with -fsanitize=address: compile it again with "
                                       "asancol-cc");
    if (foreign != NULL)
        warn(foreign, begins_with(foreign, "-m") ? NOTHING : "remove it: " NOTHING);
    else if (!compiles)
        return;
    else if (request->refusal != NULL)
        warn(request->refusal, "code compiled with this option is not recorded");
    else if (job->compiler != NULL)
        left_out_warn(&request->left_out, job->compiler->checks_of);
}

int main(int count, char **argv)
{
    if (count == 0)
        return 1;
    fill_standard();
    struct called called = called_as(argv[0], (const char *)getauxval(AT_EXECFN));
    struct job job = {.front = called.front, .arguments = argv + 1};
    struct request *request = &job.request;
    say_as(called.name);
    struct own_options own = own_options_take(argv, &called);
    request->is_all = own.is_all;
    request->has_no_run = own.has_no_run;
    job.command = command_of(own.compiler, job.front);
    read_arguments(&job);
    if (job.arguments[0] != NULL && job.arguments[1] == NULL && strcmp(job.arguments[0], "--version") == 0)
        return running_version(&job);
    job.takes_part = request->inputs.has_any && request->foreign == NULL;
    job.links = request->inputs.has_linked && !request->stops_early && !request->link.is_partial;
    const struct linked *linked = &request->inputs.linked;
    bool is_compiled_late = linked->has_marked && (linked->has_lto || linked->has_bitcode);
    job.target = job.takes_part ? target_of(&job) : NULL;
    if (job.target != NULL)
        self_set_folder(job.target->machine);
    bool gets_checks = job.takes_part && (request->inputs.has_source || is_compiled_late);
    if (gets_checks || (request->foreign == NULL && request->says_use_after_return))
        job.compiler = compiler_of(job.command.items, job.command.count);
    if (job.compiler != NULL || (request->foreign == NULL && request->names_runtime))
        taken_out(&job);
    job.passes = passes_of(&job);
    if (request->inputs.has_any)
        warn_of_unrecorded(&job);
    job.object = compiling_object(&job);
    if (job.takes_part && job.links && !request->is_dry)
        return running_link(&job);
    if (job.object != NULL && !request->is_dry)
        return running_compile(&job);
    running_become(&job);
}
