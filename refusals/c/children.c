/* A process for each refused request, so that all of them are tried by one program. */
#include <stdbool.h>
#include <stdint.h>
#include <stdlib.h>
#include <sys/mman.h>
#include <sys/wait.h>
#include <unistd.h>

static volatile uint32_t *said;

/* True in a new process. False in the one that made it, when the other has ended, with what that said, or UINT32_MAX
 * where it ended without. */
bool fork_and_wait(uint32_t *answer)
{
    if (said == NULL) {
        void *shared = mmap(NULL, sizeof *said, PROT_READ | PROT_WRITE, MAP_SHARED | MAP_ANONYMOUS, -1, 0);
        if (shared == MAP_FAILED)
            abort();
        said = shared;
    }
    *said = UINT32_MAX;
    pid_t child = fork();
    if (child < 0)
        abort();
    if (child == 0)
        return true;
    waitpid(child, NULL, 0);
    *answer = *said;
    return false;
}

/* Ends the new process, which says this. */
void end_process(uint32_t answer)
{
    *said = answer;
    _exit(0);
}
