#define _GNU_SOURCE /* for memfd_create */
#include "server_process.h"
#include "../call/show.h"

#include <signal.h>
#include <stdio.h>
#include <sys/mman.h>
#include <sys/wait.h>
#include <unistd.h>

static pid_t server;
static int to_server, from_server;

static void become_server(char **command, int memory, int in, int out)
{
    if (dup2(in, STDIN_FILENO) < 0 || dup2(out, STDOUT_FILENO) < 0 ||
        dup2(memory, SHARED_MEMORY) < 0)
        give_up("server");
    execvp(command[0], command);
    perror(command[0]);
    _exit(2);
}

struct slot *start_server(char **command)
{
    size_t len = SLOTS * sizeof(struct slot);
    int in[2], out[2], memory = memfd_create("calls", 0);
    if (memory < 0 || ftruncate(memory, (off_t)len) != 0)
        give_up("memory");
    void *slots =
        mmap(NULL, len, PROT_READ | PROT_WRITE, MAP_SHARED, memory, 0);
    if (slots == MAP_FAILED)
        give_up("memory");
    if (pipe(in) != 0 || pipe(out) != 0)
        give_up("pipe");
    fflush(stdout);
    signal(SIGPIPE, SIG_IGN); /* that a server has ended is seen by reading */
    server = fork();
    if (server < 0)
        give_up("fork");
    if (server == 0) {
        close(in[1]); /* else its input would never end */
        become_server(command, memory, in[0], out[1]);
    }
    close(in[0]);
    close(out[1]);
    close(memory);
    to_server = in[1];
    from_server = out[0];
    return slots;
}

void hand_slot(unsigned number)
{
    uint8_t byte = (uint8_t)number;
    if (write(to_server, &byte, 1) != 1)
        perror("server");
}

bool take_slot(unsigned number)
{
    uint8_t byte;
    return read(from_server, &byte, 1) == 1 && byte == number;
}

bool end_server(void)
{
    int status;
    close(to_server);
    close(from_server);
    return waitpid(server, &status, 0) == server && WIFEXITED(status) &&
           WEXITSTATUS(status) == 0;
}
