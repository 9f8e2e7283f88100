/* A call on a stack that is too small ends at the guard page, and nothing behind that page is written: 0 is returned then. */
#define _GNU_SOURCE
#include <pthread.h>
#include <signal.h>
#include <stdio.h>
#include <string.h>
#include <sys/mman.h>
#include <unistd.h>

#include "pnl.h"

enum { PAGE = 4096, BEHIND = 256 * 1024, STACK = 64 * 1024 };

static unsigned char *memory, *guard;

static void end(int status, const char *words)
{
    if (write(STDERR_FILENO, words, strlen(words)) < 0)
        _exit(2);
    _exit(status);
}

static void faulted(int signal, siginfo_t *info, void *context)
{
    const unsigned char *at = info->si_addr;
    size_t i;

    (void)signal;
    (void)context;
    if (at < guard || at >= guard + PAGE)
        end(1, "the fault is not in the guard page\n");
    for (i = 0; i < BEHIND; i++)
        if (memory[i] != 0xA5)
            end(1, "memory behind the guard page is written\n");
    end(0, "");
}

static void *call(void *unused)
{
    static unsigned char other[64 * 1024];
    static const uint8_t list[] = { 'P', 'N', 'L', 1, 0 };
    stack_t handlers;

    memset(&handlers, 0, sizeof handlers);
    handlers.ss_sp = other;
    handlers.ss_size = sizeof other;
    if (sigaltstack(&handlers, NULL) != 0)
        end(2, "sigaltstack fails\n");
    pnl_sheet(list, sizeof list, NULL, 0);
    end(1, "a call fits into 64 KiB\n");
    return unused;
}

int main(void)
{
    struct sigaction action;
    pthread_attr_t attributes;
    pthread_t thread;

    memory = mmap(NULL, BEHIND + PAGE + STACK, PROT_READ | PROT_WRITE, MAP_PRIVATE | MAP_ANONYMOUS, -1, 0);
    if (memory == MAP_FAILED)
        end(2, "mmap fails\n");
    memset(memory, 0xA5, BEHIND);
    guard = memory + BEHIND;
    memset(&action, 0, sizeof action);
    action.sa_sigaction = faulted;
    action.sa_flags = SA_SIGINFO | SA_ONSTACK;
    if (mprotect(guard, PAGE, PROT_NONE) != 0 || sigaction(SIGSEGV, &action, NULL) != 0)
        end(2, "mprotect or sigaction fails\n");
    if (pthread_attr_init(&attributes) != 0 || pthread_attr_setstack(&attributes, guard + PAGE, STACK) != 0 ||
        pthread_create(&thread, &attributes, call, NULL) != 0)
        end(2, "no thread\n");
    pthread_join(thread, NULL);
    return 1;
}
