/* spend LOG COMMAND..: runs a command with its output in a file, and prints its wall seconds, the peak of its memory in KiB and its
 * exit status (128 and the signal, if one ended it).
 *
 * It is a program of its own since a process inherits the peak of the one that starts it, and Python's would hide small ones. */
#define _GNU_SOURCE
#include <fcntl.h>
#include <stdio.h>
#include <sys/resource.h>
#include <sys/wait.h>
#include <time.h>
#include <unistd.h>

static double now(void) {
  struct timespec t;
  clock_gettime(CLOCK_MONOTONIC, &t);
  return t.tv_sec + t.tv_nsec / 1e9;
}

int main(int argc, char **argv) {
  if (argc < 3) return 64;
  double start = now();
  pid_t child = fork();
  if (child == 0) {
    int log = open(argv[1], O_WRONLY | O_CREAT | O_TRUNC, 0644);
    if (log >= 0 && dup2(log, 1) >= 0 && dup2(log, 2) >= 0) execv(argv[2], argv + 2);
    _exit(127);
  }
  int status;
  struct rusage usage;
  if (child < 0 || wait4(child, &status, 0, &usage) != child) return 70;
  double seconds = now() - start;
  printf("%.6f %ld %d\n", seconds, usage.ru_maxrss, WIFEXITED(status) ? WEXITSTATUS(status) : 128 + WTERMSIG(status));
  return 0;
}
